"""What the attributes of an item say.  One in a form that isn't read for it counts as absent."""
from . import forms

LOCATION, NAME, STMT_LIST, LOW_PC, HIGH_PC, LANGUAGE, IMPORT = 0x02, 0x03, 0x10, 0x11, 0x12, 0x13, 0x18
CONST_VALUE, ABSTRACT_ORIGIN, CALLING_CONVENTION, DECLARATION, EXTERNAL = 0x1C, 0x31, 0x36, 0x3C, 0x3F
SPECIFICATION, ENTRY_PC, RANGES, SIGNATURE, MAIN_SUBPROGRAM, ENUM_CLASS, LINKAGE_NAME = 0x47, 0x52, 0x55, 0x69, 0x6A, 0x6D, 0x6E
STR_OFFSETS_BASE, ADDR_BASE, RNGLISTS_BASE, OLD_LINKAGE_NAME = 0x72, 0x73, 0x74, 0x2007

STRINGS = (forms.INLINE, forms.STR, forms.LINE_STR, forms.STR_INDEX)
ADDRESSES = (forms.ADDRESS, forms.ADDRESS_INDEX)
REFERENCES = (forms.NEAR, forms.FAR)


def _in(item, attribute, sorts):
    """The value, if it has one of these sorts."""
    value = item.first(attribute)
    return value if value is not None and value[0] in sorts else None


def constant(item, attribute):
    """A constant that isn't negative, as a number."""
    value = item.first(attribute)
    if value is not None and value[0] in (forms.UNSIGNED, forms.SIGNED) and value[1] >= 0:
        return value[1]
    return None


def has_flag(item, attribute):
    return item.first(attribute) == (forms.FLAG, True)


def name_value(item):
    return _in(item, NAME, STRINGS)


def linkage_value(item):
    return _in(item, LINKAGE_NAME, STRINGS) or _in(item, OLD_LINKAGE_NAME, STRINGS)


def low_pc(item):
    return _in(item, LOW_PC, ADDRESSES)


def high_pc(item):
    value = _in(item, HIGH_PC, ADDRESSES)
    if value is None and constant(item, HIGH_PC) is not None:
        value = forms.UNSIGNED, constant(item, HIGH_PC)
    return value


def _offset_by_version(item, attribute):
    """A section offset; in versions 2 and 3 a constant is one too."""
    value = _in(item, attribute, (forms.OFFSET,))
    if value is None and item.unit.version in (2, 3) and constant(item, attribute) is not None:
        value = forms.OFFSET, constant(item, attribute)
    return value


def ranges_value(item):
    if item.unit.version == 5:
        return _in(item, RANGES, (forms.OFFSET, forms.RANGE_INDEX))
    return _offset_by_version(item, RANGES)


def line_offset(item):
    value = _offset_by_version(item, STMT_LIST)
    return None if value is None else value[1]


def has_address(item):
    return low_pc(item) is not None or ranges_value(item) is not None or _in(item, ENTRY_PC, ADDRESSES) is not None


def next_reference(item):
    return _in(item, SPECIFICATION, REFERENCES) or _in(item, ABSTRACT_ORIGIN, REFERENCES)


def import_reference(item):
    return _in(item, IMPORT, REFERENCES)


def signature(item):
    value = _in(item, SIGNATURE, (forms.SIGNATURE,))
    return None if value is None else value[1]


def base(root, attribute):
    """A base of an indexed form: an offset of a section, on the root."""
    value = None if root is None else _in(root, attribute, (forms.OFFSET,))
    return None if value is None else value[1]


def says_main(item):
    return has_flag(item, MAIN_SUBPROGRAM) or constant(item, CALLING_CONVENTION) == 2
