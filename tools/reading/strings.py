"""The texts of values (DWARF 5, 7.5.5 and 7.26)."""
from . import attributes, faults, forms, limits, numbers
from .faults import Code, Fault
from .numbers import Missing


def _indexed(sections, unit, base, index):
    """The offset in `.debug_str` that stands at an index."""
    if base is None:
        raise Code(faults.NO_BASE)
    table = sections.get(b".debug_str_offsets")
    size = numbers.offset_size(unit.wide)
    return numbers.fixed(table, base + index * size, len(table), size)[0]


def _raw(sections, unit, base, value):
    sort, says = value
    if sort == forms.INLINE:
        return says
    if sort == forms.STR_INDEX:
        sort, says = forms.STR, _indexed(sections, unit, base, says)
    data = sections.get(b".debug_str" if sort == forms.STR else b".debug_line_str")
    return numbers.zstr(data, says, len(data))[0]


def text_of(sections, unit, base, value):
    """The text of a string form's value, None for an empty one or for no value; or the code of a fault."""
    if value is None:
        return None
    try:
        text = _raw(sections, unit, base, value)
    except Missing:
        raise Code(faults.BAD_STRING) from None
    if len(text) > limits.STRING:
        raise Code(faults.NAME_TOO_LONG)
    return text or None


def read_texts(sections, unit, items):
    """Gives each item its name and its linkage name, in the order of the walk."""
    base = attributes.base(items[0], attributes.STR_OFFSETS_BASE) if items else None
    for item in items:
        try:
            item.name = text_of(sections, unit, base, attributes.name_value(item))
            item.linkage = text_of(sections, unit, base, attributes.linkage_value(item))
        except Code as fault:
            raise Fault(fault.code, item.offset) from None
