"""The value of a form (DWARF 5, 7.5.6): one row for each form.  A value is a sort and what it says."""
from . import faults, numbers
from .faults import Code
from .numbers import Missing

ADDRESS, ADDRESS_INDEX = "address", "address index"
UNSIGNED, SIGNED, WIDE, FLAG, BLOCK = "unsigned", "signed", "16 bytes", "flag", "block"
INLINE, STR, LINE_STR, STR_INDEX = "inline", "str", "line str", "str index"
NEAR, FAR, SIGNATURE = "near", "far", "signature"
OFFSET, RANGE_INDEX, LIST_INDEX = "offset", "range index", "list index"

INDIRECT, IMPLICIT_CONST, FLAG_PRESENT, REF_ADDR = 0x16, 0x21, 0x19, 0x10
SUPPLEMENTARY = (0x1C, 0x1D, 0x24)

FIXED = {
    0x01: (ADDRESS, 8),
    0x0B: (UNSIGNED, 1), 0x05: (UNSIGNED, 2), 0x06: (UNSIGNED, 4), 0x07: (UNSIGNED, 8), 0x1E: (WIDE, 16),
    0x25: (STR_INDEX, 1), 0x26: (STR_INDEX, 2), 0x27: (STR_INDEX, 3), 0x28: (STR_INDEX, 4),
    0x29: (ADDRESS_INDEX, 1), 0x2A: (ADDRESS_INDEX, 2), 0x2B: (ADDRESS_INDEX, 3), 0x2C: (ADDRESS_INDEX, 4),
    0x11: (NEAR, 1), 0x12: (NEAR, 2), 0x13: (NEAR, 4), 0x14: (NEAR, 8), 0x20: (SIGNATURE, 8),
}
OFFSETS = {0x0E: STR, 0x1F: LINE_STR, 0x10: FAR, 0x17: OFFSET}
ULEBS = {0x0F: UNSIGNED, 0x15: NEAR, 0x1A: STR_INDEX, 0x1B: ADDRESS_INDEX, 0x22: LIST_INDEX, 0x23: RANGE_INDEX}
COUNTED = {0x0A: 1, 0x03: 2, 0x04: 4}
ULEB_COUNTED = (0x09, 0x18)


def _counted(data, at, end, form):
    if form in COUNTED:
        count, at = numbers.fixed(data, at, end, COUNTED[form])
    else:
        count, at = numbers.uleb(data, at, end)
    behind = numbers.skip(at, end, count)
    return (BLOCK, data[at:behind]), behind


def _direct(unit, form, constant, at):
    """The value of any form but indirect.  Missing where the unit ends before it."""
    data, end = unit.data, unit.end
    if form in FIXED:
        sort, size = FIXED[form]
        value, at = numbers.fixed(data, at, end, size)
        return (sort, value), at
    if form in OFFSETS:
        # in version 2 a reference to another unit has the size of an address
        wide = unit.wide or (form == REF_ADDR and unit.version == 2)
        value, at = numbers.offset(data, at, end, wide)
        return (OFFSETS[form], value), at
    if form in ULEBS:
        value, at = numbers.uleb(data, at, end)
        return (ULEBS[form], value), at
    if form in COUNTED or form in ULEB_COUNTED:
        return _counted(data, at, end, form)
    return _other(unit, form, constant, at)


def _other(unit, form, constant, at):
    if form == 0x08:
        text, at = numbers.zstr(unit.data, at, unit.end)
        return (INLINE, text), at
    if form == 0x0C:
        byte, at = numbers.fixed(unit.data, at, unit.end, 1)
        return (FLAG, byte != 0), at
    if form == 0x0D:
        value, at = numbers.sleb(unit.data, at, unit.end)
        return (SIGNED, value), at
    if form == FLAG_PRESENT:
        return (FLAG, True), at
    if form == IMPLICIT_CONST:
        return (SIGNED, constant), at
    raise Code(faults.SUPPLEMENTARY if form in SUPPLEMENTARY else faults.UNKNOWN_FORM)


def read_value(unit, form, constant, at):
    """The value at a place of the unit's section and the place behind it, or the code of a fault."""
    try:
        if form == INDIRECT:
            form, at = numbers.uleb(unit.data, at, unit.end)
            if form in (INDIRECT, IMPLICIT_CONST):
                raise Code(faults.UNKNOWN_FORM)
        return _direct(unit, form, constant, at)
    except Missing:
        raise Code(faults.TRUNCATED) from None
