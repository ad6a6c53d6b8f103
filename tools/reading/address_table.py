"""The address table of a program, `.debug_aranges` (DWARF 5, 6.1.2 and 7.21)."""
from . import addresses, faults, numbers
from .faults import Fault
from .numbers import Missing
from .range_lists import is_kept
from .units import INFO


def _pairs(data, at, end):
    """The pairs of an address and a length up to the pair of zeros."""
    found = []
    while True:
        address, at = numbers.fixed(data, at, end, 8)
        length, at = numbers.fixed(data, at, end, 8)
        if address == 0 and length == 0:
            return found
        found.append((address, address + length))


def _set_at(data, start, by_start):
    """(ranges (low, end, unit) of the set, its end), or its first fault."""
    try:
        (length, wide), at = numbers.initial_length(data, start, len(data))
        end = numbers.skip(at, len(data), length)
        version, at = numbers.fixed(data, at, end, 2)
        offset, at = numbers.offset(data, at, end, wide)
        address_size, at = numbers.fixed(data, at, end, 1)
        segment_size, at = numbers.fixed(data, at, end, 1)
    except Missing:
        raise Fault(faults.ARANGES_LENGTH, start) from None
    if version != 2:
        raise Fault(faults.ARANGES_VERSION, start)
    if offset not in by_start:
        raise Fault(faults.ARANGES_UNIT, start)
    if (address_size, segment_size) != (8, 0):
        raise Fault(faults.ARANGES_SIZES, start)
    first = start + -(-(at - start) // 16) * 16
    try:
        pairs = _pairs(data, first, end)
    except Missing:
        raise Fault(faults.ARANGES_NO_END, start) from None
    return [(low, high, by_start[offset]) for low, high in pairs if is_kept(low, high)], end


def table_pieces(program):
    """The unit at each address by the sets of the table, or the first fault of a set."""
    data, at, ranges = program.sections.get(b".debug_aranges"), 0, []
    by_start = {unit.start: unit.number for unit in program.units if unit.part == INFO}
    while at < len(data):
        found, at = _set_at(data, at, by_start)
        ranges += found
    return addresses.pieces_of(ranges)


def first_difference(program):
    return addresses.first_difference(table_pieces(program), program.pieces)
