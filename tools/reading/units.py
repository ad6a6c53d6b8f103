"""The units that tile `.debug_info` and then `.debug_types` (DWARF 5, 7.5.1; DWARF 4, 7.5.1)."""
from . import faults, limits, numbers
from .faults import Fault
from .numbers import Missing

COMPILE, TYPE, PARTIAL, SKELETON = 1, 2, 3, 4
INFO, TYPES = ".debug_info", ".debug_types"


class Unit:
    """A unit.  `start` and `end` are its places in the bytes of its section, `joint` is its joint offset."""

    __slots__ = ("number", "part", "data", "start", "end", "joint", "wide", "version", "sort", "abbreviations", "body",
                 "signature", "type_offset")

    def offset_of(self, at):
        """The joint offset of a place in the unit's section."""
        return self.joint - self.start + at

    def is_type_unit(self):
        return self.sort == TYPE


def _old_fields(unit, at):
    unit.sort = TYPE if unit.part == TYPES else COMPILE
    unit.abbreviations, at = numbers.offset(unit.data, at, unit.end, unit.wide)
    size, at = numbers.fixed(unit.data, at, unit.end, 1)
    if size != 8:
        raise Fault(faults.ADDRESS_SIZE, unit.joint)
    return at


def _new_fields(unit, at):
    unit.sort, at = numbers.fixed(unit.data, at, unit.end, 1)
    if unit.sort not in (COMPILE, TYPE, PARTIAL, SKELETON):
        raise Fault(faults.UNIT_TYPE, unit.joint)
    size, at = numbers.fixed(unit.data, at, unit.end, 1)
    if size != 8:
        raise Fault(faults.ADDRESS_SIZE, unit.joint)
    unit.abbreviations, at = numbers.offset(unit.data, at, unit.end, unit.wide)
    return at


def _head(unit, at):
    """The fields behind the initial length, each tested as soon as it was read."""
    unit.version, at = numbers.fixed(unit.data, at, unit.end, 2)
    if unit.version not in ((2, 3, 4, 5) if unit.part == INFO else (4,)):
        raise Fault(faults.UNIT_VERSION, unit.joint)
    at = _new_fields(unit, at) if unit.version == 5 else _old_fields(unit, at)
    unit.signature = unit.type_offset = None
    if unit.sort == TYPE:
        unit.signature, at = numbers.fixed(unit.data, at, unit.end, 8)
        unit.type_offset, at = numbers.offset(unit.data, at, unit.end, unit.wide)
    elif unit.sort == SKELETON:
        at = numbers.skip(at, unit.end, 8)
    unit.body = at


def _unit_at(data, part, at, before, number):
    unit = Unit()
    unit.number, unit.part, unit.data, unit.start, unit.joint = number, part, data, at, before + at
    try:
        (length, unit.wide), at = numbers.initial_length(data, at, len(data))
        unit.end = numbers.skip(at, len(data), length)
        _head(unit, at)
    except Missing:
        raise Fault(faults.UNIT_LENGTH, unit.joint) from None
    if number >= limits.UNITS:
        raise Fault(faults.TOO_MANY_UNITS, unit.joint)
    return unit


def units_of(sections):
    """All units in section order, or the first fault."""
    units, before = [], 0
    for part in (INFO, TYPES):
        data, at = sections.get(part.encode()), 0
        while at < len(data):
            unit = _unit_at(data, part, at, before, len(units))
            units.append(unit)
            at = unit.end
        before += len(data)
    return units
