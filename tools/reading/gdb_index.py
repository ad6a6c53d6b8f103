"""The bytes of a `.gdb_index` of version 8 or 9 (GDB manual, "Index Section Format")."""
import struct

from . import hashes, limits


class TooLarge(Exception):
    """An index that its format can't hold."""


def element(number, kind, static):
    return number | kind << 28 | static << 31


def index_numbers(units):
    """The index's own number of each unit: type units stand behind all others."""
    order = [unit for unit in units if not unit.is_type_unit()] + [unit for unit in units if unit.is_type_unit()]
    return {unit.number: place for place, unit in enumerate(order)}


def _unit_lists(units):
    own = [struct.pack("<QQ", unit.start, unit.end - unit.start) for unit in units if not unit.is_type_unit()]
    types = [struct.pack("<QQQ", unit.start, unit.type_offset, unit.signature) for unit in units if unit.is_type_unit()]
    return b"".join(own), b"".join(types)


def _vectors(listed, numbers):
    """Of each name, in byte order, its ascending distinct elements."""
    found = {}
    for name, unit, kind, static in listed:
        found.setdefault(name, set()).add(element(numbers[unit], kind, static))
    return {name: tuple(sorted(found[name])) for name in sorted(found)}


def _pool(vectors, main):
    """The bytes of the constant pool, the place of each vector in it and the place of each name. Main's stands there, listed or not."""
    pool, vector_places, name_places = bytearray(), {}, {}
    for vector in vectors.values():
        if vector not in vector_places:
            vector_places[vector] = len(pool)
            pool += struct.pack("<%dI" % (1 + len(vector)), len(vector), *vector)
    for name in [*vectors, main]:
        if name is None or name in name_places:
            continue
        name_places[name] = len(pool)
        pool += name + b"\0"
    return bytes(pool), vector_places, name_places


def slot_count(names):
    if names == 0:
        return 0
    slots = 1
    while 4 * names > 3 * slots:
        slots *= 2
    return slots


def _slots(vectors, vector_places, name_places):
    slots = [(0, 0)] * slot_count(len(vectors))
    taken = set()
    for name, vector in vectors.items():
        place = next(place for place in hashes.path(name, len(slots)) if place not in taken)
        taken.add(place)
        slots[place] = name_places[name], vector_places[vector]
    return b"".join(struct.pack("<II", *slot) for slot in slots)


def gdb_index_bytes(program, version):
    own = [entry for entry in program.entries if not entry.linkage]
    return gdb_index_of(program, version, [(entry.name, entry.unit, entry.kind, entry.static) for entry in own], program.main)


def gdb_index_of(program, version, listed, main):
    """The index with this main in which these are listed: names with their unit, kind and whether they are static."""
    numbers = index_numbers(program.units)
    vectors = _vectors(listed, numbers)
    pool, vector_places, name_places = _pool(vectors, main[1] if main and version == 9 else None)
    areas = list(_unit_lists(program.units))
    areas.append(b"".join(struct.pack("<QQI", low, end, numbers[unit]) for low, end, unit in program.pieces))
    areas.append(_slots(vectors, vector_places, name_places))
    if version == 9:
        language, name = main or (0, None)
        areas.append(struct.pack("<II", language, name_places[name] if main else 0))
    areas.append(pool)
    return _with_header(version, areas)


def _with_header(version, areas):
    place, header = 4 + 4 * len(areas), [version]
    for area in areas:
        header.append(place)
        place += len(area)
    if place > limits.GDB_INDEX:
        raise TooLarge
    return struct.pack("<%dI" % len(header), *header) + b"".join(areas)
