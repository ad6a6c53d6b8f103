"""The bytes of a `.debug_names` and of the strings that it adds to `.debug_str` (DWARF 5, 6.1.1)."""
import struct

from . import hashes, limits
from .gdb_index import TooLarge
from .numbers import put_uleb
from .units import INFO

COMPILE_UNIT, TYPE_UNIT, DIE_OFFSET = 1, 2, 3
UDATA, REF4 = 0x0F, 0x13


def _unit_lists(units):
    """(the units that aren't type units, the type units), each of `.debug_info` alone."""
    own = [unit for unit in units if unit.part == INFO]
    return [unit for unit in own if not unit.is_type_unit()], [unit for unit in own if unit.is_type_unit()]


def _listed(program):
    """Of each name its entries in section order."""
    found = {}
    for entry in program.entries:
        if entry.item.unit.part == INFO:
            found.setdefault(entry.name if entry.linkage else entry.simple(), []).append(entry)
    return found


def _sort(entry):
    return TYPE_UNIT if entry.item.unit.is_type_unit() else COMPILE_UNIT


def _abbreviations(codes):
    rows = [put_uleb(code) + put_uleb(tag) + bytes((sort, UDATA, DIE_OFFSET, REF4, 0, 0)) for (tag, sort), code in codes.items()]
    return b"".join(rows) + b"\0"


def _buckets(names):
    """The names in their order, and of each bucket the place of its first name, counted from 1."""
    count = len(names)
    order = sorted(names, key=lambda name: (hashes.name_hash(name) % count, hashes.name_hash(name), name))
    buckets = [0] * count
    for place, name in enumerate(order, 1):
        bucket = hashes.name_hash(name) % count
        buckets[bucket] = buckets[bucket] or place
    return order, buckets


def _pool(order, listed, codes, numbers):
    """The entries of the names in their order, and where those of each begin."""
    pool, places = bytearray(), []
    for name in order:
        places.append(len(pool))
        for entry in listed[name]:
            unit = entry.item.unit
            pool += put_uleb(codes[entry.tag, _sort(entry)]) + put_uleb(numbers[unit.number])
            pool += struct.pack("<I", entry.offset - unit.joint)
        pool.append(0)
    return bytes(pool), places


def name_index(program):
    """(the index, the strings that it adds)."""
    own, types = _unit_lists(program.units)
    numbers = {unit.number: place for units in (own, types) for place, unit in enumerate(units)}
    listed = _listed(program)
    order, buckets = _buckets(listed)
    pairs = sorted({(entry.tag, _sort(entry)) for entries in listed.values() for entry in entries})
    codes = {pair: code for code, pair in enumerate(pairs, 1)}
    abbreviations = _abbreviations(codes)
    pool, entry_places = _pool(order, listed, codes, numbers)
    old = len(program.sections.get(b".debug_str"))
    string_places, strings = {}, bytearray()
    for name in sorted(listed):
        string_places[name] = old + len(strings)
        strings += name + b"\0"
    if old + len(strings) > limits.DEBUG_STR:
        raise TooLarge
    words = [unit.start for unit in own + types] + buckets + [hashes.name_hash(name) for name in order]
    words += [string_places[name] for name in order] + entry_places
    counts = struct.pack("<HH7I", 5, 0, len(own), len(types), 0, len(buckets), len(order), len(abbreviations), 0)
    rest = counts + struct.pack("<%dI" % len(words), *words) + abbreviations + pool
    if 4 + len(rest) > limits.DEBUG_NAMES:
        raise TooLarge
    return struct.pack("<I", len(rest)) + rest, bytes(strings)
