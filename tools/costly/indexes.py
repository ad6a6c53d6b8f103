"""Finished indexes of little length that cost more than their length. Of a `.debug_names` the second value are its strings."""
import struct

from costly.dwarf import spellings, uleb
from costly.prints import one_print

ELEMENTS = struct.pack("<II", 1, 0x10000000)
ABBREVIATION = b"\1\x16\3\x13"


def _hash(name):
    """The hash of a name in a `.gdb_index` of version 8 (GDB manual, "Index Section Format")."""
    value = 0
    for byte in name:
        value = (value * 67 + (byte + 32 if 65 <= byte <= 90 else byte) - 113) & 0xFFFFFFFF
    return value


class Slots:
    """The slots of a symbol table. Each path remembers how far it is full, so that names with one hash cost no square here."""

    def __init__(self, names):
        self.count = 1
        while 4 * names > 3 * self.count:
            self.count *= 2
        self.slots, self.ahead = [(0, 0)] * self.count, {}

    def put(self, value, slot):
        step = value * 17 % self.count | 1
        at = self.ahead.get(value, value % self.count)
        while self.slots[at] != (0, 0):
            at = (at + step) % self.count
        self.slots[at] = slot
        self.ahead[value] = (at + step) % self.count

    def index(self, pool, units=1):
        """A `.gdb_index` of version 8 with so many units."""
        table = 24 + 16 * units
        header = struct.pack("<IIIIII", 8, 24, table, table, table, table + 8 * self.count)
        return header + struct.pack("<QQ", 0, 1) * units + b"".join(struct.pack("<II", *slot) for slot in self.slots) + pool


def _gdb_index(names, front):
    """An index in whose pool these names stand behind their one vector."""
    slots, pool = Slots(len(names)), bytearray(front)
    for name in names:
        slots.put(_hash(name), (len(pool), 0))
        pool += name + b"\0"
    return slots.index(bytes(pool)), None


def one_vector(n):
    """n names, each with one vector of n elements"""
    return _gdb_index([b"%d" % number for number in range(n)], struct.pack("<I", n) + ELEMENTS[4:] * n)


def vectors_inside_one_another(n):
    """n names, each with a vector of n elements of its own: one number is the count of each and an element of those before it"""
    slots, pool = Slots(n), bytearray(struct.pack("<I", n) * (2 * n))
    for number in range(n):
        name = b"%d" % number
        slots.put(_hash(name), (len(pool), 4 * number))
        pool += name + b"\0"
    return slots.index(bytes(pool), n + 1), None


def slots_of_one_hash(n):
    """n names that have one hash"""
    return _gdb_index(list(spellings(n)), ELEMENTS)


def full_slots(n):
    """n names in n slots, where n is a power of two: none is empty, and each name stands far behind its first slot"""
    return _full_index([b"%d" % number for number in range(n)])


def full_slots_of_ends(n):
    """n names in n slots, each an end of one string of 4n bytes, where n is a power of two"""
    length = 4 * n
    slots = Slots(n // 2)
    slots.slots = [(len(ELEMENTS) + length - 2 * end, 0) for end in range(n, 2 * n)]
    return slots.index(ELEMENTS + b"y" * length + b"\0"), None


def slots_of_one_print(n):
    """n names of 24 bytes in n slots, where n is a power of two: none is empty, and all names have the number by which `look` tells names"""
    return _full_index(list(one_print(n)))


def _full_index(names):
    """An index whose slots are full of these names in their order."""
    slots, pool = Slots(len(names) // 2), bytearray(ELEMENTS)
    slots.slots = []
    for name in names:
        slots.slots.append((len(pool), 0))
        pool += name + b"\0"
    return slots.index(bytes(pool)), None


def slots_of_ends(n):
    """n names, each an end of one string of 4n bytes"""
    length, value, slots = 4 * n, 0, Slots(n)
    for end in range(1, length):
        value = (value * 67 + ord("y") - 113) & 0xFFFFFFFF
        if end > length // 2 and end % 2 == 0:
            slots.put(value, (len(ELEMENTS) + length - end, 0))
    return slots.index(ELEMENTS + b"y" * length + b"\0")[:], None


def _name_index(names, abbreviations, pool):
    """A `.debug_names` (DWARF 5, section 6.1.1.4) of one unit without buckets, of whose names each has the first string and list."""
    counts = struct.pack("<HHIIIIIIII", 5, 0, 1, 0, 0, 0, names, len(abbreviations), 0, 0)
    body = counts + bytes(8 * names) + abbreviations + pool
    return struct.pack("<I", len(body)) + body


def a_wide_abbreviation(n):
    """n entries of five bytes, each with n attributes of no bytes"""
    wide = ABBREVIATION + b"\x7e\x19" * n + b"\0\0\0"
    return _name_index(1, wide, b"\1\1\0\0\0" * n + b"\0"), b"y\0"


def many_abbreviations(n):
    """n entries of five bytes and more, each with an abbreviation of its own"""
    codes = [uleb(code) for code in range(1, n + 1)]
    table = b"".join(code + ABBREVIATION[1:] + b"\0\0" for code in codes) + b"\0"
    return _name_index(1, table, b"".join(code + bytes(4) for code in codes) + b"\0"), b"y\0"


def one_string(n):
    """n names, each the one string of 8n bytes"""
    return _name_index(n, ABBREVIATION + b"\0\0\0", b"\1\1\0\0\0\0"), b"y" * (8 * n) + b"\0"


def one_list(n):
    """n names, each with one list of 2n entries"""
    return _name_index(n, ABBREVIATION + b"\0\0\0", b"\1\1\0\0\0" * (2 * n) + b"\0"), b"y\0"


def hashed_ends(n):
    """n names in one bucket, each an end of one string of n bytes"""
    hashes, value, weight = [], 0, 1
    for _ in range(n):
        value, weight = (value + ord("y") * weight) & 0xFFFFFFFF, weight * 33 & 0xFFFFFFFF
        hashes.append((5381 * weight + value) & 0xFFFFFFFF)
    table = ABBREVIATION + b"\0\0\0"
    counts = struct.pack("<HHIIIIIIII", 5, 0, 1, 0, 0, 1, n, len(table), 0, 0)
    offsets = b"".join(struct.pack("<I", n - 1 - number) for number in range(n))
    body = counts + struct.pack("<I", 1) + struct.pack("<%dI" % n, *hashes) + offsets + bytes(4 * n) + table + b"\1\1\0\0\0\0"
    return struct.pack("<I", len(body)) + body, b"y" * n + b"\0"
