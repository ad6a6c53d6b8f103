"""What the bytes of a `.gdb_index` mean, whoever made them, or their first fault (GDB manual, "Index Section Format")."""
import struct

from . import faults, hashes, numbers
from .faults import Fault
from .numbers import Missing

VERSIONS = {8: 6, 9: 7}     # how many numbers the header has
UNIT_MASK = 0xFFFFFF


class GdbIndex:
    """An index without a fault.  `slots` has of each slot None, or its name and its elements."""

    def __init__(self, data):
        self.data = data
        self.areas = _areas(data)
        self.unit_count = _units(self.areas)
        self.addresses = self._addresses()
        self.slots = self._slots()
        self.main = self._shortcut()
        self._check_paths()

    def _addresses(self):
        area, end = self.areas["addresses"]
        if (end - area) % 20:
            raise Fault(faults.GDB_ADDRESS_AREA, area)
        found = []
        for place in range(area, end, 20):
            low, high, unit = struct.unpack_from("<QQI", self.data, place)
            if unit >= self.unit_count:
                raise Fault(faults.GDB_ADDRESS_AREA, place)
            found.append((low, high, unit))
        return found

    def _name(self, offset, fault):
        pool, end = self.areas["pool"]
        try:
            return numbers.zstr(self.data, pool + offset, end)[0]
        except Missing:
            raise fault from None

    def _vector(self, offset, fault):
        pool, end = self.areas["pool"]
        try:
            count, at = numbers.fixed(self.data, pool + offset, end, 4)
            numbers.skip(at, end, 4 * count)
        except Missing:
            raise fault from None
        elements = struct.unpack_from("<%dI" % count, self.data, at)
        if any(each & UNIT_MASK >= self.unit_count for each in elements):
            raise fault
        return elements

    def _slots(self):
        table, end = self.areas["table"]
        count = (end - table) // 8
        if (end - table) % 8 or count & (count - 1):
            raise Fault(faults.GDB_TABLE_SIZE, table)
        slots, vectors = [], {}
        for place in range(table, end, 8):
            name, vector = struct.unpack_from("<II", self.data, place)
            if (name, vector) == (0, 0):
                slots.append(None)
                continue
            text = self._name(name, Fault(faults.GDB_BAD_NAME, place))
            if vector not in vectors:
                vectors[vector] = self._vector(vector, Fault(faults.GDB_BAD_VECTOR, place))
            slots.append((text, vectors[vector]))
        return slots

    def _shortcut(self):
        """(language, name) where the language isn't 0; the name is tested of every language."""
        if "shortcut" not in self.areas:
            return None
        place, _ = self.areas["shortcut"]
        language, offset = struct.unpack_from("<II", self.data, place)
        if language == 0:
            return None
        name = self._name(offset, Fault(faults.GDB_BAD_NAME, place))
        return (language, name) if language <= 0xFFFF else None

    def _check_paths(self):
        """A slot is lost where an empty slot or one with its name stands before it on its path."""
        first = {}      # where the path of each name ends
        for number, slot in enumerate(self.slots):
            if slot is None:
                continue
            name = slot[0]
            if name not in first:
                first[name] = self._end_of_path(name)
            if first[name] != number:
                raise Fault(faults.GDB_LOST_SLOT, self.areas["table"][0] + 8 * number)

    def _end_of_path(self, name):
        path = hashes.path(name, len(self.slots))
        return next((place for place in path if self.slots[place] is None or self.slots[place][0] == name), None)

    def elements(self, name):
        """Those of all slots with the name, in the order of the table."""
        return [each for slot in self.slots if slot is not None and slot[0] == name for each in slot[1]]

    def unit_at(self, address):
        """The unit of the first entry that contains the address."""
        return next((unit for low, end, unit in self.addresses if low <= address < end), None)


def _areas(data):
    """(begin, end) of each area, or the fault of the version or of an offset."""
    version = int.from_bytes(data[:4], "little")
    if len(data) < 4 or version not in VERSIONS:
        raise Fault(faults.GDB_VERSION, 0)
    length = 4 * VERSIONS[version]
    if len(data) < length:
        raise Fault(faults.GDB_OFFSETS, 4)
    names = ["units", "types", "addresses", "table", "shortcut", "pool"]
    if version == 8:
        names.remove("shortcut")
    offsets = struct.unpack_from("<%dI" % len(names), data, 4)
    before = length
    for place, offset in enumerate(offsets):
        if offset < before or offset > len(data):
            raise Fault(faults.GDB_OFFSETS, 4 + 4 * place)
        before = offset
    areas = dict(zip(names, zip(offsets, offsets[1:] + (len(data),))))
    if version == 9 and areas["shortcut"][1] - areas["shortcut"][0] < 8:
        raise Fault(faults.GDB_OFFSETS, 4 + 4 * names.index("shortcut"))
    return areas


def _units(areas):
    """How many units the index has."""
    count = 0
    for name, size in (("units", 16), ("types", 24)):
        begin, end = areas[name]
        if (end - begin) % size:
            raise Fault(faults.GDB_UNIT_LIST, begin)
        count += (end - begin) // size
    return count
