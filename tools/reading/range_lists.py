"""The ranges of items and of units (DWARF 5, 2.17.2, 2.17.3, 7.25 and 7.28; DWARF 4, 2.17.3)."""
from . import attributes, faults, forms, numbers
from .faults import Code, Fault
from .numbers import GREATEST, Missing


def is_kept(low, end):
    """Ranges of what the linker dropped, of no byte, and past the last address are left out."""
    return 0 < low < GREATEST - 1 and low < end <= GREATEST


class RangeReader:
    """The ranges of one unit.  Its calls raise the code of what is wrong, or Missing where a list ends too early."""

    def __init__(self, sections, unit, root):
        self.sections, self.unit, self.root = sections, unit, root
        self.addr_base = attributes.base(root, attributes.ADDR_BASE)
        self.rnglists_base = attributes.base(root, attributes.RNGLISTS_BASE)

    def _at_index(self, index):
        """The address at an index behind the unit's base in `.debug_addr`."""
        if self.addr_base is None:
            raise Code(faults.NO_BASE)
        data = self.sections.get(b".debug_addr")
        return numbers.fixed(data, self.addr_base + 8 * index, len(data), 8)[0]

    def _address(self, value):
        sort, says = value
        return self._at_index(says) if sort == forms.ADDRESS_INDEX else says

    def _first_base(self):
        low = attributes.low_pc(self.root)
        return 0 if low is None else self._address(low)

    def _pairs(self, at, base):
        """A list of versions 2 to 4."""
        data, found = self.sections.get(b".debug_ranges"), []
        while True:
            low, at = numbers.fixed(data, at, len(data), 8)
            end, at = numbers.fixed(data, at, len(data), 8)
            if low == 0 and end == 0:
                return found
            if low == GREATEST:
                base = end
            else:
                found.append((base + low, base + end))

    def _place(self, value):
        """The place of a list in `.debug_rnglists`."""
        sort, says = value
        if sort == forms.OFFSET:
            return says
        if self.rnglists_base is None:
            raise Code(faults.NO_BASE)
        data, size = self.sections.get(b".debug_rnglists"), numbers.offset_size(self.unit.wide)
        return self.rnglists_base + numbers.fixed(data, self.rnglists_base + says * size, len(data), size)[0]

    def _kinds(self, at, base):
        """A list of version 5.  An index is looked up as soon as it was read."""
        data, found = self.sections.get(b".debug_rnglists"), []
        while True:
            kind, at = numbers.fixed(data, at, len(data), 1)
            if kind == 0:
                return found
            if kind in (1, 5):
                base, at = self._member(data, at, "index" if kind == 1 else "address")
                continue
            if kind not in MEMBERS:
                raise Missing
            first, second = MEMBERS[kind]
            low, at = self._member(data, at, first)
            end, at = self._member(data, at, second)
            if kind == 4:
                low, end = base + low, base + end
            elif kind in (3, 7):
                end += low
            found.append((low, end))

    def _member(self, data, at, sort):
        if sort == "address":
            return numbers.fixed(data, at, len(data), 8)
        value, at = numbers.uleb(data, at, len(data))
        return (self._at_index(value) if sort == "index" else value), at

    def _list(self, value):
        base = self._first_base()
        if self.unit.version == 5:
            return self._kinds(self._place(value), base)
        return self._pairs(value[1], base)

    def _by(self, item):
        """The ranges of an item, or None where it has neither a list nor both ends."""
        value = attributes.ranges_value(item)
        if value is not None:
            return self._list(value)
        low, high = attributes.low_pc(item), attributes.high_pc(item)
        if low is None or high is None:
            return None
        low = self._address(low)
        end = low + high[1] if high[0] == forms.UNSIGNED else self._address(high)
        return [(low, end)]

    def ranges_by(self, item):
        try:
            return self._by(item)
        except Missing:
            raise Fault(faults.BAD_RANGE, item.offset) from None
        except Code as fault:
            raise Fault(fault.code, item.offset) from None


MEMBERS = {2: ("index", "index"), 3: ("index", "number"), 4: ("number", "number"), 6: ("address", "address"),
           7: ("address", "number")}


def ranges_of(sections, unit, items, subprograms):
    """The ranges of a unit: those of its root, or else those of its indexed subprograms.  The dropped ones are left out."""
    if not items:
        return []
    reader = RangeReader(sections, unit, items[0])
    ranges = reader.ranges_by(items[0])
    if ranges is None:
        ranges = [pair for item in subprograms for pair in reader.ranges_by(item) or []]
    return [pair for pair in ranges if is_kept(*pair)]
