"""What the bytes of a `.debug_names` mean, whoever made them, or their first fault (DWARF 5, 6.1.1.4)."""
from . import faults, hashes, numbers
from .faults import Fault
from .numbers import Missing

COMPILE, TYPE, FOREIGN = "compile", "type", "foreign"
COMPILE_UNIT, TYPE_UNIT, DIE_OFFSET = 1, 2, 3
FIXED = {0x0B: 1, 0x05: 2, 0x06: 4, 0x07: 8, 0x11: 1, 0x12: 2, 0x13: 4, 0x14: 8, 0x0C: 1}
ULEBS, SDATA, OFFSETS, FLAG_PRESENT = (0x0F, 0x15), 0x0D, (0x10, 0x17), 0x19
FORMS = (*FIXED, *ULEBS, SDATA, *OFFSETS, FLAG_PRESENT)
COUNTS = ("units", "local", "foreign", "buckets", "names", "abbreviations", "augmentation")


class NameIndex:
    """An index without a fault, over the strings from the base on."""

    def __init__(self, data, strings, base):
        self.data, self.strings, self.base = data, strings, base
        self.counts, self.areas = {}, {}
        self._read_tables()
        self.abbreviations = self._abbreviations()
        self._check_buckets()
        self.entries = {}       # of each place of the pool the entry there and the place behind it
        self.names = [self._name(number) for number in range(self.counts["names"])]

    def _read_tables(self):
        """The header and where each table behind it lies."""
        data = self.data
        try:
            (length, self.wide), at = numbers.initial_length(data, 0, len(data))
        except Missing:
            raise Fault(faults.NAMES_LENGTH, 0) from None
        if at + length != len(data):
            raise Fault(faults.NAMES_LENGTH, 0)
        if data[at:at + 2] != b"\5\0":
            raise Fault(faults.NAMES_VERSION, at)
        first = at + 4
        try:
            self._place_tables(first)
        except Missing:
            raise Fault(faults.NAMES_COUNTS, first) from None

    def _place_tables(self, at):
        end = len(self.data)
        for name in COUNTS:
            self.counts[name], at = numbers.fixed(self.data, at, end, 4)
        counts, size = self.counts, numbers.offset_size(self.wide)
        at = numbers.skip(at, end, -(-counts["augmentation"] // 4) * 4)
        at = numbers.skip(at, end, size * (counts["units"] + counts["local"]) + 8 * counts["foreign"])
        hashed = counts["names"] if counts["buckets"] else 0
        lengths = (("buckets", 4 * counts["buckets"]), ("hashes", 4 * hashed), ("strings", size * counts["names"]),
                   ("offsets", size * counts["names"]), ("abbreviations", counts["abbreviations"]))
        for name, length in lengths:
            self.areas[name] = at, numbers.skip(at, end, length)
            at = self.areas[name][1]
        self.areas["pool"] = at, end

    def _abbreviations(self):
        at, end = self.areas["abbreviations"]
        table = {}
        while True:
            place = at
            try:
                code, at = numbers.uleb(self.data, at, end)
                if code == 0:
                    return table
                tag, at = numbers.uleb(self.data, at, end)
                attributes, at = self._attributes(at, end)
            except Missing:
                raise Fault(faults.NAMES_ABBREVIATION, place) from None
            table.setdefault(code, (tag, attributes))

    def _attributes(self, at, end):
        found = []
        while True:
            attribute, at = numbers.uleb(self.data, at, end)
            form, at = numbers.uleb(self.data, at, end)
            if attribute == 0 and form == 0:
                return found, at
            if form not in FORMS:
                raise Missing
            found.append((attribute, form))

    def _word(self, area, number, size=4):
        """(the number at a place of a table, that place)."""
        place = self.areas[area][0] + size * number
        return int.from_bytes(self.data[place:place + size], "little"), place

    def _check_buckets(self):
        for number in range(self.counts["buckets"]):
            first, place = self._word("buckets", number)
            if first > self.counts["names"]:
                raise Fault(faults.NAMES_BUCKET, place)

    def _name(self, number):
        """(string, where its entries begin); all that is said of the name is tested."""
        size = numbers.offset_size(self.wide)
        offset, place = self._word("strings", number, size)
        if offset < self.base:
            raise Fault(faults.NAMES_STRING_OFFSET, place)
        try:
            string, _ = numbers.zstr(self.strings, offset - self.base, len(self.strings))
        except Missing:
            raise Fault(faults.NAMES_STRING_OFFSET, place) from None
        if self.counts["buckets"]:
            self._check_hash(number, string)
        start, place = self._word("offsets", number, size)
        pool, end = self.areas["pool"]
        if start > end - pool:
            raise Fault(faults.NAMES_ENTRY_POOL, place)
        self._read_entries(pool + start)
        return string, pool + start

    def _check_hash(self, number, string):
        """The hash of the name, and that it stands in its bucket."""
        hashed, place = self._word("hashes", number)
        if string.isascii() and hashed != hashes.name_hash(string):
            raise Fault(faults.NAMES_HASH, place)
        count = self.counts["buckets"]
        first, _ = self._word("buckets", hashed % count)
        # the name before it is in the bucket already, or it is the first of its bucket
        begins = first == number + 1
        goes_on = 0 < first <= number and self._word("hashes", number - 1)[0] % count == hashed % count
        if not begins and not goes_on:
            raise Fault(faults.NAMES_BUCKET, place)

    def _read_entries(self, at):
        """Tests the entries from a place on, up to their end or to one that was tested already."""
        while at is not None and at not in self.entries:
            self.entries[at] = self._entry(at)
            at = self.entries[at][1]

    def _entry(self, place):
        """((sort, unit, tag, offset), the place behind), or (None, None) for the code 0."""
        end = len(self.data)
        broken = Fault(faults.NAMES_ENTRY_POOL, place)
        try:
            code, at = numbers.uleb(self.data, place, end)
            if code == 0:
                return None, None
            if code not in self.abbreviations:
                raise broken
            tag, attributes = self.abbreviations[code]
            said = {}
            for attribute, form in attributes:
                value, at = self._value(form, at, end)
                said.setdefault(attribute, value)
        except Missing:
            raise broken from None
        if any(said.get(each, 0) is None or said.get(each, 0) < 0 for each in (COMPILE_UNIT, TYPE_UNIT, DIE_OFFSET)):
            raise broken
        unit = self._unit(said)
        if unit is None or DIE_OFFSET not in said:
            raise broken
        return unit + (tag, said[DIE_OFFSET]), at

    def _value(self, form, at, end):
        """A number, None for flag_present, which says none."""
        if form in FIXED:
            return numbers.fixed(self.data, at, end, FIXED[form])
        if form in ULEBS:
            return numbers.uleb(self.data, at, end)
        if form == SDATA:
            return numbers.sleb(self.data, at, end)
        if form in OFFSETS:
            return numbers.offset(self.data, at, end, self.wide)
        return None, at

    def _unit(self, said):
        """(sort, number in the list of its sort), or None."""
        counts = self.counts
        if TYPE_UNIT in said:
            number = said[TYPE_UNIT]
            if number < counts["local"]:
                return TYPE, number
            number -= counts["local"]
            return (FOREIGN, number) if number < counts["foreign"] else None
        if COMPILE_UNIT in said:
            return (COMPILE, said[COMPILE_UNIT]) if said[COMPILE_UNIT] < counts["units"] else None
        return (COMPILE, 0) if counts["units"] == 1 else None

    def hits(self, name):
        """The entries of all names with this string, in the order of the table."""
        found = []
        for string, at in self.names:
            while string == name and self.entries[at][0] is not None:
                entry, at = self.entries[at]
                found.append(entry)
        return found
