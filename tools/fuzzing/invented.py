"""Programs that no compiler makes: units of all versions and sorts with entries, attributes, forms and references picked at random,
so that rare rules meet one another.  Most are well formed."""
from reading.numbers import put_uleb

NAMES = (b"a", b"b", b"main", b"f", b"C", b"n", b"_ada_x", b"p__q", b"p__q__2", b"a__1", b"p__Q", b"", b"long_name_of_many_letters")
LANGUAGES = (0x0C, 0x1D, 0x01, 0x04, 0x21, 0x1A, 0x0D, 0x2F, 0x1C, 0x00, 0x2C, 0x2A)
TAGS = (0x39, 0x02, 0x13, 0x17, 0x38, 0x04, 0x16, 0x24, 0x21, 0x28, 0x2E, 0x2E, 0x2E, 0x34, 0x34, 0x27, 0x0B, 0x05, 0x1D)
ADDRESSES = (0, 1, 0x1000, 0x1010, 0x1020, 0x1800, 0x2000, 0x2008, 2 ** 64 - 3, 2 ** 64 - 2, 2 ** 64 - 1)
SIZES = (0, 1, 0x10, 0x20, 0x800)
SIGNATURES = (1, 2, 3)
STR, LINE_STR = b"\0", b"\0line\0"
PLACES = {}
for _name in NAMES:
    PLACES[_name] = len(STR), len(LINE_STR)
    STR, LINE_STR = STR + _name + b"\0", LINE_STR + _name + b"\0"


def little(value, size):
    return value.to_bytes(size, "little")


def sleb(value):
    """Of a number from -64 to 2^62."""
    out = bytearray()
    while value >= 64:
        out.append(0x80 | value & 0x7F)
        value >>= 7
    out.append(value & 0x7F)
    return bytes(out)


class Reference:
    """A value that is written once the places of all entries are known."""

    def __init__(self, target, near, size):
        self.target, self.near, self.size = target, near, size


class Entry:
    def __init__(self, unit, tag, children):
        self.unit, self.tag, self.children, self.attributes, self.at = unit, tag, children, [], None

    def add(self, attribute, form, value):
        self.attributes.append((attribute, form, value))


class Unit:
    def __init__(self, random, is_first):
        self.types = not is_first and random.random() < 0.15
        self.version = 4 if self.types else random.choice((2, 3, 4, 4, 5, 5, 5, 5))
        self.wide = random.random() < 0.25
        self.sort = random.choice((1, 1, 1, 2, 3, 3, 4)) if self.version == 5 else 2 if self.types else 1
        self.signature, self.entries = random.choice(SIGNATURES), []
        self.size = 8 if self.wide else 4
        self.described = None

    def head(self, at_of):
        """The header behind the initial length."""
        described = at_of(self.described) if self.described else 0
        typed = little(self.signature, 8) + little(described, self.size)
        if self.version < 5:
            return little(self.version, 2) + bytes(self.size) + b"\x08" + (typed if self.types else b"")
        rest = typed if self.sort == 2 else bytes(8) if self.sort == 4 else b""
        return little(5, 2) + bytes((self.sort, 8)) + bytes(self.size) + rest

    def length_size(self):
        return 12 if self.wide else 4


# ---- values in one of the forms that are read for them, now and then in another

def text(random, unit, name):
    in_str, in_line = PLACES[name]
    index = NAMES.index(name)
    forms = [(0x08, name + b"\0"), (0x0E, little(in_str, unit.size)), (0x1F, little(in_line, unit.size)), (0x25, bytes((index,))),
             (0x26, little(index, 2)), (0x27, little(index, 3)), (0x1A, put_uleb(index)), (0x16, b"\x08" + name + b"\0")]
    return random.choice(forms[:2] if random.random() < 0.6 else forms)


def constant(random, value):
    forms = [(0x0F, put_uleb(value)), (0x07, little(value, 8)), (0x21, value), (0x0D, sleb(value))]
    if value < 2 ** 32:
        forms.append((0x06, little(value, 4)))
    if value < 256:
        forms.append((0x0B, bytes((value,))))
    return random.choice([each for each in forms if value < 2 ** 62 or each[0] in (0x0F, 0x07)])


def address(random):
    index = random.randrange(len(ADDRESSES))
    if random.random() < 0.6:
        return 0x01, little(ADDRESSES[index], 8)
    return random.choice(((0x29, bytes((index,))), (0x1B, put_uleb(index)), (0x2A, little(index, 2))))


def flag(random):
    return random.choice(((0x19, b""), (0x0C, b"\x01"), (0x0C, b"\x02"), (0x0C, b"\0"), (0x0B, b"\x01")))


def ranges(random, unit, lists):
    if unit.version == 5:
        if random.random() < 0.5:
            return 0x23, put_uleb(random.randrange(len(lists.new)))
        return 0x17, little(random.choice(lists.new), unit.size)
    place = random.choice(lists.old)
    if unit.version < 4 and random.random() < 0.5:
        return 0x06, little(place, 4)
    return 0x17, little(place, unit.size)


def reference(random, entry, earlier):
    """One to an earlier entry, of the own unit or of any in `.debug_info`; seldom to what may be none."""
    unit = entry.unit
    if random.random() < 0.01:
        return random.choice(((0x13, little(random.randrange(64), 4)), (0x15, put_uleb(random.randrange(200)))))
    near = [each for each in earlier if each.unit is unit]
    far = [each for each in earlier if not each.unit.types]
    if near and (random.random() < 0.5 or not far):
        return random.choice(((0x13, Reference(random.choice(near), True, 4)), (0x12, Reference(random.choice(near), True, 2))))
    size = 8 if unit.version == 2 else unit.size
    return (0x10, Reference(random.choice(far), False, size)) if far else None


class Lists:
    """The range lists of both sections, and where they begin."""

    def __init__(self, random):
        self.old, self.new, self.ranges, self.rnglists = [], [], b"", b""
        for _ in range(4):
            self.old.append(len(self.ranges))
            self.ranges += b"".join(self._pair(random) for _ in range(random.randrange(4))) + bytes(16)
        for _ in range(4):
            self.new.append(len(self.rnglists))
            self.rnglists += b"".join(self._member(random) for _ in range(random.randrange(4))) + b"\0"
        # the offsets of both sizes stand behind the lists, so they count from there modulo nothing: the lists are repeated
        self.bases, lists = {}, self.rnglists
        for size in (4, 8):
            self.bases[size] = len(self.rnglists)
            table = 4 * size
            self.rnglists += b"".join(little(table + place, size) for place in self.new) + lists

    @staticmethod
    def _pair(random):
        low = random.choice((2 ** 64 - 1, 0, 0x10, 0x1000, 0x1010, 0x1800))
        return little(low, 8) + little((low + random.choice(SIZES)) % 2 ** 64, 8)

    @staticmethod
    def _member(random):
        kind, low, size = random.randrange(1, 8), random.choice(ADDRESSES), random.choice(SIZES)
        index = put_uleb(random.randrange(len(ADDRESSES)))
        other = put_uleb(random.randrange(len(ADDRESSES)))
        return bytes((kind,)) + {1: index, 2: index + other, 3: index + put_uleb(size), 4: put_uleb(size) + put_uleb(size + 0x10),
                                 5: little(low, 8), 6: little(low, 8) + little((low + size) % 2 ** 64, 8),
                                 7: little(low, 8) + put_uleb(size)}[kind]


# ---- entries

def fill_root(random, entry, lists):
    unit = entry.unit
    if random.random() < 0.8:
        entry.add(0x13, *constant(random, random.choice(LANGUAGES)))
    if random.random() < 0.97:
        entry.add(0x72, 0x17, little(16 + (4 * len(NAMES) if unit.wide else 0), unit.size))
    if random.random() < 0.97:
        entry.add(0x73, 0x17, little(8, unit.size))
    if random.random() < 0.97:
        entry.add(0x74, 0x17, little(lists.bases[unit.size], unit.size))
    fill_places(random, entry, lists, 0.3)
    entry.add(0x03, *text(random, unit, random.choice(NAMES)))


def fill_places(random, entry, lists, often):
    if random.random() < often:
        entry.add(0x11, *address(random))
    if random.random() < often:
        entry.add(0x12, *(constant(random, random.choice(SIZES)) if random.random() < 0.7 else address(random)))
    if random.random() < often / 3:
        entry.add(0x55, *ranges(random, entry.unit, lists))


def fill(random, entry, lists, earlier):
    unit, chance = entry.unit, random.random
    fill_places(random, entry, lists, 0.5 if entry.tag == 0x2E else 0.05)
    if chance() < 0.75:
        entry.add(0x03, *text(random, unit, random.choice(NAMES)))
    if chance() < 0.3:
        entry.add(random.choice((0x6E, 0x2007)), *text(random, unit, random.choice(NAMES)))
    for attribute, often in ((0x3C, 0.15), (0x3F, 0.3), (0x6D, 0.3), (0x6A, 0.03)):
        if chance() < often:
            entry.add(attribute, *flag(random))
    if chance() < 0.05:
        entry.add(0x36, *constant(random, random.choice((1, 2))))
    if chance() < 0.4:
        entry.add(random.choice((0x02, 0x1C)), *random.choice(((0x18, b"\x01\x30"), (0x0A, b"\0"), (0x0B, b"\x05"), (0x21, -3))))
    if chance() < 0.1:
        entry.add(0x52, *address(random))
    for attribute, often in ((0x47, 0.25), (0x31, 0.1), (0x18, 0.5 if entry.tag == 0x3D else 0)):
        value = reference(random, entry, earlier) if chance() < often else None
        if value:
            entry.add(attribute, *value)
    if chance() < 0.2:
        entry.add(0x69, 0x20, little(random.choice(SIGNATURES + (9,)), 8))
    random.shuffle(entry.attributes)
    if entry.attributes and chance() < 0.05:
        entry.attributes.append(random.choice(entry.attributes))


def tree(random, unit, lists, known, depth=1):
    """Entries one behind the other; None ends the children of one."""
    for _ in range(random.randrange(1, 5 if depth < 3 else 3)):
        tag = random.choice(TAGS) if random.random() < 0.95 else 0x3D
        entry = Entry(unit, tag, depth < 6 and random.random() < 0.5)
        fill(random, entry, lists, known)
        known.append(entry)
        yield entry
        if entry.children:
            yield from tree(random, unit, lists, known, depth + 1)
    yield None


def fill_unit(random, unit, lists, known):
    tag = {2: 0x41, 3: 0x3C, 4: 0x4A}.get(unit.sort, random.choice((0x11, 0x11, 0x3C)))
    root = Entry(unit, tag, random.random() < 0.95)
    fill_root(random, root, lists)
    known.append(root)
    unit.entries = [root] + (list(tree(random, unit, lists, known)) if root.children else [])
    unit.described = random.choice([each for each in unit.entries if each])


# ---- bytes

class Layout:
    """The sections of some units."""

    def __init__(self, units):
        self.units, self.rows, self.starts = units, [], {}
        info = self._place([unit for unit in units if not unit.types])
        types = self._place([unit for unit in units if unit.types])
        self.info, self.types = self._bytes(info), self._bytes(types)

    def _code(self, entry):
        row = entry.tag, entry.children, tuple((attribute, form, value if form == 0x21 else None)
                                               for attribute, form, value in entry.attributes)
        if row not in self.rows:
            self.rows.append(row)
        return put_uleb(self.rows.index(row) + 1)

    def _place(self, units):
        """Gives each entry its place in its section."""
        at = 0
        for unit in units:
            self.starts[unit] = at
            at += unit.length_size() + len(unit.head(lambda entry: 0))
            for entry in unit.entries:
                if entry is not None:
                    entry.at = at
                    at += len(self._code(entry)) + sum(_size(form, value) for _, form, value in entry.attributes)
                else:
                    at += 1
        return units

    def _value(self, unit, form, value):
        if form == 0x21:
            return b""
        if isinstance(value, Reference):
            place = value.target.at - (self.starts[unit] if value.near else 0)
            return little(place % (1 << 8 * value.size), value.size)
        return value

    def _bytes(self, units):
        out = b""
        for unit in units:
            start = self.starts[unit]
            body = unit.head(lambda entry: entry.at - start)
            for entry in unit.entries:
                body += b"\0" if entry is None else self._code(entry)
                if entry is not None:
                    body += b"".join(self._value(unit, form, value) for _, form, value in entry.attributes)
            out += (b"\xff\xff\xff\xff" + little(len(body), 8) if unit.wide else little(len(body), 4)) + body
        return out

    def abbreviations(self):
        out = b""
        for code, (tag, children, attributes) in enumerate(self.rows, 1):
            out += put_uleb(code) + put_uleb(tag) + bytes((children,))
            for attribute, form, value in attributes:
                out += put_uleb(attribute) + put_uleb(form) + (sleb(value) if form == 0x21 else b"")
            out += b"\0\0"
        return out + b"\0"


def _size(form, value):
    if form == 0x21:
        return 0
    return value.size if isinstance(value, Reference) else len(value)


def sections(random):
    """(name, bytes) of each section of a program that is made up."""
    lists, known, units = Lists(random), [], [Unit(random, number == 0) for number in range(random.randrange(1, 6))]
    units.sort(key=lambda unit: unit.types)
    for unit in units:
        fill_unit(random, unit, lists, known)
    layout = Layout(units)
    offsets = bytes(16) + b"".join(little(PLACES[name][0], size) for size in (4, 8) for name in NAMES)
    addresses = bytes(8) + b"".join(little(each, 8) for each in ADDRESSES)
    return [(b".debug_info", layout.info), (b".debug_types", layout.types), (b".debug_abbrev", layout.abbreviations()),
            (b".debug_str", STR), (b".debug_line_str", LINE_STR), (b".debug_str_offsets", offsets), (b".debug_addr", addresses),
            (b".debug_ranges", lists.ranges), (b".debug_rnglists", lists.rnglists)]
