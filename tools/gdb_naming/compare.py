"""gdb's own index of a program beside the names that the reading gives by gdb's rules."""
import os
import subprocess
import tempfile

from reading import rules
from reading.gdb_entries import GdbNames
from reading.gdb_index_read import UNIT_MASK, GdbIndex

WORDS = ("-nx", "-batch", "-iex", "set auto-load no", "-iex", "set debuginfod enabled off", "-iex", "set index-cache enabled off",
         "-iex", "maint set worker-threads 0")


class Difference:
    """A name of gdb's that the rules give not at all, or with another kind, unit or binding."""

    def __init__(self, what, index, name, kind, elements):
        """`elements` are those of gdb's that the rules don't give: the number of the unit, and whether it is static."""
        self.what, self.name, self.kind = what, name, kind
        self.numbers, self.static = {number for number, _ in elements}, all(static for _, static in elements)
        self.units, self.type_units = {index.units[number] for number in self.numbers}, index.type_units()
        self.version = index.version

    def __str__(self):
        kind = rules.KIND_WORDS.get(self.kind, b"none").decode()
        units = " ".join("%s %x" % unit for unit in sorted(self.units)[:3])
        return "%s  %s %s in %s" % (self.name.decode(errors="replace")[:100], "static" if self.static else "global", kind, units)


class Names:
    """gdb's own index and its version, which is 8 of gdb 13.1 and 9 of 16.3. `units` says of each number whether it is that of a
    type unit, and where the unit begins; `of` has of each name the elements (kind, number, static)."""

    def __init__(self, index):
        self.units, self.of, self.version = [], {}, int.from_bytes(index.data[:4], "little")
        for area, size in (("units", 16), ("types", 24)):
            begin, end = index.areas[area]
            self.units += [(area, int.from_bytes(index.data[at:at + 8], "little")) for at in range(begin, end, size)]
        for name, elements in (slot for slot in index.slots if slot is not None):
            self.of[name] = {(each >> 28 & 7, each & UNIT_MASK, bool(each >> 31)) for each in elements}

    def type_units(self):
        return [unit for unit in self.units if unit[0] == "types"]


def gdb_names(gdb, path):
    """The names of the index that this gdb writes of a program, or None with what it says where it writes none."""
    with tempfile.TemporaryDirectory() as folder:
        words = [gdb, *WORDS, "-ex", "save gdb-index " + folder, path]
        done = subprocess.run(words, capture_output=True, text=True, errors="replace", stdin=subprocess.DEVNULL)
        made = os.path.join(folder, os.path.basename(path) + ".gdb-index")
        if not os.path.exists(made):
            print("  gdb wrote no index (status %d): %s" % (done.returncode, done.stderr.strip()[-200:]))
            return None
        with open(made, "rb") as file:
            return Names(GdbIndex(file.read()))


class Ours:
    """The entries of the reading, and the names that they make."""

    def __init__(self, program, spelled):
        self.program, self.reading, self.names = program, GdbNames(program, spelled), {}
        self.entries = [entry for _, items in program.walks for item in items if item.offset in self.reading.items.said
                        for entry in self.reading.entries_for(item)]
        units = [("types" if unit.is_type_unit() else "units", unit.start) for unit in program.units]
        for entry in self.entries:
            made = {(kind, units[entry.unit], entry.static) for kind in entry.kinds}
            self.names.setdefault(entry.name, set()).update(made)


def differences(index, ours):
    """What gdb's index has and the rules don't give: the name, its kind, its unit, or whether it is static."""
    for name, elements in sorted(index.of.items()):
        own = ours.names.get(name, set())
        for kind in sorted({each[0] for each in elements}):
            theirs, mine = ({each[1:] for each in all_of if each[0] == kind} for all_of in (elements, own))
            units = {unit for unit, _ in mine}
            foreign = {each for each in theirs if index.units[each[0]] not in units}
            other = {each for each in theirs if (index.units[each[0]], each[1]) not in mine}
            if not mine:
                yield Difference("kind" if own else "name", index, name, kind, theirs)
            elif foreign:
                yield Difference("unit", index, name, kind, foreign)
            elif other:
                yield Difference("static", index, name, kind, other)
