"""How gdb spells names of C and C++ anew, as its own index of a unit made of them tells, and how gdb 16.3 does where no gdb but 13.1 is
there: by a table of the names that it spells otherwise (`python3 tools/gdb_naming/newer.py`)."""
import os
import subprocess
import tempfile

from reading.gdb_entries import GdbNames, as_stands
from reading.gdb_rules import may_change
from . import compare

HEAD = """
 .section .debug_abbrev,"",@progbits
 .byte 1,0x11,1,0x13,0x0b,0,0, 2,0x39,1,3,8,0,0, 3,0x13,0,3,8,0x0b,0x0b,0,0, 0
 .section .debug_info,"",@progbits
 .4byte 9f-1f
1: .2byte 4
 .4byte 0
 .byte 8, 1, 4
"""
TAIL = " .byte 0\n9:\n"


def _bytes(text):
    return ",".join(str(byte) for byte in text + b"\0")


def _program(names, folder):
    """An object file with a namespace for each name, and a structure with that name in it."""
    source, path = os.path.join(folder, "names.s"), os.path.join(folder, "names.o")
    with open(source, "w") as file:
        file.write(HEAD)
        for number, name in enumerate(names):
            file.write(" .byte 2\n .asciz \"n%d\"\n .byte 3,%s,1,0\n" % (number, _bytes(name)))
        file.write(TAIL)
    subprocess.run(["as", "-o", path, source], check=True)
    return path


HERE = os.path.dirname(os.path.abspath(__file__))
NEWER = os.path.join(HERE, "newer_names.txt")


def newer_names():
    """The names that gdb 16.3 spells otherwise than gdb 13.1, each with its spelling."""
    with open(NEWER, "rb") as file:
        return dict(line.split(b"\t") for line in file.read().split(b"\n") if line)


class Speller:
    """What a gdb makes of the names that it was asked."""

    def __init__(self, gdb):
        self.gdb, self.known = gdb, {}

    def learn(self, program):
        items = GdbNames(program, as_stands)
        names = {(items.class_of(program.links.by_offset[offset]), said.name or said.linkage)
                 for offset, said in items.items.said.items() if said.name or said.linkage}
        asked = sorted({name for language_class, name in names if may_change(language_class, name)} - set(self.known))
        if not asked:
            return
        with tempfile.TemporaryDirectory() as folder:
            index = compare.gdb_names(self.gdb, _program(asked, folder))
        for spelled in index.of:
            number, colons, name = spelled.partition(b"::")
            if colons:
                self.known[asked[int(number[1:])]] = name

    def spelled(self, language_class, name):
        return self.known[name] if may_change(language_class, name) else name


class BothSpellers:
    """What gdb 13.1 makes of names, which is asked, and gdb 16.3, of which the table tells."""

    def __init__(self):
        self.older, self.table = Speller("gdb"), newer_names()

    def learn(self, program):
        self.older.learn(program)

    def newer(self, language_class, name):
        """A name as gdb 16.3 spells it in a unit of this class."""
        changed = self.table.get(name) if may_change(language_class, name) else None
        return self.older.spelled(language_class, name) if changed is None else changed
