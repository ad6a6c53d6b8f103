#!/usr/bin/env python3
"""python3 tools/gdb_naming/vector.py GDB

Writes crates/gdb_entries/specs/MadeFile.antt: the bytes of a small program with units of several languages, and of each name in GDB's
own index of it the elements. gdb has to be one of version 14 or later, whose kinds and bindings the definitions have."""
import os
import subprocess
import sys
import tempfile

TOOLS = os.path.dirname(os.path.dirname(os.path.abspath(__file__)))
sys.path.insert(0, TOOLS)

from gdb_naming import compare          # noqa: E402
from gdb_naming.ada import listed       # noqa: E402
from generated import packed            # noqa: E402

OUT = os.path.join(os.path.dirname(TOOLS), "crates", "gdb_entries", "specs", "MadeFile.antt")
# Abbreviations: their tag, whether they have children, their attributes and forms.
ABBREVIATIONS = {
    "unit": (0x11, 1, "0x13 0x0b"), "made": (0x11, 1, "0x13 0x0b 0x25 8"),
    "partial": (0x3C, 1, ""), "import": (0x3D, 0, "0x18 0x10"),
    "namespace": (0x39, 1, "3 8"), "nameless": (0x39, 1, ""), "declared namespace": (0x39, 1, "3 8 0x3c 0x19"),
    "structure": (0x13, 1, "3 8"), "declared structure": (0x13, 1, "3 8 0x3c 0x19"), "completed": (0x13, 1, "0x47 0x13"),
    "scoped": (0x04, 1, "3 8 0x6d 0x19"), "enumeration": (0x04, 1, ""), "enumerator": (0x28, 0, "3 8"),
    "method": (0x2E, 0, "3 8 0x3f 0x19 0x3c 0x19"), "body": (0x2E, 0, "0x47 0x13"),
    "far body": (0x2E, 0, "0x47 0x10"), "instance": (0x2E, 0, "0x31 0x13"), "called": (0x2E, 0, "0x6e 8"),
    "function": (0x2E, 1, "3 8 0x6e 8"), "local": (0x2E, 1, "3 8"), "block": (0x0B, 1, ""),
    "variable": (0x34, 0, "3 8"), "outside": (0x34, 0, "3 8 0x3f 0x19 0x3c 0x19"), "declared": (0x34, 0, "3 8 0x3c 0x19"),
    "symbol": (0x34, 0, "0x6e 8"), "module": (0x1E, 1, "3 8"), "entry": (0x03, 0, "3 8"), "type": (0x24, 0, "3 8"),
}
ADA = """demo _ada_demo a__b__c a__b__c__2 pkg__proc$2 a__b.5 worker__taskTKB workerTB bodyB a__getN a__putP a__b___XR12 a__b___Y12
    a__B_1__inner a__B_22 a__wait_E28b a__wait__B27s a__tTK__e aXb a__bXn Xb a__lineX __line <a .a__b ___ghost_a__b a__b.cold a__1__2 a__x1_2
    a__N__b a__bN__c a__ a Oadd a__Oadd 9__b a__12_3""".split()
CODES = {name: code for code, name in enumerate(ABBREVIATIONS, 1)}
# Each unit as the lines of its tree: what the item is, its texts, with `~` for a blank, and what it refers to; `-` ends the children of an
# item.
UNITS = [
    ("Cxx", """unit 4|import =Partial|namespace n|structure s|Method: method m|scoped e|enumerator a|-|enumeration|enumerator b|-|-
        |nameless|variable v|-|-|Body: body @Method|instance @Body|outside x|declared y|called _Z1gv|function f _Z1fv|variable inner|-
        |declared namespace d|declared structure t|Inner: declared structure u|-|-|-|completed @Inner|enumerator z|-
        |type long~unsigned~int|structure Box<long~unsigned~int>|local get|-|-|far body @Far|called o(short~int)|symbol _ZL1q|-"""),
    ("Rust", "unit 0x1c|namespace core|namespace fmt|structure Formatter|local pad|-|-|-|-|-"),
    ("Ada", """unit 0x0d|local _ada_demo|variable kept|block|function demo__add__2 demo__add__2|function odd___Y odd|-|-|-|-
        |variable shapes__made|variable Odd__x|called shapes__only__2|-"""),
    ("Fortran", "unit 8|module shapes|function area __shapes_MOD_area|entry again|-|type real|-|-"),
    ("C", """unit 0x0c|structure point|enumerator hidden|-|function main main|-|type short~unsigned~int|type Box<unsigned>|called char~unsigned
        |function k short~int|-|symbol q|namespace n<unsigned>|Far: method far|-|-"""),
    ("D", "unit 0x13|module demo|structure Point|local sum|variable n|-|-|-|-"),
    ("Go", "made 1_GNU_Go_12|structure main.T|local F|-|-|-"),
    ("Partial", "partial|import =Other|structure shared<short~int>|variable within|-|-"),
    ("Other", "partial|structure further|-|-"),
    ("Alone", "partial|structure unread|-|-"),
]


def _item(line, unit):
    label, colon, rest = line.partition(": ")
    if colon:
        line = rest
    words = line.split()
    count = next(count for count in (2, 1) if " ".join(words[:count]) in CODES)
    lines = [" .uleb128 %d" % CODES[" ".join(words[:count])]]
    for word in words[count:]:
        if words[0] in ("unit", "made"):
            language, _, producer = word.partition("_")
            lines.append(" .byte " + language + ("\n .asciz \"%s\"" % producer.replace("_", " ") if producer else ""))
        elif word[0] in "=@":
            lines.append(" .4byte %s - %s" % (("I" + word[1:], "Cxx") if word[0] == "@" else (word[1:] + "R", "Cxx")))
        else:
            lines.append(" .asciz \"%s\"" % word.replace("~", " "))
    return ("I%s:\n" % label if colon else "") + "\n".join(lines)


def _tree(name, text):
    lines = [each.strip() for each in text.replace("\n", "").split("|")]
    items = [" .byte 0" if line == "-" else _item(line, name) for line in lines]
    head = "%s: .4byte %sE-%sS\n%sS: .2byte 4\n .4byte 0\n .byte 8\n%sR:" % ((name,) * 5)
    return "%s\n%s\n%sE:\n" % (head, "\n".join(items), name)


def _section(path, name):
    with tempfile.NamedTemporaryFile() as out:
        flags = ["--set-section-flags", name + "=alloc"]
        subprocess.run(["objcopy", "-O", "binary", "--only-section=" + name, *flags, path, out.name], check=True)
        return out.read()


def file_of(folder):
    """The bytes of the program."""
    source, made = os.path.join(folder, "made.s"), os.path.join(folder, "made.o")
    with open(source, "w") as file:
        file.write(" .section .debug_abbrev,\"\",@progbits\n")
        for name, (tag, children, pairs) in ABBREVIATIONS.items():
            numbers = ",".join(pairs.split() + ["0", "0"])
            file.write(" .uleb128 %d,%d\n .byte %d\n .uleb128 %s\n" % (CODES[name], tag, children, numbers))
        file.write(" .uleb128 0\n .section .debug_info,\"\",@progbits\n")
        file.write("".join(_tree(*unit) for unit in UNITS))
    subprocess.run(["as", "-o", made, source], check=True)
    return packed(2, [(name, _section(made, name)) for name in (".debug_abbrev", ".debug_info")])


def ada_names(gdb):
    """How gdb lists some names of Ada."""
    return list(zip(ADA, (name.decode() for name in listed(gdb, [name.encode() for name in ADA]))))


def _numbers(data):
    return " ∷ ".join([*map(str, data), "[]"])


def text_of(file, names, ada):
    rows = []
    for name, elements in sorted(names.of.items()):
        numbers = sorted(unit | kind << 28 | static << 31 for kind, unit, static in elements)
        rows.append("    (codes \"%s\", %s) ∷" % (name.decode(), _numbers(numbers)))
    lines = [_numbers(file[at:at + 32]).replace(" ∷ []", " ∷") for at in range(0, len(file), 32)]
    return "\n".join([
        "-- Written by tools/gdb_naming/vector.py; not to be changed by hand.",
        "-- A small program with units of several languages, and gdb's own index of it.",
        "use Rattle.std.specs.Prelude.{ℕ, List, [], ◌∷◌, codes}", "",
        "-- the program", "unfoldable pub made_file : List ℕ", "made_file =", *("    " + line for line in lines), "    []", "",
        "-- of each name in gdb's index, in byte order, its elements, ascending", "unfoldable pub made_names : List (List ℕ × List ℕ)",
        "made_names =", *rows, "    []", "",
        "-- names of Ada, and how gdb lists each", "unfoldable pub ada_names : List (List ℕ × List ℕ)", "ada_names =",
        *("    (codes \"%s\", codes \"%s\") ∷" % pair for pair in ada), "    []", ""])


def main():
    with tempfile.TemporaryDirectory() as folder:
        file, path = file_of(folder), os.path.join(folder, "made")
        with open(path, "wb") as out:
            out.write(file)
        names, ada = compare.gdb_names(sys.argv[1], path), ada_names(sys.argv[1])
    with open(OUT, "w") as out:
        out.write(text_of(file, names, ada))
    print("%d bytes, %d names" % (len(file), len(names.of)))


if __name__ == "__main__":
    main()
