#!/usr/bin/env python3
"""fault_pages.py            writes docs/FAULTS.md from the tables of crates/fault_words
fault_pages.py --check    says what differs from it

The tables stand once, in the crate (src/fault.rt, src/end.rt). Beside each code stands a row in rows/ that gives it, or the script that
makes a file which is too large for a row."""
import os
import re
import sys

TOP = os.path.dirname(os.path.dirname(os.path.abspath(__file__)))
CRATE = os.path.join(TOP, "crates", "fault_words", "src")
PAGE = os.path.join(TOP, "docs", "FAULTS.md")
ROWS = ("rows/vectors", "rows/program")
LARGE = ".ci/too_large.py"
FAULT_LINE = re.compile(rb"^(?:\d )?(?:(?:index |aranges |files )?refused|stale) (\d+) ([0-9a-f]+)$", re.M)
TEXT = r'"((?:[^"\\]|\\.)*)"'
# What a place is, by the word of its row.
PLACES = {
    "Nowhere": "0",
    "Byte": "byte of the file",
    "Section": "section, as `readelf -S` numbers them; 0 is the table",
    "Unit": "unit",
    "Entry": "entry",
    "Info": "byte of `.debug_info`",
    "Index": "byte of the index",
    "Set": "set of `.debug_aranges`",
}
GROUPS = (
    (1, "Faults of a program", "`refused CODE PLACE`, status 1. The first that is found counts: those of sections (1 to 5), then of unit headers "
     "(6 to 9, 22), of units (10 to 13, 18 to 21, 23, 24), of references (16, 17, 24), and of ranges (14, 15)."),
    (40, "Faults of a `.gdb_index`", "`index refused CODE PLACE`, status 8."),
    (50, "Faults of a `.debug_names`", "`index refused CODE PLACE`, status 8."),
    (60, "Faults of an address table", "`aranges refused CODE PLACE`, status 14."),
    (70, "Faults of a line table", "`files refused CODE PLACE`, status 15."),
    (80, "Faults of a kept index", "`stale CODE PLACE`, the first line of `cached`, which answers all the same; 40 to 47 come there too."),
)
HEAD = """# Faults

Made by tools/fault_pages.py from the tables of crates/fault_words; don't edit it here.

A run that fails says on standard error `gdbix: FILE: SENTENCE (PLACE); REMEDY`. On standard output stands a line for scripts, with a code
in decimal and a place in hexadecimal. A unit or an entry is named by its offset in `.debug_info`, as readelf and llvm-dwarfdump print it;
one of `.debug_types` by its offset there and the length of `.debug_info`. "Shown by" is a folder with a file that has the fault, the
words that are run over it (args) and what they write (stdout), or a script that makes such a file and runs the program over it.
"""


def read(*parts):
    with open(os.path.join(*parts), encoding="utf-8") as file:
        return file.read()


def constants(source):
    return dict(re.findall(r"const (\w+): &str =\s*" + TEXT + ";", source))


def faults():
    """The rows of the table: code, name, place, sentence, remedy."""
    source = read(CRATE, "fault.rt")
    named = constants(source)
    rows = re.findall(r"^    (\d+) " + TEXT + r" (\w+) " + TEXT + r" (?:" + TEXT + r"|(\w+));$", source, re.M)
    return [(int(code), name, place, sentence, text or named[constant]) for code, name, place, sentence, text, constant in rows]


def ends():
    """The rows of the other table: status, sentence, remedy."""
    rows = re.findall(r"^    (\d+) \w+ " + TEXT + " " + TEXT + ";$", read(CRATE, "end.rt"), re.M)
    return [(int(status), sentence, remedy) for status, sentence, remedy in rows if status != "255"]


def written():
    """Each row with what it writes, those of `cached` last, since a kept index has faults of its own."""
    rows = [f"{base}/{row}" for base in ROWS for row in sorted(os.listdir(os.path.join(TOP, base)))]
    for row in sorted(rows, key=lambda row: os.path.basename(row).startswith("cached")):
        path = os.path.join(TOP, row, "stdout")
        if os.path.exists(path):
            with open(path, "rb") as file:
                yield row, file.read()


def shown():
    """Of each code the first row that gives it."""
    found = {}
    for row, text in written():
        for code, _ in FAULT_LINE.findall(text):
            found.setdefault(int(code), row)
    return found


def made():
    """The codes of the files that are too large to be kept."""
    table = read(TOP, LARGE).split("\nCASES = {", 1)[1].split("\n}", 1)[0]
    return {int(code): LARGE for code in re.findall(r"^    (\d+): ", table, re.M)}


def page():
    rows, by = faults(), {**made(), **shown()}
    lines = [HEAD]
    starts = [start for start, _, _ in GROUPS] + [256]
    for (start, title, said), end in zip(GROUPS, starts[1:]):
        lines.append(f"\n## {title}\n\n{said}\n\n| Code | Name | Sentence | Place | Remedy | Shown by |\n|---|---|---|---|---|---|")
        for code, name, place, sentence, remedy in rows:
            if start <= code < end:
                lines.append(f"| {code} | {name} | {sentence} | {PLACES[place]} | {remedy} | {by[code]} |")
    lines.append("\n## Other ends\n\nWhat is said where no code says more; `man gdbix` has the lines on standard output.\n")
    lines.append("| Status | Sentence | Remedy |\n|---|---|---|")
    lines += [f"| {status} | {sentence} | {remedy} |" for status, sentence, remedy in ends()]
    lines.append("| 2 | the word that isn't in the grammar | the help of its command |")
    return "\n".join(lines).replace(HEAD + "\n\n", HEAD + "\n") + "\n"


def main():
    if sys.argv[1:] != ["--check"]:
        with open(PAGE, "w", encoding="utf-8") as file:
            file.write(page())
        return 0
    if read(PAGE) != page():
        print("docs/FAULTS.md isn't that of the tables: run tools/fault_pages.py")
        return 1
    return 0


if __name__ == "__main__":
    sys.exit(main())
