#!/usr/bin/env python3
"""Names of Ada with the form in which gdb 13 lists them in an index that it writes (crates/gdb_tests/tables/ada_names.txt).

    ada_table.py           compares the table with what ada_spelling makes of its names, and with what gdb does where it is gdb 13
    ada_table.py --write   makes the table anew, by gdb and by the rules as tools/reading has them, not by ada_spelling
    ada_table.py --made COUNT SEED     compares ours with gdb over so many names that are made by chance

A line of the table is a name, a tab and gdb's form. Where ours is another one, since gdb goes by an error, a second tab and ours follow: gdb
copies a byte that it has cut off behind the mark of a task's entry or of a protected subprogram at the end, and of equal parts of a name it
takes the first one's scope for the scope of each. A line that begins with `#` says where the names behind it are from. Status 1 where
something is wrong. The last line is 'names of Ada: N passed, M failed'."""
import os
import random
import re
import sys
import tempfile

from gdb_naming.ada import listed
from gdb_naming.programs import made
from reading.gdb_ada import decoded, encoded, inner_part
from spelling.file_names import strings_of
from spelling.made_ada_names import made_ada_names
from spelling.our_answers import other_spellings
from spelling_table import lines_of, release_of, told

TOOLS = os.path.dirname(os.path.abspath(__file__))
TABLE = os.path.join(os.path.dirname(TOOLS), "crates", "gdb_tests", "tables", "ada_names.txt")
RULES = os.path.join(TOOLS, "spelling", "ada_rule_names.txt")
MADE, REAL = 1200, 300
# What gdb has of a name that it takes for GNAT's coding of a wide character, as gdb 13 does, or of an operator: neither is in the definition.
CODED = re.compile(rb"U[0-9a-f]{2}|W[0-9a-f]{4}|\"|[^\x20-\x7e]")
# At the end of what is left of a name: there gdb looks at what it has cut off, or copies a byte of it.
MARKED = re.compile(rb".*(?:_E[0-9]+[bs]|(?:^|__)[0-9a-z]*N_?)", re.DOTALL)
SHOWN = 40


def rule_names():
    """(what they show, names) of each group."""
    groups = []
    for line in lines_of(RULES):
        if line.startswith(b"# "):
            groups.append((line, []))
        else:
            groups[-1][1].append(line)
    return groups


def compiled_names():
    """Names of a program of GNAT, compiled here."""
    with tempfile.TemporaryDirectory() as folder:
        names = {name for _, path in made(folder, "gnatmake -gdwarf-5 -O0") for name in strings_of(path)}
    names = sorted(name for name in names if b"__" in name and not CODED.search(name))
    return random.Random(1).sample(names, min(REAL, len(names)))


def groups():
    """(what they show, names) of each group, no name twice."""
    seen = set()
    for title, names in [*rule_names(), (b"# Made by chance", made_ada_names(MADE, 1)), (b"# Of a compiled program", compiled_names())]:
        once = [name for name in names if name not in seen]
        seen.update(once)
        yield title, once


def by_rules(name):
    """How a name is listed by the rules of docs/GDB.md."""
    text = decoded(name)
    return encoded(name if text is None else text)


def is_known_error(name):
    """Whether gdb lists a name otherwise than by its own rules, as it is known to do."""
    scopes = (decoded(name) or name).lower().split(b".")[:-1]
    return len(set(scopes)) < len(scopes) or bool(MARKED.fullmatch(inner_part(name) or b""))


def row(name, of_gdb, ours):
    return name + b"\t" + of_gdb + (b"" if ours == of_gdb else b"\t" + ours)


def write_table():
    found = list(groups())
    names = [name for _, members in found for name in members]
    answers = dict(zip(names, listed("gdb", names)))
    unknown = [name for name in names if answers[name] != by_rules(name) and not is_known_error(name)]
    lines = [line for title, members in found for line in [title, *(row(name, answers[name], by_rules(name)) for name in members)]]
    with open(TABLE, "wb") as file:
        file.write(b"\n".join(lines) + b"\n")
    errors = sum(line.count(b"\t") == 2 for line in lines)
    print("%d names, of which gdb lists %d by an error" % (len(names), errors))
    for name in unknown[:SHOWN]:
        print("not known: %r is %r, by the rules %r" % (name, answers[name], by_rules(name)))
    return 1 if unknown else 0


def table():
    """gdb's form of each name, and ours."""
    rows = [line.split(b"\t") for line in lines_of(TABLE) if not line.startswith(b"# ")]
    return {row[0]: row[1] for row in rows}, {row[0]: row[-1] for row in rows}


def check_table():
    of_gdb, ours = table()
    count, failed = len(ours), told("ours", ours, other_spellings(ours, "ada_spelling"))
    if release_of("gdb") == 13:
        names = list(of_gdb)
        count += len(names)
        failed += told("gdb", of_gdb, {name: answer for name, answer in zip(names, listed("gdb", names)) if answer != of_gdb[name]})
    else:
        print("no gdb 13: passed over")
    return count, failed


def compare(names):
    """Ours beside gdb's. A name that gdb lists by a known error isn't wrong."""
    answers = dict(zip(names, listed("gdb", names)))
    others = other_spellings(answers, "ada_spelling")
    errors = {name: ours for name, ours in others.items() if is_known_error(name)}
    print("%d names, of which gdb lists %d by an error" % (len(names), len(errors)))
    return len(names), told("wrong", answers, {name: ours for name, ours in others.items() if name not in errors})


def main(words):
    if words == ["--write"]:
        return write_table()
    count, failed = compare(made_ada_names(int(words[1]), int(words[2]))) if words else check_table()
    print("names of Ada: %d passed, %d failed" % (count - failed, failed))
    return 1 if failed else 0


if __name__ == "__main__":
    sys.exit(main(sys.argv[1:]))
