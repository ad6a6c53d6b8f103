#!/usr/bin/env python3
"""Names of C++ with the spelling that gdb 13 has for them in an index that it writes (crates/gdb_tests/tables/names.txt), and those of
them that gdb 16 spells otherwise (newer_names.txt beside it).

    spelling_table.py                   compares the tables with what cxx_spelling makes of their names, and with gdb, if it is 13 or 16
    spelling_table.py --write           makes the first table anew, by gdb 13
    spelling_table.py --write-newer     .. and the second, by gdb 16
    spelling_table.py FILE ..           compares ours with gdb over all names of these programs
    spelling_table.py --made COUNT SEED     .. over so many names that are made by chance

`--gdb GDB` before these words is another gdb than that of the path. A line of a table is a name, a tab and its spelling; where ours stands
as it is and gdb changes it, a second tab and `kept` follow. A line that begins with `#` says where the names behind it are from. A
spelling of ours that is neither gdb's nor the name itself is always wrong. Status 1 where something is wrong. The last line is
'spelling: N passed, M failed'."""
import os
import random
import re
import shutil
import subprocess
import sys
import tempfile

from spelling.file_names import names_of
from spelling.gdb_answers import gdb_spellings
from spelling.made_names import made_names
from spelling.our_answers import other_spellings

TOOLS = os.path.dirname(os.path.abspath(__file__))
TABLES = os.path.join(os.path.dirname(TOOLS), "crates", "gdb_tests", "tables")
TABLE, NEWER = os.path.join(TABLES, "names.txt"), os.path.join(TABLES, "newer_names.txt")
RELEASES = {13: "Gdb13", 16: "Gdb16"}
RULES = os.path.join(TOOLS, "spelling", "rule_names.txt")
PROGRAMS = os.path.join(TOOLS, "spelling", "programs")
COMPILERS = [("g++", "-std=c++17"), ("g++", "-std=c++20"), ("clang++", "-std=c++17")]
MADE, REAL, SAME, LONGEST = 850, 500, 100, 200
SHOWN = 40


def lines_of(path):
    with open(path, "rb") as file:
        return [line for line in file.read().split(b"\n") if line]


def rule_names():
    """(what they show, names) of each group."""
    groups = []
    for line in lines_of(RULES):
        if line.startswith(b"# "):
            groups.append((line, {}))
        else:
            groups[-1][1][line] = None
    return groups


def compiled_names():
    """The names of the programs, compiled here."""
    names = set()
    with tempfile.TemporaryDirectory() as folder:
        for compiler, standard in COMPILERS:
            for source in sorted(os.listdir(PROGRAMS)):
                out = os.path.join(folder, "program.o")
                done = subprocess.run([compiler, "-g", standard, "-c", "-o", out, os.path.join(PROGRAMS, source)], capture_output=True, check=False)
                if done.returncode:
                    sys.exit("spelling: %s %s %s: %s" % (compiler, standard, source, done.stderr.decode()[:500]))
                names.update(names_of(out))
    return sorted(name for name in names if len(name) <= LONGEST)


def real_names():
    """Some that gdb changes, and some that it doesn't."""
    names = compiled_names()
    changed, same = [], []
    for name, answer in zip(names, gdb_spellings(names)):
        (same if answer == name else changed).append(name)
    chance = random.Random(1)
    return chance.sample(changed, min(REAL, len(changed))) + chance.sample(same, min(SAME, len(same)))


def groups():
    """(what they show, names) of each group, no name twice."""
    found = [*rule_names(), (b"# Made by chance", made_names(MADE, 1)), (b"# Of compiled programs", real_names())]
    seen = set()
    for title, names in found:
        once = [name for name in names if name not in seen and b"\t" not in name]
        seen.update(once)
        yield title, once


def answered(names, gdb="gdb"):
    """gdb's spelling of each name for which it has one."""
    return {name: answer for name, answer in zip(names, gdb_spellings(names, gdb=gdb)) if answer is not None}


def write_table():
    found = list(groups())
    answers = answered([name for _, names in found for name in names])
    others = other_spellings(answers)
    lines, count = [], 0
    for title, names in found:
        lines.append(title)
        for name in names:
            if name in answers and others.get(name, name) == name:
                lines.append(name + b"\t" + answers[name] + (b"\tkept" if name in others else b""))
                count += 1
            else:
                print("left out: %r, of gdb %r, ours %r" % (name, answers.get(name), others.get(name)))
    os.makedirs(os.path.dirname(TABLE), exist_ok=True)
    with open(TABLE, "wb") as file:
        file.write(b"\n".join(lines) + b"\n")
    print("%d names" % count)


def write_newer(gdb):
    """The names of the first table that this gdb spells otherwise than gdb 13, or that ours alone spells otherwise for it."""
    of_gdb, ours = table(13)
    answers = answered(list(of_gdb), gdb)
    others = other_spellings(answers, release=RELEASES[16])
    lines = []
    for name, answer in answers.items():
        kept = name in others
        if others.get(name, name) != name:
            print("left out: %r, of gdb %r, ours %r" % (name, answer, others[name]))
        elif answer != of_gdb[name] or kept != (ours[name] != of_gdb[name]):
            lines.append(name + b"\t" + answer + (b"\tkept" if kept else b""))
    with open(NEWER, "wb") as file:
        file.write(b"\n".join(lines) + b"\n")
    print("%d names" % len(lines))


def rows_of(path):
    """Of each line of a table: the name, gdb's spelling and ours."""
    rows = (line.split(b"\t") for line in lines_of(path) if not line.startswith(b"# "))
    return {row[0]: (row[1], row[0] if len(row) == 3 else row[1]) for row in rows}


def table(release):
    """The spelling of each name by a release of gdb, and ours for it."""
    rows = rows_of(TABLE)
    if release == 16:
        rows.update(rows_of(NEWER))
    return {name: row[0] for name, row in rows.items()}, {name: row[1] for name, row in rows.items()}


def release_of(gdb):
    """The release of a gdb, as far as it is told apart; None where there is none, or another one."""
    if shutil.which(gdb) is None:
        return None
    said = subprocess.run([gdb, "--version"], capture_output=True, text=True, check=False).stdout
    found = re.match(r"GNU gdb .* (\d+)\.", said)
    return int(found.group(1)) if found and int(found.group(1)) in RELEASES else None


def told(what, wanted, others):
    """Says which names are spelled otherwise than is wanted, and how many these are."""
    for name in list(others)[:SHOWN]:
        print("%s: %r is %r, not %r" % (what, name, others[name], wanted[name]))
    return len(others)


def check_tables(gdb):
    count = failed = 0
    for release, word in RELEASES.items():
        of_gdb, ours = table(release)
        count, failed = count + len(ours), failed + told("ours for %d" % release, ours, other_spellings(ours, release=word))
        if release_of(gdb) == release:
            count += len(of_gdb)
            answers = zip(of_gdb, gdb_spellings(list(of_gdb), gdb=gdb))
            failed += told("gdb", of_gdb, {name: answer for name, answer in answers if answer != of_gdb[name]})
        else:
            print("no gdb %d: passed over" % release)
    return count, failed


def compare(names, gdb):
    """Ours beside gdb's. A name that ours keeps and gdb changes is told, and isn't wrong."""
    answers = answered(names, gdb)
    others = other_spellings(answers, release=RELEASES[release_of(gdb)])
    kept = {name: ours for name, ours in others.items() if ours == name}
    changed = sum(answer != name for name, answer in answers.items())
    print("%d names, of which gdb changes %d; ours keeps %d of these" % (len(answers), changed, len(kept)))
    told("kept", answers, kept)
    return len(answers), told("wrong", answers, {name: ours for name, ours in others.items() if name not in kept})


def main(words):
    gdb = "gdb"
    if words[:1] == ["--gdb"]:
        gdb, words = words[1], words[2:]
    if words == ["--write"]:
        return write_table()
    if words == ["--write-newer"]:
        return write_newer(gdb)
    if words[:1] == ["--made"]:
        count, failed = compare(made_names(int(words[1]), int(words[2])), gdb)
    elif words:
        count, failed = compare(sorted({name for file in words for name in names_of(file)}), gdb)
    else:
        count, failed = check_tables(gdb)
    print("spelling: %d passed, %d failed" % (count - failed, failed))
    return 1 if failed else 0


if __name__ == "__main__":
    sys.exit(main(sys.argv[1:]))
