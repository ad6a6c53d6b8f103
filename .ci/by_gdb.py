#!/usr/bin/env python3
"""python3 by_gdb.py PROGRAM [--uses VERSION] [FILE ..]

Lets PROGRAM write the index of compiled programs, or of the FILEs, with the entries that gdb lists (`--rules gdb`), in versions 8 and 9 and
with several numbers of workers, and compares its bytes with those of the reading in tools/reading, which asks gdb 13 how names of C and
C++ are spelled, and a table how gdb 16 spells them. Then gdb itself opens the programs with these indexes and has to answer as it does without, also of 100 names of each. With --uses gdb
alone is asked, whatever its version, over indexes of VERSION.
The last line is 'by gdb: N passed, M failed'."""
import argparse
import os
import resource
import shutil
import subprocess
import sys
import tempfile

HERE = os.path.dirname(os.path.abspath(__file__))
sys.path.insert(0, os.path.join(os.path.dirname(HERE), "tools"))

from gdb_naming import compare, programs, spelling      # noqa: E402
from gdb_uses import gdb, wrong_answers                # noqa: E402
from reading.faults import Fault                       # noqa: E402
from reading.gdb_entries import gdb_index_bytes        # noqa: E402
from reading.gdb_index_read import GdbIndex            # noqa: E402
from reading.program import built                      # noqa: E402

WORKERS = (1, 3, 64)
# Of the names of a program so many are asked, evenly spread: what they are, by their kinds, and the question.
ASKED = ((3, 60, "break"), (1, 40, "ptype"))
# What gdb says where it finds nothing, or stops.
LESS = ("not defined.", "No symbol", "overlong character literal", "internal-error")
# What gdb is asked of the programs of a compiler.
QUESTIONS = {
    "gcc": ("break main", "info line main", "ptype struct point"),
    "g++": ("break main", "info line main", "info functions area", "info types Shape"),
    "gnatmake": ("break demo", "info line demo"),
    "rustc": ("info functions total",),
    "gfortran": ("break hello", "info line hello"),
    "clang": (),
    "clang++": (),
    "gdc": (),
    "fpc": (),
}


def index_of(program, file, version, workers, folder):
    """The bytes of the index by gdb's rules, or None with what is said."""
    out = os.path.join(folder, "index")
    words = [program, "index", "--as", "gdb%d" % version, "--rules", "gdb", "--workers", str(workers), file, out]
    done = subprocess.run(words, capture_output=True)
    if done.returncode:
        return None, "status %d, %r" % (done.returncode, done.stdout)
    with open(out, "rb") as stored:
        return stored.read(), ""


def wrong_bytes(program, file, speller, folder):
    """What is wrong with the bytes of the indexes of a file: a text, or None for each that is right."""
    with open(file, "rb") as stored:
        data = stored.read()
    try:
        read = built(data)
    except Fault as fault:
        index, said = index_of(program, file, 8, 1, folder)
        yield None if index is None and said.startswith("status 1,") else "not refused, but fault %d at %x" % (fault.code, fault.place)
        return
    speller.learn(read)
    for version in (8, 9):
        wanted = gdb_index_bytes(read, version, speller.older.spelled, speller.newer)
        for workers in WORKERS:
            index, said = index_of(program, file, version, workers, folder)
            good = index == wanted
            yield None if good else "version %d, %d workers: %s" % (version, workers, said or "%d bytes, not %d" % (len(index), len(wanted)))


def has_use(file, folder):
    """Whether gdb can use an index of the file: of some programs with type units after dwz gdb 13.1 stops over its own, or writes none."""
    copy = os.path.join(folder, "own")
    shutil.copy(file, copy)
    done = subprocess.run(["gdb-add-index", copy], capture_output=True)
    said = gdb(copy, "maint print objfiles", "break main")
    return done.returncode == 0 and ".gdb_index: version" in said and "internal-error" not in said


def questions_of(index):
    """What gdb is asked of the names that an index lists."""
    listed = compare.Names(GdbIndex(index)).of
    for kind, most, question in ASKED:
        names = sorted(name for name, elements in listed.items() if any(element[0] == kind for element in elements) and b"'" not in name)
        for name in names[::max(1, len(names) // most)]:
            yield "%s '%s'" % (question, name.decode(errors="surrogateescape"))


def answers(file, questions):
    """What gdb writes at each of the questions."""
    words = [word for question in questions for each in ("echo \\n<<<\\n", question) for word in ("-ex", each)]
    done = subprocess.run(["gdb", "-nx", "-batch", "-iex", "set debuginfod enabled off", *words, file], stdin=subprocess.DEVNULL,
                          stdout=subprocess.PIPE, stderr=subprocess.STDOUT, text=True, errors="surrogateescape")
    return done.stdout.replace(file, "FILE").split("<<<\n")[1:]


def wrong_uses(program, file, compiler, folder, version):
    """What gdb answers otherwise where the program has the index."""
    if compiler not in QUESTIONS or not has_use(file, folder):
        return
    copy = os.path.join(folder, "indexed")
    done = subprocess.run([program, "add", "--as", "gdb%d" % version, "--rules", "gdb", file, copy], capture_output=True)
    if done.returncode:
        yield "add: status %d" % done.returncode
        return
    os.chmod(copy, 0o755)
    uses = ".gdb_index: version %d" % version in gdb(copy, "maint print objfiles")
    yield None if uses else "gdb doesn't say that it uses the index"
    yield from wrong_answers(file, copy, QUESTIONS[compiler])
    questions = list(questions_of(index_of(program, file, 8, 1, folder)[0]))
    for question, plain, ours in zip(questions, answers(file, questions), answers(copy, questions)):
        # By itself gdb finds less of type units, and of some namespaces, and over some types it stops.
        same = plain == ours or not plain.strip() or any(said in plain for said in LESS)
        yield None if same else "%s: %r, not %r" % (question, ours[:200], plain[:200])


def main():
    parser = argparse.ArgumentParser()
    parser.add_argument("program")
    parser.add_argument("--uses", type=int, choices=(8, 9))
    parser.add_argument("files", nargs="*")
    wanted = parser.parse_args()
    program = os.path.abspath(wanted.program)
    if not shutil.which("gdb"):
        print("by gdb: not asked, since gdb is missing")
        return 0
    # A gdb that stops leaves no core behind.
    resource.setrlimit(resource.RLIMIT_CORE, (0, 0))
    speller, passed, failed = spelling.BothSpellers(), 0, 0
    with tempfile.TemporaryDirectory() as folder:
        files = ((path, path) for path in wanted.files) if wanted.files else programs.made(folder, "")
        for title, file in files:
            checks = [] if wanted.uses else list(wrong_bytes(program, file, speller, folder))
            checks += wrong_uses(program, file, title.split()[0], folder, wanted.uses or 8)
            for wrong in checks:
                passed, failed = passed + (wrong is None), failed + (wrong is not None)
                if wrong:
                    print("by gdb: %s: %s" % (title, wrong))
    print("by gdb: %d passed, %d failed" % (passed, failed))
    return 1 if failed or not passed else 0


if __name__ == "__main__":
    sys.exit(main())
