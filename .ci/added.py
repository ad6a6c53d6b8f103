#!/usr/bin/env python3
"""python3 added.py PROGRAM [FILE ..]

Has PROGRAM add each kind of index to compiled programs in C, C++, Ada and Rust, or to these files. Of each result: readelf shows the sections
of the program, in their order and with their bytes, but for `.debug_str` and the names' section, which begin with what they had; the
added sections hold what `index` stores; gdb uses a version 8 and answers as without it; the program runs as before, and objcopy and
strip take it; eu-elflint says of it nothing that it doesn't say of the program, where it is there. And `add` over the program itself, by a
link, leaves link and permissions. The last line is 'added: N passed, M failed'."""
import os
import re
import shutil
import subprocess
import sys
import tempfile

from gdb_uses import PROGRAMS, gdb, run
from real_program import compiled

KINDS = ("gdb8", "gdb9", "names")
# Flags that lay a program out otherwise.
LAYOUTS = [("-gdwarf-5", "-gdwarf64"), ("-gdwarf-5", "-O2", "-shared", "-fPIC"), ("-gdwarf-5", "-static"), ("-gdwarf-4", "-static-pie"),
           ("-gdwarf-5", "-no-pie", "-O1"), ("-gdwarf-5", "-O3", "-Wl,-z,noseparate-code"), ("-gdwarf-5", "-ffunction-sections", "-Wl,--gc-sections")]
# What readelf shows of a section: its name, type, address, place, size and what is left.
SECTION = re.compile(r"^  \[ *\d+\] (\S*) +(\S+) +([0-9a-f]{16}) ([0-9a-f]+) ([0-9a-f]+) (.*)$")


def read(path):
    with open(path, "rb") as file:
        return file.read()


def sections(file):
    """(name, type, address, what is left, bytes) of each section, as readelf shows them."""
    _, shown, _ = run("readelf", "-SW", file)
    bytes_ = read(file)
    for line in shown.split("\n"):
        match = SECTION.match(line)
        if match:
            name, kind, address, place, size, left = match.groups()
            held = b"" if kind in ("NULL", "NOBITS") else bytes_[int(place, 16):int(place, 16) + int(size, 16)]
            yield name, kind, address, left, held


def wrong_sections(file, made, index, kind):
    """What is wrong with the sections of the program with its index."""
    old, new = list(sections(file)), list(sections(made))
    kept = new[:len(old)]
    for before, after in zip(old, kept):
        grows = before[0] in (".debug_str", ".shstrtab")
        same = before == after or (grows and before[:3] == after[:3] and after[4].startswith(before[4]))
        yield None if same else "section %s: %s, not %s" % (before[0], after[:4], before[:4])
    added = {name: held for name, _, _, _, held in new[len(old):]}
    name = ".debug_names" if kind == "names" else ".gdb_index"
    yield None if added.get(name) == read(index) else "%s isn't what `index` stores" % name
    if kind == "names":
        before = dict((s[0], s[4]) for s in old).get(".debug_str", b"")
        after = dict((s[0], s[4]) for s in new)[".debug_str"]
        yield None if after == before + read(index + ".debug_str") else ".debug_str isn't what it was and the added strings"


def ran(file):
    """What the program writes and its status, whatever the name of its file is."""
    done = subprocess.run(["program"], executable=file, capture_output=True, stdin=subprocess.DEVNULL)
    return done.returncode, done.stdout, done.stderr


def lint(file):
    """The lines of eu-elflint, without numbers that tell places."""
    _, out, err = run("eu-elflint", "--gnu-ld", file)
    return {re.sub(r"\d+", "N", line) for line in (out + err).split("\n") if line and line != "No errors"}


def wrong_tools(file, made, folder):
    """What tools say otherwise of the program with its index."""
    if shutil.which("eu-elflint"):
        new = lint(made) - lint(file)
        yield None if not new else "eu-elflint: %s" % sorted(new)[:3]
    for tool in (("objcopy",), ("strip", "-g", "-o"), ("strip", "-o")):
        copy = os.path.join(folder, "copy")
        words = [*tool, made, copy] if tool == ("objcopy",) else [*tool, copy, made]
        status, _, said = run(*words)
        yield None if status == 0 and not said else "%s: %s" % (" ".join(tool), said[:200])
        yield None if status or not runs(file) or ran(copy) == ran(file) else "%s: the copy doesn't run as the program" % " ".join(tool)


def runs(file):
    """Whether the file is a program with its code, and no library or file of debug information."""
    _, shown, _ = run("readelf", "-SW", file)
    return re.search(r" \.interp +PROGBITS", shown) is not None and os.access(file, os.X_OK)


def wrong_gdb(file, made, function, questions):
    """What gdb says otherwise of the program with its index."""
    objects = gdb(made, "maint print objfiles")
    yield None if ".gdb_index: version 8" in objects else "gdb doesn't say that it uses the index"
    for question in ("break " + function, "info line " + function, *questions):
        plain, ours = gdb(file, question), gdb(made, question)
        yield None if plain == ours or plain.startswith("No symbol") else "%s: %r, not %r" % (question, ours[:200], plain[:200])


def wrong_in_place(program, file, folder):
    """What is wrong with an index that is added to the program itself, by a link."""
    own, link = os.path.join(folder, "own"), os.path.join(folder, "link")
    shutil.copy(file, own)
    os.chmod(own, 0o751)
    os.symlink("own", link)
    status, said, _ = run(program, "add", "--as", "gdb8", link, link)
    yield None if (status, said) == (0, "") else "over itself: status %d, %s" % (status, said)
    yield None if os.path.islink(link) and os.stat(own).st_mode & 0o777 == 0o751 else "over itself: the link or the permissions went"
    yield None if b".gdb_index\0" in read(own) else "over itself: no index"
    yield None if sorted(os.listdir(folder)).count("own") == 1 and not [n for n in os.listdir(folder) if n.endswith(".new")] else "over itself: a file is left"
    status, said, _ = run(program, "add", "--as", "gdb9", link, link)
    yield None if (status, said) == (12, "already indexed\n") else "twice: status %d, %s" % (status, said)


def wrong_program(program, file, function, questions, folder):
    """A text for each check of the file that fails, None for each that passes."""
    for kind in KINDS:
        made, index = os.path.join(folder, "made"), os.path.join(folder, "index")
        status, said, _ = run(program, "add", "--as", kind, file, made)
        other, _, _ = run(program, "index", "--as", kind, file, index)
        yield None if (status, said, other) == (0, "", 0) else "add: status %d, %s" % (status, said)
        if status or other:
            continue
        os.chmod(made, 0o755)
        for wrong in (*wrong_sections(file, made, index, kind), *wrong_tools(file, made, folder)):
            yield wrong and "%s: %s" % (kind, wrong)
        yield None if not runs(file) or ran(made) == ran(file) else "%s: it doesn't run as the program" % kind
        if kind == "gdb8" and shutil.which("gdb"):
            yield from wrong_gdb(file, made, function, questions)
    yield from wrong_in_place(program, file, folder)


def files_of(given):
    """Each file, what is asked of it, and what it is called."""
    for file in given:
        yield lambda folder, file=file: file, "main", (), file
    for compiler, sources, all_flags, function, questions in () if given else PROGRAMS:
        if not shutil.which(compiler):
            print("added: no program of %s, which is missing" % compiler)
            continue
        for flags in (*all_flags, *(LAYOUTS if compiler in ("gcc", "g++") else ())):
            yield (lambda folder, words=(compiler, sources, flags): compiled(*words, folder)), function, questions, "%s %s" % (compiler, " ".join(flags))


def main():
    program = os.path.abspath(sys.argv[1])
    passed, failed = 0, 0
    for make, function, questions, called in files_of(sys.argv[2:]):
        with tempfile.TemporaryDirectory() as folder, tempfile.TemporaryDirectory() as room:
            for wrong in wrong_program(program, make(room), function, questions, folder):
                passed, failed = passed + (wrong is None), failed + (wrong is not None)
                if wrong:
                    print("added: %s: %s" % (called, wrong))
    print("added: %d passed, %d failed" % (passed, failed))
    return 1 if failed or not passed else 0


if __name__ == "__main__":
    sys.exit(main())
