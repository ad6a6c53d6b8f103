#!/usr/bin/env python3
"""python3 gdb_uses.py PROGRAM

Adds the `.gdb_index` that PROGRAM makes to compiled programs in C, C++, Ada and Rust (DWARF 4 and 5, type units, -O2) with objcopy.
gdb has to say that it uses the index, and to answer a breakpoint, a line, a type or a symbol as it does without it; readelf has to
print the index without a complaint. Version 9 is asked of gdb and readelf only where they know it. llvm-dwarfdump, where it is there,
has to read the `.debug_names`. A tool that is missing is said and passed over.
The last line is 'gdb: N passed, M failed'."""
import os
import shutil
import subprocess
import sys
import tempfile

from real_program import DWARF, compiled

C = [*DWARF, ("-gdwarf-4", "-fdebug-types-section", "-O2"), ("-gdwarf-5", "-fdebug-types-section", "-O0")]
# The compiler, its sources, the flags of its programs, a function, and what is asked of it and of more.
PROGRAMS = [
    ("gcc", ("demo.c", "shapes.c"), C, "main", ("info symbol main", "ptype struct point")),
    ("g++", ("demo.cc", "shapes.cc"), C, "main", ("info symbol main", "ptype shapes::Square")),
    ("gnatmake", ("demo.adb",), DWARF, "main", ("break demo", "info line demo")),
    ("rustc", ("demo.rs",), [("-O",), ("-C", "opt-level=0")], "total", ("info symbol total",)),
]


def run(*words, folder=None):
    done = subprocess.run(words, cwd=folder, capture_output=True, text=True, errors="surrogateescape", stdin=subprocess.DEVNULL)
    return done.returncode, done.stdout, done.stderr


def with_section(file, name, section, flags="readonly"):
    """A copy of the file with a section that holds these bytes."""
    copy = file + name
    status, _, said = run("objcopy", "--add-section", "%s=%s" % (name, section), "--set-section-flags", "%s=%s" % (name, flags), file, copy)
    return copy if status == 0 else sys.exit("gdb_uses: objcopy: " + said)


def gdb(file, *commands):
    """What gdb writes at these commands, without the name of the file."""
    words = [word for command in commands for word in ("-ex", command)]
    _, out, err = run("gdb", "-nx", "-batch", "-iex", "set debuginfod enabled off", *words, file)
    return (out + err).replace(file, "FILE")


def wrong_index(program, file, version, function, questions, folder):
    """What is wrong with the index of the file: a text, or None for each check that passes. What doesn't know version 9 isn't asked."""
    section = os.path.join(folder, "index%d" % version)
    status, said, _ = run(program, "index", "--as", "gdb%d" % version, file, section)
    yield None if status == 0 else "index: status %d, %s" % (status, said)
    if status:
        return
    indexed = with_section(file, ".gdb_index", section)
    status, out, err = run("readelf", "--debug-dump=gdb_index", indexed)
    if version == 8 or "Unsupported version" not in out + err:
        yield None if status == 0 and "Warning" not in out + err else "readelf: %s" % (err or out)[:300]
    objects = gdb(indexed, "maint print objfiles")
    uses = ".gdb_index: version %d" % version in objects
    if version == 8 or uses:
        yield None if uses else "gdb doesn't say that it uses the index: %s" % objects[:300]
        yield from wrong_answers(file, indexed, ("break " + function, "info line " + function, *questions))


def wrong_answers(file, indexed, questions):
    """What gdb answers otherwise with the index. Of a type in a type unit gdb may find nothing by itself."""
    for question in questions:
        plain, ours = gdb(file, question), gdb(indexed, question)
        same = plain == ours or plain.startswith("No symbol")
        yield None if same else "%s: %r, not %r" % (question, ours[:200], plain[:200])


def wrong_names(program, file, function, folder):
    """What llvm-dwarfdump says of the `.debug_names` of the file."""
    section = os.path.join(folder, "names")
    status, said, _ = run(program, "index", "--as", "names", file, section)
    if status:
        yield "names: status %d, %s" % (status, said)
        return
    with_names = with_section(file, ".debug_names", section)
    strings = os.path.join(folder, "strings")
    run("objcopy", "-O", "binary", "--only-section=.debug_str", "--set-section-flags", ".debug_str=alloc", file, strings)
    with open(strings, "ab") as whole, open(section + ".debug_str", "rb") as added:
        whole.write(added.read())
    done = with_names + "s"
    status, _, said = run("objcopy", "--update-section", ".debug_str=" + strings, with_names, done)
    if status:
        yield "objcopy: " + said
        return
    status, out, err = run("llvm-dwarfdump", "--debug-names", done)
    good = status == 0 and not err and "error:" not in out and '"%s"' % function in out
    yield None if good else "llvm-dwarfdump: %s" % (err or out)[:300]


def main():
    program = os.path.abspath(sys.argv[1])
    missing = [name for name in ("gdb", "objcopy", "readelf") if not shutil.which(name)]
    if missing:
        print("gdb: not asked, since %s is missing" % ", ".join(missing))
        return 0
    passed, failed = 0, 0
    for compiler, sources, all_flags, function, questions in PROGRAMS:
        if not shutil.which(compiler):
            print("gdb: no program of %s, which is missing" % compiler)
            continue
        for flags in all_flags:
            with tempfile.TemporaryDirectory() as folder:
                file = compiled(compiler, sources, flags, folder)
                checks = [wrong for version in (8, 9) for wrong in wrong_index(program, file, version, function, questions, folder)]
                if shutil.which("llvm-dwarfdump"):
                    checks += wrong_names(program, file, function, folder)
            for wrong in checks:
                passed, failed = passed + (wrong is None), failed + (wrong is not None)
                if wrong:
                    print("gdb: %s %s: %s" % (compiler, " ".join(flags), wrong))
    print("gdb: %d passed, %d failed" % (passed, failed))
    return 1 if failed or not passed else 0


if __name__ == "__main__":
    sys.exit(main())
