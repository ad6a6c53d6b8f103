#!/usr/bin/env python3
"""python3 files.py PROGRAM [FILE ..]

Compiles programs with gcc and clang in DWARF 2 to 5, with type units, in 64-bit DWARF and with optimisation, and compares what PROGRAM lists of
the files of their line tables with what readelf and llvm-dwarfdump show of these tables: for each path and each last part of one, and for a
name that no table has. Or does so of these files. A tool that is missing is said and passed over.
The last line is 'files: N passed, M failed'."""
import os
import re
import shutil
import sys
import tempfile

from gdb_uses import run
from real_program import compiled

VERSIONS = [("-gdwarf-%d" % version, "-O%d" % level) for version in (2, 3, 4, 5) for level in (0, 2)]
C = [*VERSIONS, ("-gdwarf-2", "-gstrict-dwarf"), ("-gdwarf-4", "-fdebug-types-section"), ("-gdwarf-5", "-fdebug-types-section"),
     ("-gdwarf-5", "-gdwarf64"), ("-gdwarf-5", "-flto", "-O2")]
COMPILERS = [("gcc", ("demo.c", "shapes.c")), ("g++", ("demo.cc", "shapes.cc")), ("clang", ("demo.c", "shapes.c")), ("clang++", ("demo.cc", "shapes.cc"))]
# A file of a table as readelf shows it: its index, in versions 2 to 4 its directory, time and length, and its path; in version 5 what its
# columns are called, and the path behind the form's own words.
OLD_FILE = re.compile(r"^  (\d+)\t(\d+)\t\d+\t\d+\t(.*)$")
NEW_FILE = re.compile(r"^  (\d+)\t(?:(\d+)[\t ])?(?:0x[0-9a-f]+\t)?(?:\(.*?offset: (?:0x)?[0-9a-f]+\): )?(.*)$")


def of_readelf(file):
    """The files of each table, by its place: index, directory and path."""
    tables, files, inside = {}, None, False
    for line in run("readelf", "--debug-dump=rawline", file)[1].split("\n"):
        place = re.match(r"  Offset: +(?:0x)?([0-9a-f]+)$", line)
        if place:
            files = tables.setdefault(int(place.group(1), 16), [])
        if line.startswith(" The File Name Table"):
            pattern, inside = NEW_FILE if ", lines" in line else OLD_FILE, True
        elif not line:
            inside = False
        elif inside and not line.startswith("  Entry"):
            index, directory, path = pattern.match(line).groups()
            files.append((int(index), int(directory or 0), path))
    return tables


def of_llvm(file):
    """The same, as llvm-dwarfdump shows them."""
    tables, files = {}, None
    for line in run("llvm-dwarfdump", "--debug-line", file)[1].split("\n"):
        place = re.match(r"debug_line\[0x([0-9a-f]+)\]", line)
        index = re.match(r"file_names\[ *(\d+)\]:", line)
        said = re.match(r" +(name|dir_index): (.*)$", line)
        if place:
            files = tables.setdefault(int(place.group(1), 16), [])
        elif index:
            files.append((int(index.group(1)), 0, ""))
        elif said and said.group(1) == "name":
            files[-1] = (files[-1][0], files[-1][1], said.group(2).strip('"'))
        elif said:
            files[-1] = (files[-1][0], int(said.group(2)), files[-1][2])
    return tables


def places(file):
    """The place of each unit's table in section order, None where its root says none."""
    found = {".debug_info": [], ".debug_types": []}
    section, root = ".debug_info", False
    for line in run("readelf", "-W", "--debug-dump=info", file)[1].split("\n"):
        began = re.match(r"Contents of the (\.debug_\w+) section", line)
        if began:
            section = began.group(1)
        elif line.startswith("  Compilation Unit @"):
            found[section].append(None)
        elif re.match(r" <\d+><[0-9a-f]+>:", line):
            root = line.startswith(" <0>")
        elif root and "DW_AT_stmt_list" in line:
            found[section][-1] = int(line.split()[-1], 16)
    return found[".debug_info"] + found[".debug_types"]


def last_part(path):
    return path.rsplit("/", 1)[-1]


def listing(units, tables, name):
    lines = ["%d %d %d %s" % (number, *file) for number, place in enumerate(units) if place is not None
             for file in tables[place] if name in (file[2], last_part(file[2]))]
    return "\n".join(["found %d" % len(lines), *lines, ""])


def wrong_tables(program, file, reader, tables):
    """A text for each name whose files differ, None for each whose files don't."""
    units = places(file)
    names = {name for files in tables.values() for _, _, path in files for name in (path, last_part(path)) if name}
    yield None if names else "%s shows no file" % reader
    for name in (*sorted(names), "no such file"):
        for workers in ("1", "3"):
            status, text, _ = run(program, "files", "--workers", workers, file, name)
            wanted = listing(units, tables, name)
            yield None if (status, text) == (0, wanted) else "%s: status %d, %r; %s shows %r" % (name, status, text[:200], reader, wanted[:200])


def files_of(given):
    """Each file, and what it is called."""
    for file in given:
        yield lambda folder, file=file: file, file
    for compiler, sources in () if given else COMPILERS:
        if not shutil.which(compiler):
            print("files: no program of %s, which is missing" % compiler)
            continue
        for flags in C:
            yield (lambda folder, words=(compiler, sources, flags): compiled(*words, folder)), "%s %s" % (compiler, " ".join(flags))


def main():
    program = os.path.abspath(sys.argv[1])
    readers = [("readelf", of_readelf), ("llvm-dwarfdump", of_llvm)]
    passed, failed = 0, 0
    for make, called in files_of(sys.argv[2:]):
        with tempfile.TemporaryDirectory() as folder:
            file = make(folder)
            for reader, tables in readers:
                if not shutil.which(reader):
                    print("files: %s is missing" % reader)
                    continue
                wrong = list(wrong_tables(program, file, reader, tables(file)))
                passed += wrong.count(None)
                failed += len(wrong) - wrong.count(None)
                for text in filter(None, wrong):
                    print("%s: %s" % (called, text))
    print("files: %d passed, %d failed" % (passed, failed))
    return 1 if failed or not passed else 0


if __name__ == "__main__":
    sys.exit(main())
