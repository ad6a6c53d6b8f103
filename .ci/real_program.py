#!/usr/bin/env python3
"""python3 real_program.py PROGRAM

Compiles programs in C, C++, Ada and Rust and compares what PROGRAM answers of them with what readelf and nm show: of each simple
name all entries that an index lists, with unit, offset and tag; of each function's address the unit that the function stands
in; and of the start code, which has no debug information, none. A library's separate debug file is compared by a part of its
names, where one is installed. A language whose compiler is missing is said and passed over.
The last line is 'real: N passed, M failed'."""
import glob
import os
import shutil
import subprocess
import sys
import tempfile

from readelf_entries import Program, lines_of

HERE = os.path.dirname(os.path.abspath(__file__))
DWARF = [("-gdwarf-%d" % version, "-O%d" % level) for version in (4, 5) for level in (0, 2)]
C = [*DWARF, ("-gdwarf-4", "-fdebug-types-section", "-O0"), ("-gdwarf-5", "-fdebug-types-section", "-O2"),
     ("-gdwarf-5", "-gdwarf64", "-O0"), ("-gdwarf-5", "-O2", "-shared", "-fPIC")]
# The compiler, its sources, and the flags of its programs.
LANGUAGES = [
    ("gcc", ("demo.c", "shapes.c"), C),
    ("g++", ("demo.cc", "shapes.cc"), C),
    ("gnatmake", ("demo.adb",), DWARF),
    ("rustc", ("demo.rs",), [("-O",), ("-C", "opt-level=0")]),
]
# Of a library's names so many are asked, evenly spread.
ASKED_OF_A_LIBRARY = 60
LARGEST_LIBRARY = 4 * 1024 * 1024


def compiled(compiler, sources, flags, folder):
    """The program in its folder."""
    file = os.path.join(folder, "demo")
    paths = [os.path.join(HERE, "programs", source) for source in sources]
    if compiler == "rustc":
        words = ["rustc", "-g", "--crate-type", "cdylib", "-C", "panic=abort", *flags, "-o", file, *paths]
    else:
        words = [compiler, "-g", *flags, "-o", file, *paths]
    subprocess.run(words, check=True, cwd=folder, capture_output=True)
    return file


def ask(program, file, query):
    done = subprocess.run([program, "ask", file, query], capture_output=True, text=True, errors="surrogateescape")
    return done.returncode, done.stdout


def found_by(text):
    """Unit, offset and tag of each line of an answer."""
    lines = [line.split(" ")[:3] for line in text.split("\n")[1:-1]]
    return [(int(unit), int(offset, 16), int(tag, 16)) for unit, offset, tag in lines]


def wrong_names(program, file, listed, names):
    for name in names:
        status, text = ask(program, file, "simple " + name)
        if status != 0 or found_by(text) != listed[name]:
            yield "simple %s: status %d, %r; readelf has %s" % (name, status, text[:200], listed[name][:5])


def functions_of(file):
    """The addresses of the functions that nm shows, by their symbols."""
    for line in lines_of("nm", "--defined-only", file):
        words = line.split()
        if len(words) == 3 and words[1] in "TtWw":
            yield words[2], int(words[0], 16)


def wrong_addresses(program, file, units):
    """What differs, for each function whose address is that of a subprogram; and for the start code."""
    for symbol, address in functions_of(file):
        wanted = ["unit %d\n" % unit for unit in units.get(address, ())]
        if symbol == "_start":
            wanted = ["none\n"]
        if wanted:
            status, text = ask(program, file, "addr %x" % address)
            yield None if status == 0 and text in wanted else "addr %x of %s: %r, not %s" % (address, symbol, text, wanted)


def check(program, what, file, names=None):
    """How many questions were answered rightly, and what differs."""
    shown = Program(file)
    listed = shown.listed()
    asked = sorted(listed) if names is None else sorted(listed)[::max(1, len(listed) // names)]
    wrong = ["%s: %s" % (what, text) for text in wrong_names(program, file, listed, asked)]
    addresses = [] if names else list(wrong_addresses(program, file, shown.functions()))
    wrong += ["%s: %s" % (what, text) for text in addresses if text]
    if not asked or (names is None and not addresses):
        wrong.append("%s: nothing to ask" % what)
    return len(asked) + len(addresses) - len(wrong), wrong


def debug_file(folder):
    """A separate debug file of moderate size, with its sections decompressed."""
    for path in sorted(glob.glob("/usr/lib/debug/.build-id/*/*.debug"), key=os.path.getsize, reverse=True):
        if os.path.getsize(path) > LARGEST_LIBRARY:
            continue
        file = os.path.join(folder, "library")
        subprocess.run(["objcopy", "--decompress-debug-sections", path, file], check=True, capture_output=True)
        sections = "\n".join(lines_of("readelf", "-SW", file))
        if ".debug_info" in sections and ".gnu_debugaltlink" not in sections:
            return file
    return None


def main():
    program = os.path.abspath(sys.argv[1])
    missing = [tool for tool in ("gcc", "readelf", "nm", "objcopy") if shutil.which(tool) is None]
    if missing:
        print("real: %s is missing here\nreal: 0 passed, 1 failed" % " and ".join(missing))
        return 1
    passed, failed = 0, []
    for compiler, sources, every in LANGUAGES:
        if shutil.which(compiler) is None:
            print("real: %s is missing here, so its programs aren't asked" % compiler)
            continue
        for flags in every:
            with tempfile.TemporaryDirectory() as folder:
                right, wrong = check(program, " ".join((compiler, *flags)), compiled(compiler, sources, flags, folder))
            passed, failed = passed + right, failed + wrong
    with tempfile.TemporaryDirectory() as folder:
        file = debug_file(folder)
        if file:
            right, wrong = check(program, "a library's debug file", file, ASKED_OF_A_LIBRARY)
            passed, failed = passed + right, failed + wrong
        else:
            print("real: no library's debug file is installed here")
    for text in failed[:40]:
        print("real: " + text)
    print("real: %d passed, %d failed" % (passed, len(failed)))
    return 1 if failed else 0


if __name__ == "__main__":
    sys.exit(main())
