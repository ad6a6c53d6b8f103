#!/usr/bin/env python3
"""python3 too_large.py PROGRAM

Runs PROGRAM over files that are too large to be kept as rows, each with one thing more than is allowed, and over its neighbour that has
just as much as is allowed; and over one with millions of ranges, of which no number is too many. It makes them while it runs, on a disk,
where holes take no room. Behind each stands what it took. The last line is 'too large: N passed, M failed'."""
import array
import os
import re
import resource
import shutil
import subprocess
import sys
import tempfile
import time

TOP = os.path.dirname(os.path.dirname(os.path.abspath(__file__)))
sys.path.insert(0, os.path.join(TOP, "tools"))
import fault_pages  # noqa: E402
from fuzzing.packed import pack  # noqa: E402

UNITS, STRING, NAME, FILE = 16_777_215, 1 << 20, 1 << 24, 1 << 30
# So many ranges of one unit have no limit of their own.
RANGES = 4_000_001
ASKED = ["ask", "--workers", "1", "A", "main"]
# A unit of version 4 without an entry: its length, its version, its abbreviations, the size of an address. And one with an entry whose
# code has no abbreviation.
BARE_UNIT, DAMAGED_UNIT = bytes((7, 0, 0, 0, 4, 0, 0, 0, 0, 0, 8)), bytes((8, 0, 0, 0, 4, 0, 0, 0, 0, 0, 8, 1))
# A row of which an index is kept, and its name there.
KEPT_ROW, KEPT_NAME = os.path.join(TOP, "rows", "vectors", "cached_first_run"), "c_ab01.gdb-index"


def little(number, size):
    return number.to_bytes(size, "little")


def write_program(folder, **sections):
    with open(os.path.join(folder, "A"), "wb") as file:
        file.write(pack([(b"." + name.encode(), data) for name, data in sections.items()])[0])


def refused(code, place):
    return 1, b"refused %d %x\n" % (code, place)


def with_many_units(folder):
    """One unit more than can be numbered, which counts before the first one's damaged entry, since headers come first."""
    info = DAMAGED_UNIT + BARE_UNIT * UNITS
    write_program(folder, debug_info=info, debug_abbrev=b"\0")
    return ASKED, refused(22, len(info) - len(BARE_UNIT))


def with_as_many_units(folder):
    """As many units as can be numbered, of which the first has a damaged entry."""
    write_program(folder, debug_info=DAMAGED_UNIT + BARE_UNIT * (UNITS - 1), debug_abbrev=b"\0")
    return ASKED, refused(19, len(DAMAGED_UNIT) - 1)


def nested(folder, scopes, name, left_out=0):
    """A unit of C++ with namespaces in each other, which all have one name, and in the innermost a variable that has this name too, but
    for its first letters that are left out. Gives the variable's offset."""
    abbreviations = (b"\x01\x11\x01\x13\x0b\x00\x00"        # a compilation unit: its language
                     b"\x02\x39\x01\x03\x0e\x00\x00"        # a namespace: its name in .debug_str
                     b"\x03\x34\x00\x03\x0e\x02\x18\x3f\x19\x00\x00\x00")     # a variable: its name, its place, it is external
    variable = b"\x03" + little(left_out, 4) + b"\x09\x03" + little(0x1000, 8)
    entries = b"\x01\x04" + (b"\x02" + bytes(4)) * scopes + variable + bytes(scopes + 1)
    body = little(4, 2) + bytes(4) + b"\x08" + entries
    write_program(folder, debug_info=little(len(body), 4) + body, debug_abbrev=abbreviations, debug_str=name + b"\0")
    return 13 + 5 * scopes


def with_a_long_string(folder):
    return ASKED, refused(24, nested(folder, 0, b"n" * (STRING + 1)))


def with_as_long_a_string(folder):
    nested(folder, 0, b"n" * STRING)
    return ASKED, (0, b"none\n")


# Sixteen names of 2^20 bytes have fifteen pairs of colons between them.
COLONS = 2 * (NAME // STRING - 1)


def with_a_long_name(folder):
    return ASKED, refused(24, nested(folder, NAME // STRING - 1, b"n" * STRING, COLONS - 1))


def with_as_long_a_name(folder):
    nested(folder, NAME // STRING - 1, b"n" * STRING, COLONS)
    return ASKED, (0, b"none\n")


def with_a_long_kept_index(folder):
    shutil.copy(os.path.join(KEPT_ROW, "A"), folder)
    with open(os.path.join(folder, KEPT_NAME), "wb") as file:
        file.truncate(FILE + 1)
    return ["cached", "--workers", "1", "A", "c_", "name", "main"], (0, b"stale 82 0\nstored\nfound 1\n0 function global main\n")


def with_as_long_a_kept_index(folder):
    """A file of zeros doesn't begin as a kept index does."""
    words, (status, text) = with_a_long_kept_index(folder)
    os.truncate(os.path.join(folder, KEPT_NAME), FILE)
    return words, (status, text.replace(b"82", b"80"))


def with_a_long_program(folder):
    """Behind the program stand zeros up to a byte beyond the limit."""
    nested(folder, 0, b"n")
    os.truncate(os.path.join(folder, "A"), FILE + 1)
    return ASKED, (10, b"file too big\n")


def with_as_long_a_program(folder):
    with_a_long_program(folder)
    os.truncate(os.path.join(folder, "A"), FILE)
    return ASKED, (0, b"none\n")


def with_many_ranges(folder):
    """A unit of version 4 with a list of ranges, the highest first, each 8 bytes long and 8 apart; asked is the last byte of the last."""
    ranges = array.array("Q", (number for low in range(16 * RANGES, 0, -16) for number in (low, low + 8))).tobytes()
    table = b"\x01\x11\x00\x55\x17\x11\x01\x00\x00\x00"     # a compilation unit: its ranges in .debug_ranges, and its base
    body = little(4, 2) + bytes(4) + b"\x08" + b"\x01" + bytes(4) + bytes(8)
    write_program(folder, debug_info=little(len(body), 4) + body, debug_abbrev=table, debug_ranges=ranges + bytes(16))
    return ["ask", "--workers", "1", "A", "addr", "17"], (0, b"unit 0\n")


# Of each code that no row gives: what has one thing more than is allowed, and what has just as much.
CASES = {
    22: (with_many_units, with_as_many_units),
    24: (with_a_long_string, with_a_long_name, with_as_long_a_string, with_as_long_a_name),
    82: (with_a_long_kept_index, with_as_long_a_kept_index),
}
# The same of a file that is no fault, and what has no limit.
FILES = (with_a_long_program, with_as_long_a_program, with_many_ranges)
# So many bytes of addresses are enough for each: room is taken by what is there, and not by how long the file is.
ADDRESSES = 16 << 30


def sentence_of(text):
    """What is said of the code in the first line; nothing where it has none."""
    found = re.match(rb"(?:refused|stale) (\d+) ", text)
    return next((sentence for code, _, _, sentence, _ in fault_pages.faults() if found and code == int(found[1])), "")


def differs(program, make):
    """What a run says that isn't expected, or None, and what it took."""
    with tempfile.TemporaryDirectory() as folder:
        words, wanted = make(folder)
        began = time.monotonic()
        limit = lambda: resource.setrlimit(resource.RLIMIT_AS, (ADDRESSES, ADDRESSES))
        child = subprocess.Popen([program, *words], cwd=folder, stdout=subprocess.PIPE, stderr=subprocess.PIPE, preexec_fn=limit)
        out, err = child.communicate()
        took = "%.1f seconds" % (time.monotonic() - began)
        kept = os.path.join(folder, KEPT_NAME)
        if words[0] == "cached" and open(kept, "rb").read() != open(os.path.join(KEPT_ROW, "expect", KEPT_NAME), "rb").read():
            return "the index that is kept isn't that of the row", took
    if (child.returncode, out) != wanted:
        return "%d %r, not %d %r" % (child.returncode, out[:100], *wanted), took
    if sentence_of(out) not in err.decode():
        return "said %r" % err, took
    return None, took


def main():
    program, failed, passed = os.path.abspath(sys.argv[1]), 0, 0
    for make in (*(make for makes in CASES.values() for make in makes), *FILES):
        wrong, took = differs(program, make)
        most = resource.getrusage(resource.RUSAGE_CHILDREN).ru_maxrss >> 10
        print("too large: %s: %s, at most %d MiB so far%s" % (make.__name__, took, most, ": " + wrong if wrong else ""), flush=True)
        passed, failed = passed + (wrong is None), failed + (wrong is not None)
    print("too large: %d passed, %d failed" % (passed, failed))
    return 1 if failed or not passed else 0


if __name__ == "__main__":
    sys.exit(main())
