#!/usr/bin/env python3
"""python3 aranges.py PROGRAM [FILE ..]

Has PROGRAM compare the address tables of compiled programs in C, C++, Ada and Rust, of a library's debug file where one is installed, or
of these files, with the ranges of their units. It has to write the first address with two answers that follows from the pairs that
readelf and llvm-dwarfdump alike show of the table and from the ranges that llvm-dwarfdump shows of the roots, with any number of workers.
Each table is then damaged: a pair gets a byte more or a byte less, and the answer has to follow. A compiler that is missing is said and passed over.
The last line is 'aranges: N passed, M failed'."""
import heapq
import os
import re
import shutil
import struct
import subprocess
import sys
import tempfile

from real_program import compiled, debug_file

C = [*[("-gdwarf-%d" % version, "-O%d" % level) for version in (2, 3, 4, 5) for level in (0, 2)],
     ("-gdwarf-5", "-O2", "-ffunction-sections", "-Wl,--gc-sections"), ("-gdwarf-4", "-O0", "-ffunction-sections", "-Wl,--gc-sections"),
     ("-gdwarf-5", "-O2", "-flto"), ("-gdwarf-4", "-O2", "-flto"), ("-gdwarf-5", "-gdwarf64", "-O2"), ("-gdwarf-4", "-fdebug-types-section", "-O2"),
     ("-gdwarf-5", "-O2", "-shared", "-fPIC"), ("-gdwarf-5", "-no-pie", "-O1"), ("-gdwarf-5", "-static", "-O1")]
CLANG = [*[("-gdwarf-%d" % version, "-O2", *table) for version in (2, 3, 4, 5) for table in ((), ("-gdwarf-aranges",))],
         ("-gdwarf-5", "-gdwarf-aranges", "-O2", "-ffunction-sections", "-Wl,--gc-sections")]
DEMO = ("demo.c", "shapes.c")
PROGRAMS = [
    ("gcc", DEMO, C),
    ("g++", ("demo.cc", "shapes.cc"), C),
    ("clang", DEMO, CLANG),
    ("gnatmake", ("demo.adb",), [("-gdwarf-4", "-O2"), ("-gdwarf-5", "-O0")]),
    ("rustc", ("demo.rs",), [("-O",), ("-C", "opt-level=0")]),
]
WORKERS = ((), ("--workers", "1"), ("--workers", "8"))
# So many pairs of a table are damaged, evenly spread.
DAMAGED = 8
TOP = 2 ** 64 - 1

UNIT = re.compile(r"^0x([0-9a-f]+): \w+ Unit: ")
ATTRIBUTE = re.compile(r"^ +(DW_AT_\w+)\s+\((.*)$")
RANGE = re.compile(r"\[0x([0-9a-f]+), +0x([0-9a-f]+)\)")
PAIR = re.compile(r"^ +([0-9a-f]{8,16}) +([0-9a-f]{8,16})$")


def lines_of(*words):
    return subprocess.run(words, capture_output=True, text=True, errors="replace").stdout.split("\n")


def counts(low, end):
    """Whether a range counts: it doesn't if it begins at 0, begins or ends too high, or has no byte."""
    return 0 < low < TOP - 1 and low < end <= TOP


def roots(file):
    """(offset, attributes, ranges) of the root of each unit of `.debug_info`, in their order."""
    found, attribute = [], None
    for line in lines_of("llvm-dwarfdump", "--debug-info", "--recurse-depth=0", file):
        unit, begins = UNIT.match(line), ATTRIBUTE.match(line)
        if unit:
            found.append((int(unit.group(1), 16), {}, []))
        if begins:
            attribute = begins.group(1)
            found[-1][1].setdefault(attribute, begins.group(2))
        if found and attribute == "DW_AT_ranges":
            found[-1][2].extend((int(low, 16), int(end, 16)) for low, end in RANGE.findall(line))
    return found


def own_ranges(root):
    """The ranges of a unit, by its root."""
    _, attributes, ranges = root
    if "DW_AT_ranges" in attributes:
        return ranges
    ends = [re.match(r"0x([0-9a-f]+)", attributes.get(name, "")) for name in ("DW_AT_low_pc", "DW_AT_high_pc")]
    return [tuple(int(end.group(1), 16) for end in ends)] if all(ends) else []


def pairs(file):
    """(offset of the unit, address, length) of each pair of the table."""
    offset = None
    for line in lines_of("readelf", "-W", "--debug-dump=no-follow-links", "--debug-dump=aranges", file):
        if "Offset into .debug_info:" in line:
            offset = int(line.split()[-1], 0)
        pair = PAIR.match(line)
        if pair and offset is not None:
            yield offset, int(pair.group(1), 16), int(pair.group(2), 16)


def other_pairs(file):
    """The same pairs as llvm-dwarfdump shows them, which leaves out how a set ends."""
    offset = None
    for line in lines_of("llvm-dwarfdump", "--debug-aranges", file):
        header = re.search(r"cu_offset = 0x([0-9a-f]+)", line)
        offset = int(header.group(1), 16) if header else offset
        pair = RANGE.match(line)
        if pair:
            low, end = (int(word, 16) for word in pair.groups())
            yield offset, low, end - low


def wrong_pairs(file):
    """What readelf and llvm-dwarfdump tell differently of the table: then neither is a witness."""
    one, other = ({pair for pair in shown(file) if pair[2]} for shown in (pairs, other_pairs))
    yield None if one == other else "readelf and llvm-dwarfdump differ in %s" % sorted(one ^ other)[:3]


def steps(ranges):
    """Each address at which the least unit changes, with the unit from there on, or None. A range is (unit, low, end)."""
    edges = sorted({edge for _, low, end in ranges for edge in (low, end)})
    waiting, open_, found = sorted(ranges, key=lambda r: r[1], reverse=True), [], []
    for edge in edges:
        while waiting and waiting[-1][1] == edge:
            unit, _, end = waiting.pop()
            heapq.heappush(open_, (unit, end))
        while open_ and open_[0][1] <= edge:
            heapq.heappop(open_)
        found.append((edge, open_[0][0] if open_ else None))
    return found


def first_difference(table, own):
    """(address, unit by the table, unit by its own ranges) of the least address with two answers, or None."""
    now = {"table": None, "own": None}
    changes = sorted([(a, "table", u) for a, u in steps(table)] + [(a, "own", u) for a, u in steps(own)])
    for place, (address, side, unit) in enumerate(changes):
        now[side] = unit
        last = place + 1 == len(changes) or changes[place + 1][0] != address
        if last and now["table"] != now["own"]:
            return address, now["table"], now["own"]
    return None


def wanted_of(file, own, numbers):
    """What is to be written of the file, whose units have these ranges of their own, and these numbers by their offsets."""
    table = [(numbers[offset], low, low + length) for offset, low, length in pairs(file) if counts(low, low + length)]
    found = first_difference(table, own)
    return "agrees\n" if found is None else "differs %x %s %s\n" % (found[0], *("none" if u is None else u for u in found[1:]))


def answered(program, file, words=()):
    done = subprocess.run([program, "aranges", *words, file], capture_output=True, text=True, errors="replace", timeout=300)
    return done.returncode, done.stdout


def wrong_answer(program, file, wanted, workers=WORKERS):
    """A text for each answer that isn't the wanted one, None for each that is."""
    for words in workers:
        got = answered(program, file, words)
        yield None if got == (0, wanted) else "%s: status %d, %r, not %r" % (" ".join(words), *got, wanted)


def table_place(file):
    """Where the address table begins in the file, and how many bytes it has."""
    for line in lines_of("readelf", "-SW", file):
        section = re.match(r"^ +\[ *\d+\] \.debug_aranges +PROGBITS +\S+ ([0-9a-f]+) ([0-9a-f]+) ", line)
        if section:
            return int(section.group(1), 16), int(section.group(2), 16)
    return None


def damaged(file, folder):
    """Copies of the file in each of which a pair of the table has a byte more or less."""
    place, all_pairs = table_place(file), list(pairs(file))
    if place is None:
        return
    with open(file, "rb") as source:
        program = source.read()
    for number, (_, address, length) in enumerate(all_pairs[::max(1, len(all_pairs) // DAMAGED)]):
        at = program.find(struct.pack("<QQ", address, length), place[0], sum(place))
        if at >= 0 and length:
            copy = os.path.join(folder, "damaged")
            with open(copy, "wb") as changed:
                changed.write(program[:at] + struct.pack("<QQ", address, length + (-1) ** number) + program[at + 16:])
            yield copy


def wrong_program(program, file, folder):
    """What is wrong with the comparison of the file and of damaged copies."""
    units = roots(file)
    numbers = {offset: number for number, (offset, _, _) in enumerate(units)}
    own = [(number, low, end) for number, root in enumerate(units) for low, end in own_ranges(root) if counts(low, end)]
    yield from wrong_pairs(file)
    yield from wrong_answer(program, file, wanted_of(file, own, numbers)) if own else ("llvm-dwarfdump shows no range",)
    for copy in damaged(file, folder):
        yield from wrong_answer(program, copy, wanted_of(copy, own, numbers), WORKERS[:1])


def files_of(given):
    """Each file as a function of a folder, and what it is called."""
    for file in given:
        yield lambda folder, file=file: file, file
    for compiler, sources, all_flags in () if given else PROGRAMS:
        if not shutil.which(compiler):
            print("aranges: no program of %s, which is missing" % compiler)
            continue
        for flags in all_flags:
            yield lambda folder, words=(compiler, sources, flags): compiled(*words, folder), " ".join((compiler, *flags))
    if not given:
        yield debug_file, "a library's debug file"


def main():
    program = os.path.abspath(sys.argv[1])
    missing = [tool for tool in ("readelf", "llvm-dwarfdump") if shutil.which(tool) is None]
    if missing:
        print("aranges: %s is missing here\naranges: 0 passed, 1 failed" % " and ".join(missing))
        return 1
    passed, failed = 0, 0
    for make, called in files_of(sys.argv[2:]):
        with tempfile.TemporaryDirectory() as folder, tempfile.TemporaryDirectory() as room:
            file = make(room)
            if file is None:
                print("aranges: %s is not installed here" % called)
                continue
            for wrong in wrong_program(program, file, folder):
                passed, failed = passed + (wrong is None), failed + (wrong is not None)
                if wrong:
                    print("aranges: %s: %s" % (called, wrong))
    print("aranges: %d passed, %d failed" % (passed, failed))
    return 1 if failed or not passed else 0


if __name__ == "__main__":
    sys.exit(main())
