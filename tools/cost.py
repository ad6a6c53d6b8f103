#!/usr/bin/env python3
"""python3 tools/cost.py PROGRAM [--match WORD] [--times N] [--seconds T]

Makes files that cost more than their length (tools/costly), each at three sizes that double, and measures PROGRAM over them: processor
seconds and greatest memory with one worker. From size to size both may double and grow by a logarithm; where they grow faster the sizes
are measured again, and the least of each counts, since what else a machine does makes a run dearer and never cheaper. A row that still
grows faster fails, unless its kind is told below as one whose answer is that long. A row also fails where it doesn't end, and where
memory was wanted, unless its kind is told below as one that has a limit, with the reason.
--times multiplies the sizes. The last line is 'cost: N passed, M failed'."""
import argparse
import math
import os
import resource
import signal
import subprocess
import sys
import tempfile

from costly import indexes, programs

SIZES = 3
# So often a row is measured at most.
MOST_TIMES = 5
# Twice and a logarithm, with room for what a machine with other work adds.
MOST_GROWTH = 2.7
# What takes less than this isn't compared: processor seconds, and bytes of memory.
LEAST_SECONDS, LEAST_BYTES = 0.3, 48 << 20
# The status where memory was refused.
NO_MEMORY = 7

ASK = ["ask", "--workers", "1", "FILE", "main"]
GDB8 = ["index", "--as", "gdb8", "--workers", "1", "FILE", "OUT"]
BY_GDB = ["index", "--as", "gdb8", "--rules", "gdb", "--workers", "1", "FILE", "OUT"]
FILES = ["files", "--workers", "1", "FILE", "stdio.h"]
NAMES = ["index", "--as", "names", "--workers", "1", "FILE", "OUT"]
LOOK_GDB = ["look", "gdb", "FILE", "name", "y"]
LOOK_NAMES = ["look", "names", "FILE", "STRINGS", "name", "zz"]
# Why a row may want memory. A long answer may grow with the square up to its limit; all others have to be cheap.
LONG = "the answer itself is that long"
SHARED = "its parts overlap, and how many bytes of them are read has a limit"
FULL = "its slots are full, and how many of them are passed has a limit"

# Kind, first size, words, and why it may want memory.
ROWS = [
    (programs.references_to_the_last, 4000, ASK, None),
    (programs.signatures_of_the_last, 4000, ASK, None),
    (programs.a_wide_root, 4000, ASK, None),
    (programs.tables_by_turns, 8000, ASK, None),
    (programs.references_to_the_last, 4000, BY_GDB, None),
    (programs.chains_along_scopes, 250, ASK, None),
    (programs.chains_along_scopes, 250, BY_GDB, None),
    (programs.deep_scopes, 2000, ASK, None),
    (programs.deep_scopes, 2000, BY_GDB, None),
    (programs.two_tables, 8000, ASK, None),
    (programs.two_tables, 8000, BY_GDB, None),
    (programs.many_tables, 8000, ASK, SHARED),
    (programs.many_tables, 8000, BY_GDB, SHARED),
    (programs.two_tables, 8000, FILES, SHARED),
    (programs.many_tables, 8000, FILES, SHARED),
    (programs.many_sections, 40000, ASK, None),
    (programs.section_names, 400000, ASK, SHARED),
    (programs.one_table, 8000, ASK, None),
    (programs.a_wide_abbreviation, 16000, ASK, None),
    (programs.one_string, 8000, GDB8, SHARED),
    (programs.one_string, 8000, NAMES, SHARED),
    (programs.one_string, 8000, BY_GDB, SHARED),
    (programs.many_templates, 100000, BY_GDB, None),
    (programs.ends_of_a_string, 4000, GDB8, LONG),
    (programs.ends_of_a_string, 4000, NAMES, LONG),
    (programs.ada_names, 1000, GDB8, LONG),
    (programs.one_hash, 10000, GDB8, None),
    (programs.one_hash, 10000, NAMES, None),
    (programs.one_hash, 10000, BY_GDB, None),
    (programs.many_names, 50000, GDB8, None),
    (programs.many_names, 50000, NAMES, None),
    (programs.many_names, 50000, BY_GDB, None),
    (programs.ranges_of_all_units, 8000, ASK, None),
    (programs.ranges_of_all_functions, 8000, ASK, None),
    (programs.ranges_from_other_bases, 1000, ASK, SHARED),
    (programs.ends_of_a_list, 4000, ASK, None),
    (programs.rising_ends_of_a_list, 4000, ASK, None),
    (programs.shuffled_ends_of_a_list, 4000, ASK, None),
    (programs.imports, 20000, ASK, None),
    (programs.long_scopes, 1000, GDB8, LONG),
    (programs.longest_scopes, 10, GDB8, LONG),
    (programs.long_scopes, 1000, BY_GDB, LONG),
    (programs.longest_scopes, 10, BY_GDB, LONG),
    (programs.small_entries, 200000, ASK, None),
    (programs.below_functions, 200000, ASK, None),
    (programs.nested_ranges, 20000, ASK, None),
    (programs.names_behind_near_copies, 4 << 20, ASK, None),
    (programs.small_units, 50000, ASK, None),
    (programs.one_name, 200000, GDB8, None),
    (indexes.one_vector, 8000, LOOK_GDB, None),
    (indexes.vectors_inside_one_another, 8000, LOOK_GDB, None),
    (indexes.slots_of_one_hash, 4000, LOOK_GDB, None),
    (indexes.slots_of_ends, 8000, LOOK_GDB, None),
    (indexes.full_slots, 8192, LOOK_GDB, FULL),
    (indexes.full_slots_of_ends, 8192, LOOK_GDB, FULL),
    (indexes.slots_of_one_print, 8192, LOOK_GDB, FULL),
    (indexes.a_wide_abbreviation, 16000, LOOK_NAMES, None),
    (indexes.many_abbreviations, 16000, LOOK_NAMES, None),
    (indexes.one_string, 80000, LOOK_NAMES, None),
    (indexes.one_list, 16000, LOOK_NAMES, None),
    (indexes.hashed_ends, 16000, LOOK_NAMES, None),
]


class Run:
    """Processor seconds, greatest memory in bytes, and the status; None where the time ran out."""

    def __init__(self, usage, status):
        self.seconds, self.memory = usage.ru_utime + usage.ru_stime, usage.ru_maxrss << 10
        self.status = os.waitstatus_to_exitcode(status)
        if self.status in (-signal.SIGXCPU, -signal.SIGKILL):
            self.status = None

    def __str__(self):
        told = "no end" if self.status is None else "status %d" % self.status
        return "%.2f s, %d MB, %s" % (self.seconds, self.memory >> 20, told)


def measured(command, seconds, most=resource.RLIM_INFINITY):
    """A run of a command with a limit of processor seconds, and one of bytes of memory."""
    def limited():
        resource.setrlimit(resource.RLIMIT_CPU, (seconds, seconds + 1))
        resource.setrlimit(resource.RLIMIT_AS, (most, most))
        resource.setrlimit(resource.RLIMIT_CORE, (0, 0))

    nothing = subprocess.DEVNULL
    with subprocess.Popen(command, stdin=nothing, stdout=nothing, stderr=nothing, preexec_fn=limited) as child:
        _, status, usage = os.wait4(child.pid, 0)
        child.returncode = 0
    return Run(usage, status)


def made(kind, size, folder):
    """The names of the files of a kind by the words of the rows, and their bytes together."""
    data = kind(size)
    parts = dict(zip(("FILE", "STRINGS"), data if isinstance(data, tuple) else (data,)))
    names = {word: os.path.join(folder, word) for word in ("FILE", "STRINGS", "OUT")}
    for word, content in parts.items():
        if content is not None:
            with open(names[word], "wb") as file:
                file.write(content)
    return names, sum(len(content) for content in parts.values() if content is not None)


def runs_of(row, program, options):
    """(bytes, run) of each size of a row, up to one that doesn't end."""
    kind, first, words, _ = row
    for step in range(SIZES):
        with tempfile.TemporaryDirectory() as folder:
            names, size = made(kind, (first << step) * options.times, folder)
            run = measured([program, *(names.get(word, word) for word in words)], options.seconds)
        yield size, run
        if run.status is None:
            return


def least(before, runs):
    """The runs of a row where each size costs the less of two times."""
    for (size, first), (_, second) in zip(before, runs):
        second.seconds, second.memory = min(first.seconds, second.seconds), min(first.memory, second.memory)
        yield size, second


def measured_row(row, program, options):
    """The runs of a row, measured until they are cheap or so often that they aren't, and whether they are."""
    runs = list(runs_of(row, program, options))
    for _ in range(0 if row[3] == LONG else MOST_TIMES - 1):
        if is_cheap(runs) or runs[-1][1].status is None:
            break
        runs = list(least(runs, runs_of(row, program, options)))
    return runs, is_cheap(runs)


def growth(runs):
    """By how much the dearer of seconds and memory grew with the last doubling of the bytes, or of the size where the bytes hardly grew;
    None where it is too little to tell."""
    (before, first), (size, last) = runs[-2:]
    doublings = math.log2(size / before) if size > 1.5 * before else 1
    found = []
    for least, small, large in (LEAST_SECONDS, first.seconds, last.seconds), (LEAST_BYTES, first.memory, last.memory):
        if large > least:
            found.append(2 ** (math.log2(large / max(small, least / 4)) / doublings))
    return max(found, default=None)


def is_cheap(runs):
    """Whether the runs of a row ended, and neither seconds nor memory grew faster than they may."""
    if runs[-1][1].status is None:
        return False
    grew = growth(runs) if len(runs) > 1 else None
    return grew is None or grew <= MOST_GROWTH


def asked(words):
    """The words of a row, but for the names of files."""
    return " ".join(word for word in words if not word.isupper())


def main():
    parser = argparse.ArgumentParser()
    parser.add_argument("program")
    parser.add_argument("--match", default="")
    parser.add_argument("--times", type=int, default=1)
    parser.add_argument("--seconds", type=int, default=60)
    options = parser.parse_args()
    program = os.path.abspath(options.program)
    passed = failed = 0
    for row in ROWS:
        kind, _, words, why = row
        name = "%s.%s" % (kind.__module__.rpartition(".")[2], kind.__name__)
        if options.match not in name:
            continue
        runs, cheap = measured_row(row, program, options)
        wants_memory = any(run.status == NO_MEMORY for _, run in runs)
        ended = runs[-1][1].status is not None
        if ended and (cheap or why == LONG) and (not wants_memory or why):
            passed += 1
        else:
            failed += 1
        told = ": wants memory" if wants_memory else ""
        if not cheap or (wants_memory and why):
            told += ": " + (why or "grows faster than its file")
        print("%s, %s: %s%s" % (name, asked(words), "; ".join("%d bytes %s" % one for one in runs), told), flush=True)
    print("cost: %d passed, %d failed" % (passed, failed))
    return 1 if failed else 0


if __name__ == "__main__":
    sys.exit(main())
