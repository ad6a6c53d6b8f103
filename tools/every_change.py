#!/usr/bin/env python3
"""python3 tools/every_change.py PROGRAM [--part K/N] [--files N] [--jobs J] [--match PREFIX] [--command WORD] [--seconds T]

Takes the worked programs and indexes of rows/vectors, the small ones first, and makes of each every cut (each proper prefix) and
every change of one bit. The status of PROGRAM on each of them, what it writes and what it stores have to be those of the reading in
tools/reading. With --part K/N only every N-th of these files is taken, from the K-th on, so that N runs do the whole. The last line is
'every change: N passed, M failed'."""
import argparse
import itertools
import multiprocessing
import os
import sys
import tempfile
import time

from reading.check_rows import FOLDERS, inputs_of, words_of
from reading.commands import COMMANDS
from reading.words import task_of
from spawned import Spawner, compiled, limit_memory, meant, offers_cached

MEMORY = 1 << 30
# Of a program, what is asked beside the row's own question: its index says most of it.
INDEX = ["index", "--as", "gdb8", "--workers", "1", None, "OUT"]
MOST_SHOWN = 20
BATCH = 64


def with_one_worker(words, task):
    """The words with one worker, which starts no thread."""
    if "--workers" not in task.options or "--workers" in words:
        return words
    place = 3 if "--as" in task.options else 1
    return words[:place] + ["--workers", "1"] + words[place:]


class Case:
    """A row's files, the one of them that is changed, and what is asked of it."""

    def __init__(self, row, name, files, words):
        self.row, self.name, self.files, self.words = row, name, files, words

    def size(self):
        return len(self.files[self.name])


def cases_of(row):
    """The cases of a row: its own words, and for a program its index."""
    words, files = words_of(row), inputs_of(row)
    task = task_of(words)
    if task is None or task.command not in COMMANDS or task.files[0] not in files or os.path.exists(os.path.join(row, "dirs")):
        return
    name = task.files[0]
    yield Case(os.path.basename(row), name, files, with_one_worker(words, task))
    if task.command == "cached":
        yield from (Case(os.path.basename(row), kept, files, with_one_worker(words, task)) for kept in set(files) - {name})
    elif not task.command.startswith("look"):
        yield Case(os.path.basename(row), name, {name: files[name]}, [name if word is None else word for word in INDEX])


def all_cases(match, with_cached):
    """Each case once: of equal files with one command the first row's counts."""
    rows = [os.path.join(FOLDERS[0], name) for name in sorted(os.listdir(FOLDERS[0])) if name.startswith(match)]
    found = {}
    for row in rows:
        for case in cases_of(row):
            key = case.words[0], case.words[1] if case.words[0] == "look" else "", case.name, tuple(sorted(case.files.items()))
            if with_cached or case.words[0] != "cached":
                found.setdefault(key, case)
    return sorted(found.values(), key=Case.size)


def changes_of(data):
    """(what was done, the changed bytes) of each cut and of each bit."""
    for length in range(len(data)):
        yield "cut to %d" % length, data[:length]
    for place in range(len(data)):
        for bit in range(8):
            yield "byte %#x bit %d" % (place, bit), data[:place] + bytes((data[place] ^ 1 << bit,)) + data[place + 1:]


def batches_of(changes):
    """The changes in parts."""
    while batch := list(itertools.islice(changes, BATCH)):
        yield batch


def try_case(work):
    """(passed, the lines that say what differs) over every change of a case; none where there is no time left."""
    made, program, case, end = work
    if time.monotonic() > end:
        return 0, []
    limit_memory(MEMORY)
    passed, wrong = 0, []
    with tempfile.TemporaryDirectory(dir="/dev/shm") as folder:
        os.chdir(folder)
        runner = Spawner(made, program, copies=True)
        for batch in batches_of(changes_of(case.files[case.name])):
            runs = [(case.words, {**case.files, case.name: data}) for _, data in batch]
            for (done, _), (words, files), got in zip(batch, runs, runner.answers(runs)):
                wanted = meant(words, files)
                passed += got == wanted
                if got != wanted:
                    wrong.append("%s: %s: %s of %s: the program %s, the reading %s"
                                 % (case.row, " ".join(words), done, case.name, shown(got), shown(wanted)))
        runner.end()
        os.chdir("/")
    return passed, wrong


def shown(outcome):
    status, text, stored = outcome
    return "%s %r%s" % (status, text[:200], "".join(" %s of %d bytes" % (name, len(data)) for name, data in stored.items()))


def part_of(word):
    """(K, N) of the word K/N, where K is one of 1 to N."""
    first, step = map(int, word.split("/"))
    if not 1 <= first <= step:
        raise ValueError(word)
    return first, step


def main():
    parser = argparse.ArgumentParser()
    parser.add_argument("program")
    parser.add_argument("--files", type=int, help="how many cases, the small ones first")
    parser.add_argument("--part", type=part_of, default=(1, 1), help="K/N: every N-th case, from the K-th on")
    parser.add_argument("--jobs", type=int, default=1)
    parser.add_argument("--match", default="", help="only rows whose name begins so")
    parser.add_argument("--command", default="", help="only what this command is asked")
    parser.add_argument("--seconds", type=float, default=float("inf"), help="no file begins behind so many")
    words = parser.parse_args()
    end = time.monotonic() + words.seconds
    program = os.path.abspath(words.program)
    first, step = words.part
    cases = [case for case in all_cases(words.match, offers_cached(program)) if words.command in ("", case.words[0])]
    cases = cases[:words.files][first - 1::step]
    cuts = sum(case.size() for case in cases)
    print("%d files, %d cuts, %d bits" % (len(cases), cuts, 8 * cuts), flush=True)
    passed = failed = left_out = 0
    began = time.monotonic()
    with tempfile.TemporaryDirectory() as folder, multiprocessing.Pool(words.jobs) as pool:
        made = compiled(folder)
        for right, wrong in pool.imap_unordered(try_case, [(made, program, case, end) for case in cases]):
            passed, failed, left_out = passed + right, failed + len(wrong), left_out + (right == 0 and not wrong)
            for line in wrong[:MOST_SHOWN]:
                print(line, flush=True)
    if left_out:
        print("%d files left out: no bytes, or no time" % left_out)
    print("%.0f runs a second" % ((passed + failed) / (time.monotonic() - began)))
    print("every change: %d passed, %d failed" % (passed, failed))
    return 1 if failed or not passed else 0


if __name__ == "__main__":
    sys.exit(main())
