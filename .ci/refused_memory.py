#!/usr/bin/env python3
"""python3 refused_memory.py PROGRAM

Runs PROGRAM again and again and refuses each of its allocations in turn, one number a run: those of each command over small programs
and indexes, with one worker and with three. Each run says what it says with plenty of memory, or ends with status 7: then it writes
`no memory`, or in `serve` and `race` a prefix of what it writes otherwise and stops; and it stores nothing. `cached` goes on with what it
has (`unsaved`, `stored` in place of `hit`) where the shelf itself was refused memory, and a shelf that was refused memory may end a run
with a failed read (3) or store (4), and an output with a failed write (5).
The last line is 'refused memory: N passed, M failed'."""
import os
import subprocess
import sys
import tempfile

HERE = os.path.dirname(os.path.abspath(__file__))
ROWS = os.path.join(os.path.dirname(HERE), "rows", "vectors")
# Commands, with what stands in their input. The first words name files of FILES; OUT is one that is stored.
COMMANDS = [
    (["ask", "FILE", "name", "main"], b""),
    (["ask", "FILE", "main"], b""),
    (["ask", "FILE", "addr", "1000"], b""),
    (["ask", "FILE", "cache"], b""),
    (["ask", "METHOD", "name", "a::f"], b""),
    (["index", "--as", "gdb8", "FILE", "OUT"], b""),
    (["index", "--as", "gdb9", "METHOD", "OUT"], b""),
    (["index", "--as", "names", "FILE", "OUT"], b""),
    (["index", "--as", "gdb9", "--rules", "gdb", "FILE", "OUT"], b""),
    (["add", "--as", "gdb8", "FILE", "OUT"], b""),
    (["add", "--as", "names", "FILE", "OUT"], b""),
    (["aranges", "TABLE"], b""),
    (["files", "LINES", "h.h"], b""),
    (["cached", "IDENTIFIED", "kept_", "name", "main"], b""),
    (["cached", "IDENTIFIED", "full_", "name", "main"], b""),
    (["look", "gdb", "INDEX", "name", "main"], b""),
    (["look", "names", "NAMES", "NAMES.debug_str", "name", "main"], b""),
    (["serve", "--wait", "3", "FILE"], b"main\nname main\n"),
    (["race", "--readers", "2", "FILE", "SCRIPT"], b""),
    (["drill", "7", "5", "2"], b""),
    (["--help"], b""),
    (["unknown"], b""),
]
# The name of each input, the row that has it and the file there.
FILES = [
    ("FILE", "gdb8_of_file_a", "A"), ("METHOD", "method_over_three_units_by_name_1_workers", "A"), ("TABLE", "aranges_too_short", "A"),
    ("LINES", "files_by_name", "A"), ("IDENTIFIED", "cached_first_run", "A"), ("INDEX", "look_gdb8_main", "X"),
    ("NAMES", "look_names_name", "X"), ("NAMES.debug_str", "look_names_name", "X.debug_str"),
    ("full_ab01.gdb-index", "cached_first_run", "expect/c_ab01.gdb-index"),
]
# Where words can name a number of workers: behind so many words.
BEFORE_WORKERS = {"add": 3, "aranges": 1, "ask": 1, "cached": 1, "files": 1, "index": 3, "race": 1, "serve": 1}
STORED = ("OUT", "OUT.debug_str", "kept_ab01.gdb-index")


def with_workers(words, number):
    before = BEFORE_WORKERS.get(words[0])
    if before is None:
        return words
    before += 2 if "--rules" in words else 0
    return words[:before] + ["--workers", str(number)] + words[before:]


def run(program, shim, words, given, folder, number):
    """Status, output, stored bytes, and whether it came to that, of a run whose allocation of this number is refused."""
    for name in STORED:
        if os.path.exists(os.path.join(folder, name)):
            os.unlink(os.path.join(folder, name))
    at, to = os.pipe()
    surroundings = {"LD_PRELOAD": shim, "FAIL_ALLOCATION": str(number), "TELL_REFUSED": str(to)}
    done = subprocess.run([program, *words], cwd=folder, input=given, capture_output=True, timeout=60, env=surroundings, pass_fds=[to])
    os.close(to)
    with os.fdopen(at, "rb") as told:
        has_come = bool(told.read())
    stored = {}
    for name in STORED:
        if os.path.exists(os.path.join(folder, name)):
            with open(os.path.join(folder, name), "rb") as file:
                stored[name] = file.read()
    return done.returncode, done.stdout, stored, has_come


def is_part(text, plenty):
    """Whether a text is made of lines of the text that comes with plenty of memory, and of looks at other stages."""
    whole = set(plenty.split(b"\n")) | {b"%d pending" % stage for stage in range(3)} | {b"5 stopped"}
    lines = text.split(b"\n")
    return all(line in whole for line in lines[:-1]) and any(line.startswith(lines[-1]) for line in whole)


def wrong_in(words, got, plenty):
    """What is wrong in a run, or None."""
    status, text, stored, _ = got
    if (status, text, stored) == plenty[:3]:
        return None
    if status == 7 and not stored and (text == b"no memory\n" or (words[0] in ("serve", "race") and is_part(text, plenty[1]))):
        return None
    if words[0] == "cached" and status == 0:
        behind = plenty[1].split(b"\n", 1)[1]
        return None if text in (b"stored\n" + behind, b"unsaved\n" + behind) else "wrote %r" % text[:80]
    # of two files that are stored the first stays where the second can't be
    is_front = list(stored.items()) == list(plenty[2].items())[:len(stored)] and len(stored) < len(plenty[2])
    if (status == 4 and text == b"store fault\n" and is_front) or (status == 3 and text == b"read fault\n" and not stored):
        return None
    if status == 5 and plenty[1].startswith(text) and not stored:
        return None
    return "ended with status %d, wrote %r and stored %s" % (status, text[:80], sorted(stored))


def each_refused(program, shim, words, given, folder):
    """How many runs were as they should be, and what was wrong in the others."""
    plenty = run(program, shim, words, given, folder, 0)
    passed, wrongs, sevens = 0, [], 0
    # with several workers the number of allocations isn't the same in each run
    number, misses = 0, 0
    while misses < 3:
        number += 1
        got = run(program, shim, words, given, folder, number)
        misses = 0 if got[3] else misses + 1
        wrong = wrong_in(words, got, plenty)
        passed += wrong is None
        sevens += got[0] == 7
        if wrong:
            wrongs.append("allocation %d: %s" % (number, wrong))
    if not sevens:
        wrongs.append("never ended with status 7")
    return passed, wrongs


def main():
    program = os.path.abspath(sys.argv[1])
    passed, failed = 0, 0
    with tempfile.TemporaryDirectory() as folder:
        shim = os.path.join(folder, "failing_memory.so")
        subprocess.run(["gcc", "-O1", "-shared", "-fPIC", "-o", shim, os.path.join(HERE, "programs", "failing_memory.c")], check=True)
        for name, row, file in FILES:
            with open(os.path.join(ROWS, row, file), "rb") as one, open(os.path.join(folder, name), "wb") as copy:
                copy.write(one.read())
        with open(os.path.join(folder, "SCRIPT"), "wb") as script:
            script.write(b"x\nname\n")
        for words, given in COMMANDS:
            for workers in (1, 3) if words[0] in BEFORE_WORKERS else (1,):
                line = with_workers(words, workers)
                well, wrongs = each_refused(program, shim, line, given, folder)
                passed += well
                failed += len(wrongs)
                for wrong in wrongs:
                    print("refused memory: %s: %s" % (" ".join(line), wrong))
    print("refused memory: %d passed, %d failed" % (passed, failed))
    return 1 if failed or not passed else 0


if __name__ == "__main__":
    sys.exit(main())
