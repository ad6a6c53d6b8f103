#!/usr/bin/env python3
"""python3 rows.py PROGRAM

Runs PROGRAM over the rows in rows/, each in a folder with copies of the row's files, with the row's `stdin` as
its input, and compares what it writes, its status and the files that it stores with what the row says. The folders that a row names
in `dirs` are made first. A row that could name a number of workers and doesn't is run again with 1, 2, 8 and 64: none of them may change a byte. The last line is
'rows: N passed, M failed'."""
import os
import shutil
import subprocess
import sys
import tempfile

HERE = os.path.dirname(os.path.abspath(__file__))
FOLDERS = tuple(os.path.join(os.path.dirname(HERE), "rows", kind) for kind in ("vectors", "program"))
# What lies in a row's folder beside the files that the program reads.
TOLD = {"args", "stdin", "stdout", "status", "expect", "dirs"}
# How many words stand before the option of the number of workers.
BEFORE_WORKERS = {"add": 3, "aranges": 1, "ask": 1, "cached": 1, "files": 1, "index": 3, "race": 1, "serve": 1}
WORKERS = (1, 2, 8, 64)


def read(path, otherwise=b""):
    if not os.path.exists(path):
        return otherwise
    with open(path, "rb") as file:
        return file.read()


def files_in(folder):
    """The files in a folder and in those inside it, by their names from there."""
    paths = (os.path.join(base, name) for base, _, names in os.walk(folder) for name in names)
    return {os.path.relpath(path, folder): read(path) for path in paths}


def words_of(row):
    return read(os.path.join(row, "args")).decode().split("\n")[:-1]


def runs_of(words):
    """The words as they stand, and with each number of workers, where they can name one and don't."""
    yield words
    if words[:1] and words[0] in BEFORE_WORKERS and "--workers" not in words:
        before = BEFORE_WORKERS[words[0]] + (2 if "--rules" in words else 0)
        for number in WORKERS:
            yield words[:before] + ["--workers", str(number)] + words[before:]


def differs(program, row, words):
    """What differs from the row, or None."""
    inputs = {name: text for name, text in files_in_row(row) if name not in TOLD}
    with tempfile.TemporaryDirectory() as folder:
        for name in inputs:
            shutil.copy(os.path.join(row, name), folder)
        for name in read(os.path.join(row, "dirs")).decode().split():
            os.mkdir(os.path.join(folder, name))
        done = subprocess.run([program, *words], cwd=folder, input=read(os.path.join(row, "stdin")), capture_output=True, timeout=120)
        left = files_in(folder)
    wanted = read(os.path.join(row, "stdout")), int(read(os.path.join(row, "status"), b"0") or 0)
    got = done.stdout, done.returncode
    if got != wanted:
        return "wrote %r with status %d, not %r with %d" % (got + wanted)
    if left != {**inputs, **files_in(os.path.join(row, "expect"))}:
        return "stored %s, and not what the row has" % sorted(set(left) - set(inputs))
    return None


def files_in_row(row):
    for name in os.listdir(row):
        if os.path.isfile(os.path.join(row, name)):
            yield name, read(os.path.join(row, name))


def main():
    program = os.path.abspath(sys.argv[1])
    passed, failed = 0, 0
    for row in sorted(os.path.join(folder, name) for folder in FOLDERS for name in os.listdir(folder)):
        words = words_of(row)
        for run in runs_of(words):
            wrong = differs(program, row, run)
            if wrong is None:
                passed += 1
            else:
                failed += 1
                print("rows: %s as %s %s" % (os.path.basename(row), " ".join(run), wrong))
    print("rows: %d passed, %d failed" % (passed, failed))
    return 1 if failed or not passed else 0


if __name__ == "__main__":
    sys.exit(main())
