#!/usr/bin/env python3
"""python3 tools/reading/check_rows.py [FOLDER ..]

Reads the rows in rows/, or those of the folders, and compares what the reading says with what they say: what is
written, the status and what is stored. Rows of `serve`, `race` and `drill` are left out, but for those whose words aren't in the
grammar. The last line is 'rows read: N passed, M failed'."""
import os
import sys

TOOLS = os.path.dirname(os.path.dirname(os.path.abspath(__file__)))
sys.path.insert(0, TOOLS)

from reading.commands import Unread, run      # noqa: E402
from reading.shelves import MemoryShelf       # noqa: E402

FOLDERS = tuple(os.path.join(os.path.dirname(TOOLS), "rows", kind) for kind in ("vectors", "program"))
TOLD = {"args", "stdin", "stdout", "status", "expect", "dirs", "sink", "stdin_fails", "about"}


def read(path, otherwise=b""):
    if not os.path.exists(path):
        return otherwise
    with open(path, "rb") as file:
        return file.read()


def files_below(folder):
    """The files in a folder and in those inside it, by their names from there."""
    paths = (os.path.join(base, name) for base, _, names in os.walk(folder) for name in names)
    return {os.path.relpath(path, folder): read(path) for path in paths}


def words_of(row):
    return read(os.path.join(row, "args")).decode().split("\n")[:-1]


def inputs_of(row):
    names = [name for name in os.listdir(row) if name not in TOLD and os.path.isfile(os.path.join(row, name))]
    return {name: read(os.path.join(row, name)) for name in names}


def difference(row):
    """What differs from the row, or None."""
    inputs = inputs_of(row)
    shelf = MemoryShelf(inputs, read(os.path.join(row, "dirs")).decode().split())
    status, text = run(words_of(row), shelf)
    wanted = int(read(os.path.join(row, "status"), b"0") or 0), read(os.path.join(row, "stdout"))
    if (status, text) != wanted:
        return "%d %r, not %d %r" % ((status, text) + wanted)
    if shelf.files != {**inputs, **files_below(os.path.join(row, "expect"))}:
        return "other stored files: %s" % sorted(shelf.files)
    return None


def main():
    passed = failed = left_out = 0
    folders = sys.argv[1:] or FOLDERS
    rows = [os.path.join(folder, name) for folder in folders for name in sorted(os.listdir(folder))]
    for row in rows:
        if not os.path.exists(os.path.join(row, "args")) or os.path.exists(os.path.join(row, "sink")):
            continue
        try:
            wrong = difference(row)
        except Unread:
            left_out += 1
            continue
        passed, failed = passed + (wrong is None), failed + (wrong is not None)
        if wrong is not None:
            print("%s: %s" % (os.path.basename(row), wrong))
    print("%d rows of serve, race and drill left out" % left_out)
    print("rows read: %d passed, %d failed" % (passed, failed))
    return 1 if failed or not passed else 0


if __name__ == "__main__":
    sys.exit(main())
