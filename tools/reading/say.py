#!/usr/bin/env python3
"""python3 tools/reading/say.py WORD ..

Writes what `gdbix WORD ..` has to write, stores what it has to store, and ends with its status."""
import os
import sys

sys.path.insert(0, os.path.dirname(os.path.dirname(os.path.abspath(__file__))))

from reading.commands import Unread, run   # noqa: E402
from reading.shelves import FileShelf      # noqa: E402


def main():
    words = sys.argv[1:]
    try:
        [os.fsencode(word).decode() for word in words]
    except UnicodeDecodeError:
        words = []
    try:
        status, text = run(words, FileShelf())
    except Unread as unread:
        sys.exit("say: %s isn't read" % unread)
    sys.stdout.buffer.write(text)
    sys.stdout.buffer.flush()
    return status


if __name__ == "__main__":
    sys.exit(main())
