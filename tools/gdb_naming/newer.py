#!/usr/bin/env python3
"""python3 tools/gdb_naming/newer.py GDB-13 GDB-16 [FILE ..]

Writes tools/gdb_naming/newer_names.txt: of the names in the programs of tools/gdb_naming, compiled by each compiler that is there, and in
the FILEs, those that GDB-16 spells otherwise than GDB-13, each with a tab and its spelling by GDB-16."""
import os
import sys
import tempfile

TOOLS = os.path.dirname(os.path.dirname(os.path.abspath(__file__)))
sys.path.insert(0, TOOLS)

from gdb_naming import programs, spelling      # noqa: E402
from reading.faults import Fault               # noqa: E402
from reading.program import built              # noqa: E402


def main():
    older, newer = (spelling.Speller(gdb) for gdb in sys.argv[1:3])
    with tempfile.TemporaryDirectory() as folder:
        for _, path in [*programs.made(folder, ""), *((path, path) for path in sys.argv[3:])]:
            with open(path, "rb") as file:
                data = file.read()
            try:
                program = built(data)
            except Fault:
                continue
            older.learn(program)
            newer.learn(program)
    changed = sorted((name, spelled) for name, spelled in newer.known.items() if older.known[name] != spelled)
    with open(spelling.NEWER, "wb") as file:
        file.write(b"".join(b"%s\t%s\n" % pair for pair in changed))
    print("%d of %d names" % (len(changed), len(newer.known)))


if __name__ == "__main__":
    main()
