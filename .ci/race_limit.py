#!/usr/bin/env python3
"""python3 race_limit.py PROGRAM

Runs `PROGRAM race` with 16 readers over a small file, in which many entries have one name, and scripts that ask for it again and again.
With as many lines as the share of a session holds the run ends with 0; with one line more it ends with 7, and nothing is written. Neither
takes much more memory than the transcripts may have. The last line is 'race limit: N passed, M failed'."""
import os
import subprocess
import sys
import tempfile
import time

TOP = os.path.dirname(os.path.dirname(os.path.abspath(__file__)))
sys.path.insert(0, os.path.join(TOP, "tools"))
from costly import programs  # noqa: E402

READERS, ENTRIES = 16, 600
QUERY = b"name x\n"
# What all sessions may write together (gdbix(1), "Limits"), and what one of them may.
LIMIT = 1 << 30
SHARE = LIMIT // (2 * READERS)
# The most memory of a run: a text that grows is copied, which takes half as much again at most.
MOST = LIMIT * 3 // 2 + (64 << 20)


class Run:
    """Status, bytes of output, greatest memory and seconds of a race over a script of so many lines."""

    def __init__(self, program, folder, lines):
        script = os.path.join(folder, "script")
        with open(script, "wb") as file:
            file.write(QUERY * lines)
        began = time.monotonic()
        words = [program, "race", "--workers", "1", "--readers", str(READERS), os.path.join(folder, "FILE"), script]
        with subprocess.Popen(words, stdout=subprocess.PIPE, stderr=subprocess.DEVNULL) as child:
            self.written = sum(len(piece) for piece in iter(lambda: child.stdout.read(1 << 20), b""))
            _, status, usage = os.wait4(child.pid, 0)
            child.returncode = self.status = os.waitstatus_to_exitcode(status)
        self.memory, self.seconds = usage.ru_maxrss << 10, time.monotonic() - began

    def __str__(self):
        return "status %d, %d bytes, %d MiB, %.1f s" % (self.status, self.written, self.memory >> 20, self.seconds)


def lines_of_share(program, folder):
    """How many lines a session may answer, each of which has a digit and a space before its reply; the longest head is `during 15`."""
    reply = subprocess.run([program, "ask", os.path.join(folder, "FILE"), "name", "x"], capture_output=True, check=True).stdout
    return (SHARE - len(b"during 15\n")) // (2 + len(reply))


def is_whole(run):
    """Whether both rounds were written; during the build some replies may be shorter, as `pending`."""
    return run.status == 0 and LIMIT // 2 - (1 << 20) < run.written <= LIMIT


def is_refused(run):
    return run.status == 7 and run.written == 0


def main():
    program, passed, failed = os.path.abspath(sys.argv[1]), 0, 0
    with tempfile.TemporaryDirectory() as folder:
        with open(os.path.join(folder, "FILE"), "wb") as file:
            file.write(programs.one_name(ENTRIES))
        most = lines_of_share(program, folder)
        for lines, ends_well in (most, is_whole), (most + 1, is_refused):
            run = Run(program, folder, lines)
            is_right = ends_well(run) and run.memory <= MOST
            passed, failed = passed + is_right, failed + (not is_right)
            print("race limit: %d lines: %s%s" % (lines, run, "" if is_right else ": WRONG"), flush=True)
    print("race limit: %d passed, %d failed" % (passed, failed))
    return 1 if failed else 0


if __name__ == "__main__":
    sys.exit(main())
