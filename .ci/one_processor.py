#!/usr/bin/env python3
"""python3 one_processor.py PROGRAM

Runs `PROGRAM drill` with many workers on one processor, again and again. There a thread that is woken often runs before the one that woke
it goes on. So a lock that wakes the next before it gives up the turn, or whose waiters rest at another word than the turn's, leaves all
asleep in some run, which doesn't end. Each run has to end, with what one worker writes. The last line is
'one processor: N passed, M failed'."""
import os
import subprocess
import sys

SEED = "7"
# (units, workers, runs)
KINDS = [(100, 2, 40), (100, 16, 100), (100, 64, 40), (3000, 16, 20), (3000, 64, 10)]
SECONDS = 60
MOST_SHOWN = 5


def made(program, units, workers):
    """The status of a run and what it writes, or why there is none."""
    words = [program, "drill", SEED, str(units), str(workers)]
    try:
        done = subprocess.run(words, capture_output=True, timeout=SECONDS)
    except subprocess.TimeoutExpired:
        return "hasn't ended after %d seconds" % SECONDS
    return done.returncode, done.stdout


def told(passed, failed):
    print("one processor: %d passed, %d failed" % (passed, failed))
    return 1 if failed else 0


def main():
    program = os.path.abspath(sys.argv[1])
    os.sched_setaffinity(0, {min(os.sched_getaffinity(0))})
    passed = failed = 0
    for units, workers, runs in KINDS:
        wanted = made(program, units, 1)
        if wanted[0] != 0:
            sys.exit("one_processor: `drill %s %d 1`: %s" % (SEED, units, wanted))
        for got in (made(program, units, workers) for _ in range(runs)):
            passed += got == wanted
            failed += got != wanted
            if got != wanted:
                print("drill %s %d %d: %s" % (SEED, units, workers, got), flush=True)
            if failed == MOST_SHOWN:
                return told(passed, failed)
    return told(passed, failed)


if __name__ == "__main__":
    sys.exit(main())
