#!/usr/bin/env python3
"""gate_times.py [WORD ..]      runs `rt ci WORD ..` and prints, crate by crate, the processor time of what it did

A row has the crate's proof, the proof with its tests, the base of its wrong bodies (the crate proved once more, and once again over
that), and these; in seconds of one processor, user and system time. Each process of the checker is looked at four times a second, so
a figure can miss a quarter of a second a check. Other checks on the machine aren't counted, but they make these slower.
The output of `rt ci` goes to standard error, the table to standard output. The status is that of `rt ci`."""
import collections
import os
import re
import subprocess
import sys
import time

TICK = os.sysconf("SC_CLK_TCK")
PARTS = ("proof", "tests", "base", "edits")


def read(path):
    try:
        with open(path, "rb") as file:
            return file.read()
    except OSError:
        return b""


def stat_of(number):
    """The parent, the processor time of the process and of the children that it waited for, and when it began."""
    text = read("/proc/%s/stat" % number)
    if not text:
        return None
    fields = text[text.rindex(b")") + 2:].split()
    return int(fields[1]), sum(int(fields[at]) for at in (11, 12, 13, 14)) / TICK, int(fields[19])


def part_of(words, folder):
    """The crate and the part that a process of the checker works for, or None."""
    if len(words) < 2 or not words[0].endswith("/bin/rattle") or "--crate-name" not in words:
        return None
    crate = words[words.index("--crate-name") + 1]
    over = words[words.index("--incremental") + 1] if "--incremental" in words else ""
    if "/rt-edit-" in folder:
        return crate, "base" if over.endswith("/seed") else "edits"
    return crate, "tests" if "--test" in words else "proof"


def below(numbers, top):
    """The processes among these that `top` started, itself or by others."""
    parents = {number: stat[0] for number, stat in numbers.items()}
    for number in numbers:
        at = number
        while at in parents and at != top:
            at = parents[at]
        if at == top:
            yield number


def look(top, told, seen):
    numbers = {int(name): stat for name in os.listdir("/proc") if name.isdigit() for stat in [stat_of(name)] if stat}
    for number in below(numbers, top):
        parent, spent, begun = numbers[number]
        # a number is given to another process once its own has ended
        key, over = (number, begun), (parent, numbers[parent][2] if parent in numbers else 0)
        # a process is looked at again until it works for a part: one that was just made still has the words of its maker
        if not told.get(key):
            words = read("/proc/%d/cmdline" % number).decode(errors="replace").split("\0")
            try:
                folder = os.readlink("/proc/%d/cwd" % number)
            except OSError:
                folder = ""
            # a process that the checker starts works for the part of the one that started it
            told[key] = part_of(words, folder) or told.get(over)
        # the time of a child that was waited for is its parent's too: the parent's last reading has both
        seen[key] = over, spent


def main():
    began = time.time()
    run = subprocess.Popen(["rt", "ci", *sys.argv[1:]], stdout=sys.stderr)
    told, seen = {}, {}
    while run.poll() is None:
        look(run.pid, told, seen)
        time.sleep(0.25)
    spent = collections.defaultdict(lambda: collections.Counter())
    for key, (over, seconds) in seen.items():
        if told.get(key) and not told.get(over):
            crate, part = told[key]
            spent[crate][part] += seconds
    row = "%-20s" + "%9s" * (len(PARTS) + 1)
    print(row % ("crate", *PARTS, "sum"))
    for crate, parts in sorted(spent.items(), key=lambda it: -sum(it[1].values())):
        print(row % (crate, *("%.0f" % parts[it] for it in PARTS), "%.0f" % sum(parts.values())))
    sums = [sum(parts[it] for parts in spent.values()) for it in PARTS]
    print(row % ("all", *("%.0f" % it for it in sums), "%.0f" % sum(sums)))
    print("%.0f processor minutes in checks, %.0f minutes on the clock, %d processors" % (sum(sums) / 60, (time.time() - began) / 60, os.cpu_count()))
    return run.returncode


if __name__ == "__main__":
    sys.exit(main())
