#!/usr/bin/env python3
"""more_edits.py [CRATE ..]     tries the wrong bodies of more-edits/, of these crates or of all

The gate tries those of must-fail/, which tell most. Here a copy is made in which those of more-edits/ stand in must-fail/ too, and the gate is
run over it: the prover must refuse each. What an earlier gate of the same files came to on this machine isn't done again. A refusal that
says only that a proof file names what the edit took away shows little, and is counted apart. The last line is 'more edits: N refused, K
of them by names alone, M not'; the status is 0 if none is 'not' and the gate passed."""
import argparse
import os
import re
import shutil
import subprocess
import sys
import tempfile
import time

TOP = os.path.dirname(os.path.dirname(os.path.abspath(__file__)))
TOLD = re.compile(r"must-fail (\w+/[\w.-]+): (.*)")
REFUSED = "refused, as it must be"
BY_NAMES = "only because a proof file names"


def copied(room, names):
    """Copies what the gate reads to `room`, and gives the names of the edits that were moved."""
    for file in ("HANDLES", "crates.txt"):
        shutil.copy(os.path.join(TOP, file), room)
    crates = os.path.join(room, "crates")
    shutil.copytree(os.path.join(TOP, "crates"), crates, ignore=shutil.ignore_patterns("out"))
    moved = set()
    for name in names or sorted(os.listdir(crates)):
        more = os.path.join(crates, name, "more-edits")
        for edit in sorted(os.listdir(more)) if os.path.isdir(more) else []:
            if edit.endswith(".edit"):
                os.makedirs(os.path.join(crates, name, "must-fail"), exist_ok=True)
                os.rename(os.path.join(more, edit), os.path.join(crates, name, "must-fail", edit))
                moved.add(f"{name}/{edit}")
    return moved


def main():
    parser = argparse.ArgumentParser(description=__doc__, formatter_class=argparse.RawDescriptionHelpFormatter)
    parser.add_argument("crates", nargs="*")
    words = parser.parse_args()
    began, told = time.monotonic(), {}
    with tempfile.TemporaryDirectory(prefix="more-edits-") as room:
        moved = copied(room, words.crates)
        gate = subprocess.Popen(["rt", "ci", *words.crates], cwd=room, stdout=subprocess.PIPE, stderr=subprocess.STDOUT, text=True)
        for line in gate.stdout:
            print(line, end="", flush=True)
            found = TOLD.search(line)
            if found and found[1] in moved:
                told[found[1]] = found[2]
        status = gate.wait()
    refused = [text for text in told.values() if text.startswith(REFUSED)]
    by_names = sum(BY_NAMES in text for text in refused)
    for edit in sorted(moved - told.keys()):
        print(f"{edit}: nothing was said of it")
    minutes, seconds = divmod(int(time.monotonic() - began), 60)
    print(f"{minutes} minutes {seconds} seconds")
    print(f"more edits: {len(refused)} refused, {by_names} of them by names alone, {len(moved) - len(refused)} not")
    return 1 if status or len(refused) < len(moved) else 0


if __name__ == "__main__":
    sys.exit(main())
