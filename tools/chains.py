#!/usr/bin/env python3
"""chains.py [MOST]     prints the longest chain of crates of crates.txt; status 1 where it has more than MOST crates (10)

Each crate of a chain stands on the one before it, so the chain is what the gate must prove one after the other, with however many
processors."""
import functools
import os
import sys

TOP = os.path.dirname(os.path.dirname(os.path.abspath(__file__)))


def libraries():
    found = {}
    with open(os.path.join(TOP, "crates.txt"), encoding="utf-8") as file:
        for line in file:
            name, _, below = line.split("#")[0].partition(":")
            if name.strip():
                found[name.split()[0]] = below.split()
    return found


def main():
    below = libraries()

    @functools.lru_cache(None)
    def chain(name):
        return max((chain(it) for it in below[name] if it in below), key=len, default=()) + (name,)

    longest = max(map(chain, below), key=len)
    print("%d crates: %s" % (len(longest), " ".join(longest)))
    return 1 if len(longest) > int(sys.argv[1] if len(sys.argv) > 1 else 10) else 0


if __name__ == "__main__":
    sys.exit(main())
