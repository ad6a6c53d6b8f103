#!/usr/bin/env python3
"""public_contracts.py [FOLDER]          prints each clause of each public function below FOLDER/crates, one a line
   public_contracts.py OLD NEW        says which of them stand in one tree alone; status 1 where there are some

A line is the function, with the type or trait that it belongs to, and the clause's text; neither the crate nor the module stands
in it, so that a function that moved is the same. Test code isn't looked at. A reader of a change sees by it whether a promise
moved, and whether one changed."""
import collections
import os
import re
import sys

WORDS = re.compile(r"\s*(ensures|requires)(\*?)\s*(\w*)\s*\{")
NAME = re.compile(r"(?m)^[ \t]*(?:pub(?:\(\w+\))? )?(?:unsafe )?fn (\w+)")


def without_comments(text):
    return re.sub(r"(?m)^\s*//.*$", "", text)


def end_of(text, at):
    """The place behind the brace that closes the one at `at`."""
    depth = 0
    for place in range(at, len(text)):
        depth += {"{": 1, "}": -1}.get(text[place], 0)
        if depth == 0:
            return place + 1
    return len(text)


def owners(text):
    """The ranges of `impl` and `trait` blocks, each with its name and whether all its functions are public."""
    for found in re.finditer(r"(?m)^(pub )?(impl|trait)\b([^{;]*)\{", text):
        head = " ".join(found.group(3).split())
        head = re.sub(r"^<[^>]*>\s*", "", head)
        of_trait = found.group(2) == "trait" or " for " in head
        yield found.start(), end_of(text, found.end() - 1), re.sub(r"'\w+|<.*?>|\s", "", head.replace(" for ", "@")), of_trait


def clauses_of(text):
    blocks = list(owners(text))
    for found in NAME.finditer(text):
        is_public = re.match(r"\s*pub (unsafe )?fn", found.group(0)) is not None
        owner = next(((name, of_trait) for start, end, name, of_trait in blocks if start < found.start() < end), ("", False))
        if not is_public and not owner[1]:
            continue
        at = text.index("(", found.end())
        name = owner[0] + "::" + found.group(1) if owner[0] else found.group(1)
        # the signature ends at the first clause, the body or the semicolon
        stop = re.compile(r"(?m)^\s*(?:ensures|requires)\b|^\s*\{|\{\s*$|;\s*$").search(text, at)
        place = stop.start() if stop else len(text)
        while True:
            clause = WORDS.match(text, place)
            if not clause:
                break
            end = end_of(text, clause.end() - 1)
            inside = " ".join(text[clause.end():end - 1].split())
            yield "%s %s%s %s: %s" % (name, clause.group(1), clause.group(2), clause.group(3), inside)
            place = end


def contracts(folder):
    found = collections.Counter()
    for base, folders, names in os.walk(os.path.join(folder, "crates")):
        folders[:] = [name for name in folders if name not in ("out", "tests")]
        for name in names:
            if name.endswith(".rt") and name != "tests.rt" and "/src" in base:
                with open(os.path.join(base, name), encoding="utf-8") as file:
                    text = without_comments(file.read())
                found.update(clauses_of(text.split("#[cfg(test)]\nmod tests {")[0]))
    return found


def main():
    if len(sys.argv) < 3:
        for clause, times in sorted(contracts(sys.argv[1] if len(sys.argv) > 1 else ".").items()):
            print(clause if times == 1 else "%s  (%d times)" % (clause, times))
        return 0
    old, new = contracts(sys.argv[1]), contracts(sys.argv[2])
    for clause in sorted((old - new).elements()):
        print("- " + clause)
    for clause in sorted((new - old).elements()):
        print("+ " + clause)
    print("%d clauses before, %d now; %d only before, %d only now" % (sum(old.values()), sum(new.values()), sum((old - new).values()), sum((new - old).values())))
    return 1 if old - new else 0


if __name__ == "__main__":
    sys.exit(main())
