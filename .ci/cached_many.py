#!/usr/bin/env python3
"""python3 cached_many.py PROGRAM [ROUNDS]

Runs `PROGRAM cached` in 16 processes at once over one folder of kept indexes, 200 rounds by default, over three programs with build-ids
of their own that a compiler makes. In each round some processes are killed while they run, and sometimes what is kept is cut or changed
between rounds. Each run that ends by itself has status 0 and the right answer behind `hit`, `stored`, `unsaved` or a `stale` line and one
of the last two; `unsaved` never comes, since each store can be done. After each round each name holds what it held, or the whole of the
index of its program; what was cut or changed is stale to the next run and is whole behind it. Nothing else is left but new files of
processes that were killed, which are named so.
The right answers are those of `PROGRAM look gdb` over the index that `PROGRAM index --as gdb9` makes of the program.
The last line is 'cached at once: N passed, M failed'."""
import os
import random
import re
import subprocess
import sys
import tempfile
import time

PROCESSES = 16
KILLED = 4
SOURCE = "int %s(int x) { return x + %d; }\nint main(void) { return %s(%d); }\n"
FIRST_LINES = re.compile(rb"(hit|(?:stale \d+ [0-9a-f]+\n)?stored)\n")


def made(folder, program, number):
    """A program with a build-id: its name, the name of its kept index, that index's bytes behind the id, and the answer to a query."""
    name = "p%d" % number
    source = os.path.join(folder, name + ".c")
    with open(source, "w") as file:
        file.write(SOURCE % ("f%d" % number, number, "f%d" % number, number))
    subprocess.run(["gcc", "-g", "-Wl,--build-id=sha1", "-o", name, source], cwd=folder, check=True)
    notes = subprocess.run(["readelf", "-n", name], cwd=folder, capture_output=True, text=True, check=True).stdout
    build_id = re.search(r"Build ID: ([0-9a-f]+)", notes)[1]
    subprocess.run([program, "index", "--as", "gdb9", name, name + ".index"], cwd=folder, check=True)
    query = ["name", "f%d" % number]
    answer = subprocess.run([program, "look", "gdb", name + ".index", *query], cwd=folder, capture_output=True, check=True).stdout
    with open(os.path.join(folder, name + ".index"), "rb") as file:
        index = file.read()
    raw = bytes.fromhex(build_id)
    kept = b"GDBIXC1\0" + len(raw).to_bytes(4, "little") + raw + index
    return name, os.path.join("kept", build_id + ".gdb-index"), kept, query, answer


def start(folder, program, one):
    name, _, _, query, _ = one
    words = [program, "cached", name, "kept/", *query]
    return subprocess.Popen(words, cwd=folder, stdout=subprocess.PIPE, stderr=subprocess.DEVNULL), one


def wrong_in(run, one):
    """What is wrong in a run that ended by itself, or None."""
    text = run.stdout.read()
    first = FIRST_LINES.match(text)
    if run.returncode != 0 or not first or text[first.end():] != one[4]:
        return "%s ended with status %d and wrote %r" % (one[0], run.returncode, text[:120])
    return None


def damage(folder, one, chance):
    """Cuts what is kept, or changes its id, or leaves it."""
    path = os.path.join(folder, one[1])
    what = chance.randrange(4)
    if what == 0:
        with open(path, "r+b") as file:
            file.truncate(chance.randrange(len(one[2])))
    elif what == 1:
        with open(path, "r+b") as file:
            file.seek(12)
            file.write(bytes([one[2][12] ^ 1]))
    return what < 2


def holds(folder, one):
    try:
        with open(os.path.join(folder, one[1]), "rb") as file:
            return file.read()
    except FileNotFoundError:
        return None


def a_round(folder, program, programs, chance):
    """One round. What is wrong in it."""
    wrongs = []
    before = {one[1]: holds(folder, one) for one in programs}
    runs = [start(folder, program, chance.choice(programs)) for _ in range(PROCESSES)]
    victims = chance.sample(runs, KILLED)
    for run, _ in victims:
        time.sleep(chance.random() * 0.002)
        run.kill()
    for run, one in runs:
        run.wait(timeout=120)
        if run.returncode != -9:
            wrong = wrong_in(run, one)
            wrongs += [wrong] if wrong else []
        run.stdout.close()
    for one in programs:
        ended = any(other is one and run.returncode == 0 for run, other in runs)
        now = holds(folder, one)
        if now != one[2] and (ended or now != before[one[1]]):
            wrongs.append("%s holds neither what it held nor the whole index" % one[1])
    return wrongs


def strangers(folder, programs):
    """What else is left where indexes are kept."""
    own = {os.path.basename(one[1]) for one in programs}
    left = set(os.listdir(os.path.join(folder, "kept"))) - own
    return [name for name in left if not re.fullmatch(r"[0-9a-f]+\.gdb-index\.\d+\.new", name)]


def main():
    program = os.path.abspath(sys.argv[1])
    rounds = int(sys.argv[2]) if len(sys.argv) > 2 else 200
    chance, passed, failed = random.Random(1), 0, 0
    with tempfile.TemporaryDirectory() as folder:
        os.mkdir(os.path.join(folder, "kept"))
        programs = [made(folder, program, number) for number in range(3)]
        for number in range(rounds):
            wrongs = a_round(folder, program, programs, chance) + strangers(folder, programs)
            for wrong in wrongs:
                print("cached at once: round %d: %s" % (number, wrong))
            passed += not wrongs
            failed += bool(wrongs)
            for one in programs:
                if holds(folder, one) is not None:
                    damage(folder, one, chance)
            for name in os.listdir(os.path.join(folder, "kept")):
                if name.endswith(".new"):
                    os.unlink(os.path.join(folder, "kept", name))
    print("cached at once: %d passed, %d failed" % (passed, failed))
    return 1 if failed or not passed else 0


if __name__ == "__main__":
    sys.exit(main())
