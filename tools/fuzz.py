#!/usr/bin/env python3
"""python3 tools/fuzz.py PROGRAM [--count N] [--seed S] [--jobs J] [--against-reading K] [--kept FOLDER] [--seconds T]

Changes programs and indexes of many makers, and asks PROGRAM of each. No run ends by a signal, by want of memory or not at all, each
status and each line is one of those that its command has, and the first K answers are those of the reading in tools/reading. What a
run does depends on the seed, its number and the tools that are installed. Files that show something wrong are kept in FOLDER with
the words that were asked. The last line is 'fuzz: N passed, M failed'."""
import argparse
import multiprocessing
import os
import random
import sys
import tempfile
import time

from fuzzing.changes import MOVING, STAYING, change, changed
from fuzzing.grammar import wrong_with
from fuzzing.seeds import all_seeds, program_seed
from reading import kept
from reading.faults import Fault
from reading.program import open_program
from spawned import Spawner, compiled, limit_memory, meant, offers_cached, write

MEMORY = 1 << 30
BATCH = 100
KINDS = ("gdb8", "gdb9", "names")
STORE = "c_"
COMMANDS = ["ask", "ask", "ask", "index", "add", "aranges", "files"]
ASKED = ("name", "name", "simple", "addr", "main", "cache")


def query_of(random, seed, sorts):
    sort = random.choice(sorts)
    if sort in ("name", "simple"):
        return [sort, random.choice(seed.names).decode()]
    if sort == "addr":
        return [sort, "%x" % (random.choice(seed.addresses) + random.choice((-1, 0, 0, 1)) & 0xFFFFFFFFFFFFFFFF)]
    return [sort]


def quoting(random):
    return ["--quote"] if random.random() < 0.3 else []


def words_for(random, seed):
    """What is asked of a changed file, which is called X; what lies beside it is called S."""
    workers = ["--workers", random.choice("1112")]
    if seed.sort == "gdb":
        return ["look", "gdb"] + quoting(random) + ["X"] + query_of(random, seed, ("name", "name", "addr", "main"))
    if seed.sort == "names":
        base = ["--base", str(seed.base)] if seed.base else []
        return ["look", "names"] + base + quoting(random) + ["X", "S"] + query_of(random, seed, ("name",))
    command = random.choice(COMMANDS)
    if command == "ask":
        return ["ask"] + workers + quoting(random) + ["X"] + query_of(random, seed, ASKED)
    if command in ("index", "add"):
        return [command, "--as", random.choice(KINDS)] + workers + ["X", "OUT"]
    if command == "cached":
        return ["cached"] + workers + quoting(random) + ["X", STORE] + query_of(random, seed, ("name", "name", "addr", "main"))
    return [command] + workers + ["X"] + ([random.choice(seed.names).decode()] if command == "files" else [])


def kept_file(random, seed, file):
    """A changed index that is kept for the file, by its name; nothing where the file has no build-id."""
    try:
        build_id = kept.build_id_of(open_program(file).sections)
    except Fault:
        return {}
    if build_id is None or not seed.kept or random.random() < 0.3:
        return {}
    whole = kept.kept_bytes(build_id, seed.kept)
    if random.random() < 0.8:
        whole = change(random, whole, [(0, len(whole))], STAYING + MOVING)
    return {kept.cache_name(STORE, build_id): whole}


def made_run(seed, rng):
    """The words and the files of one run."""
    file = changed(rng, seed)
    if seed.is_invented:
        # what is asked has to be there now and then
        seed = program_seed(seed.about, file, whole=True)
    files, words = {"X": file}, words_for(rng, seed)
    if seed.sort == "names":
        files["S"] = changed_strings(rng, seed.beside)
    if words[0] == "cached":
        files.update(kept_file(rng, seed, files["X"]))
    return words, files


def what_is_wrong(words, files, got, is_read):
    """What is wrong with what came of a run, or None."""
    wrong = wrong_with(words, *got[:2])
    if wrong is None and is_read:
        wanted = meant(words, files)
        if wanted != got:
            wrong = "the reading has %s %r" % (wanted[0], wanted[1][:200])
    return wrong and "%s; the program has %s %r" % (wrong, got[0], got[1][:200])


def changed_strings(random, strings):
    """The strings of a `.debug_names`, seldom changed."""
    return change(random, strings, [(0, len(strings))], STAYING + MOVING) if random.random() < 0.2 else strings


def keep(folder, number, words, files):
    place = os.path.join(folder, str(number))
    os.makedirs(place, exist_ok=True)
    for name, data in files.items():
        write(os.path.join(place, name), data)
    write(os.path.join(place, "args"), "".join(word + "\n" for word in words).encode())


SEEDS = []      # what the processes share, filled before they begin: of each sort its files, each sort as likely as the others


def try_batch(work):
    """(how many passed, the lines that say what was wrong) of the runs of some numbers."""
    settings, first, behind = work
    if time.monotonic() > settings.end:
        return 0, []
    limit_memory(MEMORY)
    passed, lines = 0, []
    with tempfile.TemporaryDirectory(dir="/dev/shm") as folder:
        os.chdir(folder)
        spawner = Spawner(settings.made, settings.program)
        abouts, runs = [], []
        for number in range(first, behind):
            rng = random.Random("%d %d" % (settings.seed, number))
            seed = rng.choice(rng.choice(SEEDS))
            abouts.append(seed.about)
            runs.append(made_run(seed, rng))
        for number, about, (words, files), got in zip(range(first, behind), abouts, runs, spawner.answers(runs)):
            wrong = what_is_wrong(words, files, got, number < settings.against_reading)
            passed += wrong is None
            if wrong is not None:
                keep(settings.kept, number, words, files)
                lines.append("fuzz: %d of %s, %s: %s" % (number, about, " ".join(words), wrong))
        spawner.end()
        os.chdir("/")
    return passed, lines


def settings_of():
    parser = argparse.ArgumentParser()
    parser.add_argument("program", type=os.path.abspath)
    parser.add_argument("--count", type=int, default=10_000)
    parser.add_argument("--seed", type=int, default=1)
    parser.add_argument("--jobs", type=int, default=1)
    parser.add_argument("--against-reading", type=int, default=1_000)
    parser.add_argument("--kept", type=os.path.abspath, default="/tmp/fuzz-kept")
    parser.add_argument("--seconds", type=float, default=float("inf"), help="no batch begins behind so many")
    return parser.parse_args()


def batches(settings):
    """The numbers of the runs in parts."""
    for first in range(0, settings.count, BATCH):
        yield settings, first, min(first + BATCH, settings.count)


def main():
    settings = settings_of()
    SEEDS.extend(group for group in all_seeds(settings.program) if group)
    if offers_cached(settings.program):
        COMMANDS.append("cached")
    print("%d files to begin with" % sum(map(len, SEEDS)), flush=True)
    passed = failed = 0
    began = time.monotonic()
    settings.end = began + settings.seconds
    with tempfile.TemporaryDirectory() as folder, multiprocessing.Pool(settings.jobs) as pool:
        settings.made = compiled(folder)
        for right, lines in pool.imap(try_batch, batches(settings)):
            passed, failed = passed + right, failed + len(lines)
            for line in lines:
                print(line, flush=True)
    print("%.0f runs a second" % ((passed + failed) / (time.monotonic() - began)))
    print("fuzz: %d passed, %d failed" % (passed, failed))
    return 1 if failed or not passed else 0


if __name__ == "__main__":
    sys.exit(main())
