#!/usr/bin/env python3
"""python3 little_memory.py PROGRAM

Runs PROGRAM with less and less memory (the limit of its address space) over programs of the rows and a made one. Each run says
what it says with plenty of memory, or ends with status 7: then `add`, `ask`, `index`, `look` and `drill` write `no memory` alone and store
nothing, and `serve` and `race` write that or a prefix of a text. No run ends otherwise, and with each command 7 has to come.
The last line is 'little memory: N passed, M failed'."""
import os
import resource
import subprocess
import sys
import tempfile

HERE = os.path.dirname(os.path.abspath(__file__))
PROGRAM_FILE = os.path.join(os.path.dirname(HERE), "crates", "index_tool", "data", "A")
MIB = 1 << 20
# What stands behind the program and the index, which is read and means nothing: so that a run needs more memory than to begin at all.
PADDING = bytes(2 * MIB)
# Commands, with what stands in their input. FILE, INDEX and SCRIPT are names of files, OUT that of one that is stored. The script
# has no query, since the stages that look-ups see during a build differ from run to run.
COMMANDS = [
    (["ask", "--workers", "1", "FILE", "name", "main"], b""),
    (["ask", "--workers", "4", "FILE", "main"], b""),
    (["index", "--as", "gdb8", "--workers", "2", "FILE", "OUT"], b""),
    (["index", "--as", "names", "--workers", "1", "FILE", "OUT"], b""),
    (["index", "--as", "gdb8", "--rules", "gdb", "--workers", "2", "FILE", "OUT"], b""),
    (["add", "--as", "gdb8", "--workers", "2", "FILE", "OUT"], b""),
    (["add", "--as", "names", "--workers", "1", "FILE", "OUT"], b""),
    (["aranges", "--workers", "2", "FILE"], b""),
    (["files", "--workers", "2", "FILE", "a.c"], b""),
    (["cached", "--workers", "2", "FILE", "OUT", "name", "main"], b""),
    (["look", "gdb", "INDEX", "name", "main"], b""),
    (["serve", "--workers", "1", "--wait", "3", "FILE"], b"main\nname main\n"),
    (["race", "--workers", "1", "--readers", "2", "FILE", "SCRIPT"], b""),
    (["drill", "7", "5000", "2"], b""),
]


def run(program, words, given, folder, limit):
    """Status, output and stored bytes of a run in a folder, with so many bytes of address space."""
    out = os.path.join(folder, "OUT")
    if os.path.exists(out):
        os.unlink(out)
    before = (lambda: resource.setrlimit(resource.RLIMIT_AS, (limit, limit))) if limit else None
    done = subprocess.run([program, *words], cwd=folder, input=given, capture_output=True, timeout=120, preexec_fn=before)
    stored = open(out, "rb").read() if os.path.exists(out) else None
    return done.returncode, done.stdout, stored


def is_part(text, plenty):
    """Whether a text is made of lines of the text that comes with plenty of memory, and of looks at other stages."""
    whole = set(plenty.split(b"\n")) | {b"%d pending" % stage for stage in range(3)} | {b"5 stopped"}
    lines = text.split(b"\n")
    return all(line in whole for line in lines[:-1]) and any(line.startswith(lines[-1]) for line in whole)


def wrong_in(words, got, plenty):
    """What is wrong in a run with little memory, or None."""
    if got == plenty:
        return None
    status, text, stored = got
    if status != 7:
        return "ended with status %d and wrote %r" % (status, text[:80])
    if stored is not None:
        return "stored something with status 7"
    if text == b"no memory\n" or (words[0] in ("serve", "race") and is_part(text, plenty[1])):
        return None
    return "wrote %r with status 7" % text[:80]


def least_limit(program, folder):
    """How many MiB the program needs to begin at all."""
    for limit in range(1, 64):
        if run(program, ["--version"], b"", folder, limit * MIB)[0] == 0:
            return limit
    sys.exit("little memory: --version needs more than 63 MiB")


def main():
    program = os.path.abspath(sys.argv[1])
    passed, failed = 0, 0
    with tempfile.TemporaryDirectory() as folder:
        with open(PROGRAM_FILE, "rb") as file, open(os.path.join(folder, "FILE"), "wb") as copy:
            copy.write(file.read() + PADDING)
        with open(os.path.join(folder, "SCRIPT"), "wb") as script:
            script.write(b"x\nname\n")
        subprocess.run([program, "index", "--as", "gdb8", "FILE", "INDEX"], cwd=folder, check=True)
        with open(os.path.join(folder, "INDEX"), "ab") as index:
            index.write(PADDING)
        least = least_limit(program, folder)
        for words, given in COMMANDS:
            plenty = run(program, words, given, folder, None)
            sevens = 0
            for limit in range(least, least + 48):
                got = run(program, words, given, folder, limit * MIB)
                sevens += got[0] == 7
                wrong = wrong_in(words, got, plenty)
                passed += wrong is None
                failed += wrong is not None
                if wrong:
                    print("little memory: %s with %d MiB %s" % (" ".join(words), limit, wrong))
            if not sevens:
                failed += 1
                print("little memory: %s never ended with status 7" % " ".join(words))
    print("little memory: %d passed, %d failed" % (passed, failed))
    return 1 if failed or not passed else 0


if __name__ == "__main__":
    sys.exit(main())
