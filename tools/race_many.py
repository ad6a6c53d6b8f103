#!/usr/bin/env python3
"""python3 race_many.py PROGRAM FILE [RUNS]

Runs `PROGRAM race --workers 8 --readers 4 FILE SCRIPT` many times, 1,000 by default, where FILE is a program without a fault, and
checks what each run writes. The script asks for main, for names that FILE has and hasn't, for addresses and for the length of the
index, again and again. The answers of a finished build come from `PROGRAM ask`. In each session
- the digits of the stages never fall, and those of the second sessions are 3;
- a look-up below the stage that it needs is pending, and each other answer is that of the finished build.
A run that hasn't ended after two minutes counts as hung. The last lines say how many look-ups were answered at each stage, and
'races: N passed, M failed'."""
import collections
import os
import subprocess
import sys
import tempfile

WORKERS, READERS = 8, 4
# The stage from which each kind of query is answered.
NEED = {"main": 1, "addr": 1, "name": 2, "simple": 2, "cache": 3}


def queries_of(program, file):
    """Queries of each kind, of which some find something where FILE has a function `main`."""
    kinds = ["main", "name main", "simple main", "name of_no_entry", "addr 0", "addr 1139", "cache"]
    answers = {}
    for query in kinds:
        done = subprocess.run([program, "ask", file, query], capture_output=True, timeout=120)
        if done.returncode != 0:
            sys.exit("race_many: `ask %s` ended with %d" % (query, done.returncode))
        answers[query] = done.stdout
    return answers


def wrong_in(text, script, answers, second, seen):
    """What is wrong in the text of a session, or None, and the text behind it."""
    last = 0
    for query in script:
        if not text[:1].isdigit() or text[1:2] != b" ":
            return "no stage before the reply to `%s`" % query, text
        stage, text = int(text[:1]), text[2:]
        if stage < last or stage > 3 or (second and stage != 3):
            return "stage %d after %d" % (stage, last), text
        last = stage
        wanted = answers[query] if NEED[query.split()[0]] <= stage else b"pending\n"
        if not text.startswith(wanted):
            return "another reply to `%s` at stage %d" % (query, stage), text
        text = text[len(wanted):]
        if not second:
            seen[stage] += 1
    return None, text


def wrong_with(text, script, answers, seen):
    """What is wrong in what a run wrote, or None."""
    for second, word in enumerate((b"during", b"after")):
        for reader in range(READERS):
            head = b"%s %d\n" % (word, reader)
            if not text.startswith(head):
                return "no line `%s`" % head.decode().strip()
            wrong, text = wrong_in(text[len(head):], script, answers, second, seen)
            if wrong:
                return "%s: %s" % (head.decode().strip(), wrong)
    return "more than the sessions" if text else None


def main():
    program, file = os.path.abspath(sys.argv[1]), os.path.abspath(sys.argv[2])
    runs = int(sys.argv[3]) if len(sys.argv) > 3 else 1000
    answers = queries_of(program, file)
    script = list(answers) * 12
    passed, failed, seen = 0, 0, collections.Counter()
    with tempfile.TemporaryDirectory() as folder:
        lines = os.path.join(folder, "script")
        with open(lines, "w") as out:
            out.write("".join(query + "\n" for query in script))
        words = [program, "race", "--workers", str(WORKERS), "--readers", str(READERS), file, lines]
        for run in range(runs):
            try:
                done = subprocess.run(words, capture_output=True, timeout=120)
                wrong = "status %d" % done.returncode if done.returncode else wrong_with(done.stdout, script, answers, seen)
            except subprocess.TimeoutExpired:
                wrong = "it hung"
            if wrong:
                failed += 1
                print("races: run %d: %s" % (run, wrong))
            else:
                passed += 1
    print("races: look-ups during the build at stages 0 to 3: %s" % " ".join(str(seen[stage]) for stage in range(4)))
    print("races: %d passed, %d failed" % (passed, failed))
    return 1 if failed or not passed else 0


if __name__ == "__main__":
    sys.exit(main())
