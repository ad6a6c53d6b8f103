#!/usr/bin/env python3
"""build.py [OUT]     proves the program and every crate that it stands on, and puts it at OUT (out/gdbix)

The same proofs as those of `rt run` in crates/index_tool, side by side for crates that don't stand on each other, which fills the
processors better. The tests and the wrong bodies are left to the gate. The status is that of `rt ci` over those crates.

The crates of commands stand on nearly all others, so `rt ci` expects 9 GB of each of their proofs and does two at a time, where one takes less
than 3. So they are done in a run of their own, as many at a time as there are processors and 3 GB for each."""
import os
import shutil
import subprocess
import sys
import tempfile

TOP = os.path.dirname(os.path.dirname(os.path.abspath(__file__)))
PROGRAM = "index_tool"
ENGINE = "index_pool"
COMMANDS = "index_cmd"
PROOF_MEMORY = 3 << 30


def needed():
    """The crates that the program stands on, and itself, with their lines of crates.txt."""
    with open(os.path.join(TOP, "crates.txt"), encoding="utf-8") as file:
        lines = {line.split(":")[0].strip(): line for line in file if ":" in line.split("#")[0]}
    found, left = {}, [PROGRAM]
    while left:
        name = left.pop()
        if name in lines and name not in found:
            found[name] = lines[name]
            left += lines[name].partition(":")[2].split()
    return found


def below(name, crates):
    """The names of the crates that this one stands on."""
    found, left = set(), [name]
    while left:
        for it in crates[left.pop()].partition(":")[2].split():
            if it in crates and it not in found:
                found.add(it)
                left.append(it)
    return found


def proofs_at_a_time():
    """How many proofs there are processors and memory for."""
    with open("/proc/meminfo", encoding="ascii") as file:
        free = next(int(line.split()[1]) << 10 for line in file if line.startswith("MemAvailable:"))
    return max(1, min(len(os.sched_getaffinity(0)), free // PROOF_MEMORY))


def prove(room, names, **more):
    """Proves these crates, or all without names, and gives the status."""
    return subprocess.run(["rt", "ci", *sorted(names)], cwd=room, env={**os.environ, **more}).returncode


def prove_all(room, crates):
    """Proves what the commands stand on, then the commands, then the program, and gives the status."""
    commands = {name for name in below(COMMANDS, crates) if ENGINE in below(name, crates)}
    last = {COMMANDS, PROGRAM}
    many = {} if "RT_JOBS" in os.environ else {"RT_JOBS": str(proofs_at_a_time())}
    return prove(room, crates.keys() - commands - last) or prove(room, commands, **many) or prove(room, ())


def main():
    out = os.path.abspath(sys.argv[1] if len(sys.argv) > 1 else os.path.join(TOP, "out", "gdbix"))
    with tempfile.TemporaryDirectory(prefix="gdbix-") as room:
        crates = needed()
        with open(os.path.join(room, "crates.txt"), "w", encoding="utf-8") as file:
            file.writelines(crates.values())
        shutil.copy(os.path.join(TOP, "HANDLES"), room)
        for name in crates:
            left_out = shutil.ignore_patterns("out", "must-fail", "more-edits")
            shutil.copytree(os.path.join(TOP, "crates", name), os.path.join(room, "crates", name), ignore=left_out)
        status = prove_all(room, crates)
        if status == 0:
            os.makedirs(os.path.dirname(out), exist_ok=True)
            shutil.copy(os.path.join(room, "crates", PROGRAM, "out", PROGRAM), out)
            print(f"{PROGRAM} is {out}")
    return status


if __name__ == "__main__":
    sys.exit(main())
