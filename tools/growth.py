#!/usr/bin/env python3
"""growth.py [--plot FILE.svg] [--runs N] [PROGRAM]     how the time and the memory of `index` grow with the number of units

Programs of 12 to 2,170 units are made of one unit of C++, linked so often. Of each `index --as gdb8` is run N times (3) with 1 and with
4 workers by PROGRAM (out/gdbix), and the least time is taken: seconds by the clock, and greatest memory. The table goes to standard output, and
--plot draws it: the line is straight where twice the units take twice the time."""
import argparse
import os
import subprocess
import tempfile
import time

TOP = os.path.dirname(os.path.dirname(os.path.abspath(__file__)))
UNITS = (12, 34, 96, 271, 542, 1085, 2170)
WORKERS = (1, 4)
SOURCE = """#include <map>
#include <string>
#include <vector>
int main(int count, char **words) {
    std::map<std::string, std::vector<int>> found;
    for (int i = 0; i < count; i++) found[words[i]].push_back(i);
    return found.size();
}
"""


def run(words):
    """Seconds by the clock, and greatest memory in megabytes, of a command that has to end well."""
    began = time.monotonic()
    number = os.spawnvp(os.P_NOWAIT, words[0], words)
    status, used = os.wait4(number, 0)[1:]
    if status:
        raise SystemExit(f"{' '.join(words)}: status {os.waitstatus_to_exitcode(status)}")
    return time.monotonic() - began, used.ru_maxrss / 1024


def measured(program, room, runs):
    """Of each number of units the bytes of the program, and for each number of workers the least seconds and their memory."""
    source, part, out = (os.path.join(room, name) for name in ("unit.cpp", "unit.o", "index"))
    with open(source, "w", encoding="utf-8") as file:
        file.write(SOURCE)
    subprocess.run(["g++", "-g", "-O1", "-c", "-o", part, source], check=True)
    for units in UNITS:
        whole = os.path.join(room, "program")
        words = ["ld", "-z", "muldefs", "--unresolved-symbols=ignore-all", "-e", "0", "-o", whole]
        subprocess.run(words + [part] * units, check=True, stderr=subprocess.DEVNULL)
        by_workers = {}
        for workers in WORKERS:
            call = [program, "index", "--as", "gdb8", "--workers", str(workers), whole, out]
            by_workers[workers] = min(run(call) for _ in range(runs))
        yield units, os.path.getsize(whole), by_workers


def drawn(rows):
    """The seconds by the number of units, a line for each number of workers."""
    wide, high, edge = 640, 400, 60
    most_units = max(units for units, _, _ in rows)
    most = max(found[0] for _, _, by_workers in rows for found in by_workers.values())
    def place(units, seconds):
        return edge + units / most_units * (wide - 2 * edge), high - edge - seconds / most * (high - 2 * edge)
    parts = [f'<svg xmlns="http://www.w3.org/2000/svg" width="{wide}" height="{high}" font-family="sans-serif" font-size="12">',
             f'<rect width="{wide}" height="{high}" fill="white"/>',
             f'<path d="M{edge} {edge} V{high - edge} H{wide - edge}" fill="none" stroke="black"/>',
             f'<text x="{wide / 2}" y="{high - 15}" text-anchor="middle">units</text>',
             f'<text x="{edge}" y="{edge - 15}">seconds</text>']
    for units, _, _ in rows[2:]:
        x, y = place(units, 0)
        parts.append(f'<text x="{x:.0f}" y="{y + 16:.0f}" text-anchor="middle">{units:,}</text>')
    for step in range(1, 6):
        x, y = place(0, most * step / 5)
        parts.append(f'<text x="{x - 6:.0f}" y="{y + 4:.0f}" text-anchor="end">{most * step / 5:.2f}</text>')
        parts.append(f'<path d="M{edge} {y:.1f} H{wide - edge}" stroke="#ddd"/>')
    for workers, colour in zip(WORKERS, ("#1f5fa8", "#b8501f")):
        points = [place(units, by_workers[workers][0]) for units, _, by_workers in rows]
        way = " ".join(f"{x:.1f},{y:.1f}" for x, y in points)
        parts.append(f'<polyline points="{way}" fill="none" stroke="{colour}" stroke-width="2"/>')
        parts += [f'<circle cx="{x:.1f}" cy="{y:.1f}" r="3" fill="{colour}"/>' for x, y in points]
        x, y = points[-1]
        parts.append(f'<text x="{x:.0f}" y="{y - 8:.0f}" text-anchor="end" fill="{colour}">{workers} worker{"s" * (workers > 1)}</text>')
    return "\n".join(parts + ["</svg>", ""])


def main():
    parser = argparse.ArgumentParser(description=__doc__, formatter_class=argparse.RawDescriptionHelpFormatter)
    parser.add_argument("--plot")
    parser.add_argument("--runs", type=int, default=3)
    parser.add_argument("program", nargs="?", default=os.path.join(TOP, "out", "gdbix"))
    words = parser.parse_args()
    rows = []
    print("| Units | Bytes | " + " | ".join(f"{workers} worker{'s' * (workers > 1)}" for workers in WORKERS) + " |")
    print("|---|---|" + "---|" * len(WORKERS))
    with tempfile.TemporaryDirectory() as room:
        for units, length, by_workers in measured(os.path.abspath(words.program), room, words.runs):
            rows.append((units, length, by_workers))
            cells = " | ".join(f"{seconds:.2f} s, {memory:,.0f} MB" for seconds, memory in by_workers.values())
            print(f"| {units:,} | {length:,} | {cells} |", flush=True)
    if words.plot:
        with open(words.plot, "w", encoding="utf-8") as file:
            file.write(drawn(rows))


if __name__ == "__main__":
    main()
