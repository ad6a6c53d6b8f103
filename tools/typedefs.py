#!/usr/bin/env python3
"""typedefs.py OUT     makes the program of docs/SPEED.md whose 100 C units have 2,000,000 typedefs of 300,000 names

clang compiles them, since gcc takes a time that grows with the square of the typedefs of one type."""
import os
import subprocess
import sys
import tempfile
from concurrent.futures import ThreadPoolExecutor

UNITS, EACH, NAMES = 100, 20_000, 300_000


def compiled(room, unit):
    source, part = os.path.join(room, f"{unit}.c"), os.path.join(room, f"{unit}.o")
    with open(source, "w", encoding="utf-8") as file:
        file.writelines(f"typedef int name_{(unit * EACH + at) % NAMES:06};\n" for at in range(EACH))
        file.write(f"int main_{unit}(void) {{ return {unit}; }}\n")
    subprocess.run(["clang", "-g", "-fno-eliminate-unused-debug-types", "-c", "-o", part, source], check=True)
    return part


def main():
    with tempfile.TemporaryDirectory() as room, ThreadPoolExecutor(os.cpu_count()) as pool:
        parts = list(pool.map(lambda unit: compiled(room, unit), range(UNITS)))
        subprocess.run(["ld", "-e", "main_0", "-o", sys.argv[1], *parts], check=True)


if __name__ == "__main__":
    main()
