#!/usr/bin/env python3
"""python3 cuts.py PROGRAM

Cuts the debug information of the smallest worked program, and its two indexes, at every length, and changes single bytes of the program.
Each has the answer that was worked out by hand from the formats: tables of lengths and of bytes stand here. The last line is
'cuts: N passed, M failed'."""
import os
import struct
import subprocess
import sys
import tempfile

ROWS = os.path.join(os.path.dirname(os.path.dirname(os.path.abspath(__file__))), "rows", "vectors")
ANSWER = "found 1\n0 1e 2e function global name main\n"

# Lengths, first and last, with what is refused then.
INFO_CUTS = [(0, 0, "5 0"), (1, 48, "6 0")]
GDB_CUTS = [(0, 3, "40 0"), (4, 23, "41 4"), (24, 39, "41 8"), (40, 59, "41 10"), (60, 75, "41 14"), (76, 88, "45 44")]
NAMES_CUTS = [(0, 71, "50 0")]
# The same where the length in the header is that of what is left.
NAMES_CUTS_WITH_LENGTH = [(4, 5, "51 4"), (6, 64, "52 8"), (65, 70, "57 41"), (71, 71, "57 47")]
# A section, a byte in it and its new value, with what is refused then; None where the answer stays.
CHANGES = [
    (".debug_info", 0x04, 0x04, "9 0"),
    (".debug_info", 0x06, 0x00, "8 0"),
    (".debug_info", 0x06, 0x03, None),
    (".debug_info", 0x07, 0x0C, "9 0"),
    (".debug_info", 0x08, 0x01, "19 c"),
    (".debug_info", 0x0C, 0x00, "23 d"),
    (".debug_info", 0x0C, 0x03, "19 c"),
    (".debug_info", 0x30, 0x01, "11 30"),
    (".debug_abbrev", 0x01, 0x10, "20 c"),
    (".debug_abbrev", 0x04, 0x02, "12 c"),
    (".debug_abbrev", 0x04, 0x1C, "18 c"),
    (".debug_abbrev", 0x1A, 0x01, "10 0"),
]


def read(*parts):
    with open(os.path.join(ROWS, *parts), "rb") as file:
        return file.read()


def header_of(file, name):
    """The place of a section's header, the section's offset and its size (gABI, Sections)."""
    table, = struct.unpack_from("<Q", file, 0x28)
    count, names = struct.unpack_from("<HH", file, 0x3C)
    texts, = struct.unpack_from("<Q", file, table + 64 * names + 0x18)
    for at in range(table, table + 64 * count, 64):
        start = texts + struct.unpack_from("<I", file, at)[0]
        if file[start:file.index(b"\0", start)] == name.encode():
            return at, *struct.unpack_from("<QQ", file, at + 0x18)
    raise KeyError(name)


def with_size(file, name, size):
    made = bytearray(file)
    struct.pack_into("<Q", made, header_of(file, name)[0] + 0x20, size)
    return bytes(made)


def with_byte(file, name, at, value):
    made = bytearray(file)
    made[header_of(file, name)[1] + at] = value
    return bytes(made)


def with_length(index):
    return struct.pack("<I", len(index) - 4) + index[4:]


def cases():
    """Of each case what it is, the words, the bytes of the file X, the status and what is written."""
    program, index, names = read("gdb8_of_file_a", "A"), read("look_gdb8_main", "X"), read("look_names_name", "X")
    ask, look = ["ask", "X", "name", "main"], ["look", "gdb", "X", "name", "main"]
    look_names = ["look", "names", "X", "S", "name", "main"]
    for first, last, fault in INFO_CUTS:
        for size in range(first, last + 1):
            yield f".debug_info of {size}", ask, with_size(program, ".debug_info", size), 1, f"refused {fault}\n"
    for first, last, fault in GDB_CUTS:
        for size in range(first, last + 1):
            yield f".gdb_index of {size}", look, index[:size], 8, f"index refused {fault}\n"
    for first, last, fault in NAMES_CUTS:
        for size in range(first, last + 1):
            yield f".debug_names of {size}", look_names, names[:size], 8, f"index refused {fault}\n"
    for first, last, fault in NAMES_CUTS_WITH_LENGTH:
        for size in range(first, last + 1):
            yield f".debug_names of {size}, with that length", look_names, with_length(names[:size]), 8, f"index refused {fault}\n"
    for name, at, value, fault in CHANGES:
        status, text = (0, ANSWER) if fault is None else (1, f"refused {fault}\n")
        yield f"{name} {at:02x} as {value:02x}", ask, with_byte(program, name, at, value), status, text


def main():
    program, passed, failed = os.path.abspath(sys.argv[1]), 0, 0
    with tempfile.TemporaryDirectory() as folder:
        with open(os.path.join(folder, "S"), "wb") as strings:
            strings.write(b"main\0")
        for what, words, file, status, text in cases():
            with open(os.path.join(folder, "X"), "wb") as made:
                made.write(file)
            done = subprocess.run([program, *words], cwd=folder, capture_output=True, timeout=60)
            is_well = (done.returncode, done.stdout.decode()) == (status, text)
            passed += is_well
            failed += not is_well
            if not is_well:
                print(f"cuts: {what} wrote {done.stdout!r} with status {done.returncode}, not {text!r} with {status}")
    print(f"cuts: {passed} passed, {failed} failed")
    return 1 if failed or not passed else 0


if __name__ == "__main__":
    sys.exit(main())
