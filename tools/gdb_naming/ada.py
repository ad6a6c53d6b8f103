"""How gdb lists names of Ada, as its own index of units made of them tells."""
import os
import subprocess
import tempfile

from . import compare

# A unit of Ada, and in it a subprogram with a name and a linkage name.
HEAD = """
 .section .debug_abbrev,"",@progbits
 .uleb128 1,0x11,1,0x13,0x0b,0,0, 2,0x2e,0,3,8,0x6e,8,0,0, 0
 .section .debug_info,"",@progbits
"""
UNIT = """
 .4byte 2f-1f
1: .2byte 4
 .4byte 0
 .byte 8, 1, 0x0d, 2
 .byte %s
 .asciz "n%d"
 .byte 0
2:
"""


def _object(names, folder):
    source, path = os.path.join(folder, "ada.s"), os.path.join(folder, "ada")
    with open(source, "w", encoding="ascii") as file:
        file.write(HEAD)
        file.writelines(UNIT % (",".join(map(str, name + b"\0")), number) for number, name in enumerate(names))
    subprocess.run(["as", "-o", path, source], check=True)
    return path


def listed(gdb, names):
    """How this gdb lists each name. Each is in a unit of its own: in one gdb takes the scopes of names for each other's. Their linkage names,
    which it lists too, aren't among them."""
    with tempfile.TemporaryDirectory() as folder:
        index = compare.gdb_names(gdb, _object(names, folder))
    of_unit = {}
    for name, elements in index.of.items():
        for _, number, _ in elements:
            if name != b"n%d" % number:
                of_unit[number] = name
    return [of_unit[number] for number in range(len(names))]
