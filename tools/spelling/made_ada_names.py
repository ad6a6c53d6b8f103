"""Names that are made by chance, of what GNAT writes and gdb looks for: most are right, some are near a right one."""
import random

PARTS = ("a", "b", "ab", "x9", "get", "z_1", "wait", "pkg", "demo")
BEFORE = ("_ada_", "___ghost_", ".", "_", "<", "9", "A")
BETWEEN = ("__",) * 8 + ("TK__", "__B_1__", "__B_22__", "N__", "_E1b__", "_E12s__", "_", "___", "____", ".", "__B_", "__B_3_", "_E3", "TK_", "X",
                         "Xb", "$", "__N__", "[", "]", "O")
BEHIND = ("N", "B", "TB", "TKB", "__2", "__3_4", "___5", "$2", "$3_4", ".5", "_7", "8", "___XR12", "___XVE", "___X", "___Y", "X", "Xb", "Xnb",
          "_E1b", "_E2s", "__B_1", "P", "[b]", "[cold", "__", "_")
SUFFIXES = (".cold", ".constprop", ".isra", ".", ".part.0", ".x1")


def _name(chance):
    text = chance.choice(PARTS)
    for _ in range(chance.choice((0, 1, 1, 2, 2, 3, 4))):
        text += chance.choice(BETWEEN) + (chance.choice(PARTS) if chance.random() < 0.9 else "")
    for _ in range(chance.choice((0, 1, 1, 1, 2, 3))):
        text += chance.choice(BEHIND)
    for _ in range(chance.choice((0, 0, 0, 0, 1, 2))):
        text = chance.choice(BEFORE) + text
    return text + (chance.choice(SUFFIXES) if chance.random() < 0.15 else "")


def made_ada_names(count, seed):
    """So many different names."""
    chance, names = random.Random(seed), {}
    while len(names) < count:
        names[_name(chance).encode()] = None
    return list(names)
