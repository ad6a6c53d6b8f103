"""The hashes of names, A to Z taken as a to z, and the path of a name among slots."""

MASK = 0xFFFFFFFF


def gdb_hash(name):
    """GDB manual, "Index Section Format"."""
    value = 0
    for byte in name.lower():
        value = (value * 67 + byte - 113) & MASK
    return value


def name_hash(name):
    """DWARF 5, 6.1.1.4.5."""
    value = 5381
    for byte in name.lower():
        value = (value * 33 + byte) & MASK
    return value


def path(name, slots):
    """The slots that a name goes along, as many as there are; their number is a power of two."""
    value = gdb_hash(name)
    place, step = value % slots, (value * 17 % slots | 1) % slots
    for _ in range(slots):
        yield place
        place = (place + step) % slots
