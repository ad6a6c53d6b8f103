"""The lines that are written."""
from . import rules


def as_stands(name):
    return name


def quoted(name):
    """A name with control bytes and the backslash as \\xHH."""
    return b"".join(b"\\x%02x" % byte if byte < 0x20 or byte in (0x7F, 0x5C) else bytes((byte,)) for byte in name)


def of_found(lines):
    return b"".join(line + b"\n" for line in [b"found %d" % len(lines)] + lines)


def of_entry(entry, spelled=as_stands):
    scope, way = b"static" if entry.static else b"global", b"linkage" if entry.linkage else b"name"
    return b"%d %x %x %s %s %s %s" % (entry.unit, entry.offset, entry.tag, rules.KIND_WORDS[entry.kind], scope, way, spelled(entry.name))


def of_unit(unit):
    return b"none\n" if unit is None else b"unit %d\n" % unit


def of_main(main, spelled=as_stands):
    return b"none\n" if main is None else b"main %x %s\n" % (main[0], spelled(main[1]))


def of_cache(length):
    return b"too large\n" if length is None else b"cache %d\n" % length


def of_element(element, name):
    """What an element of a `.gdb_index` says."""
    kind = element >> 28 & 7
    word = rules.KIND_WORDS.get(kind, b"kind%d" % kind)
    return b"%d %s %s %s" % (element & 0xFFFFFF, word, b"static" if element >> 31 else b"global", name)


def of_hit(hit, name):
    """What an entry of a `.debug_names` says."""
    sort, unit, tag, offset = hit
    return b"%s %d %x %x %s" % (sort.encode(), unit, offset, tag, name)


def of_file(unit, index, directory, path):
    return b"%d %d %d %s" % (unit, index, directory, path)


def of_difference(difference):
    if difference is None:
        return b"agrees\n"
    address, *units = difference
    return b"differs %x %s %s\n" % (address, *(b"none" if unit is None else b"%d" % unit for unit in units))
