"""A program as its sections alone, and packed again without all else (gABI, ch. 4)."""
import struct

from reading.sections import HEADER, open_sections

KEPT = (b".debug_", b".note.gnu.build-id", b".gdb_index")


def sections_in(file):
    """(name, bytes) of each section that says anything to an indexer."""
    sections = open_sections(file)
    return [(name, sections.contents(index)) for index, name in enumerate(sections.names) if name.startswith(KEPT)]


def pack(parts):
    """An executable that has these sections, and the spans of its bytes: of the header, of each section, of the table."""
    names, places = b"\0", []
    for name in [name for name, _ in parts] + [b".shstrtab"]:
        places.append(len(names))
        names += name + b"\0"
    out, headers, spans = bytearray(64), [bytes(64)], [(0, 64)]
    for place, (kind, data) in zip(places, [(1, data) for _, data in parts] + [(3, names)]):
        headers.append(HEADER.pack(place, kind, 0, 0, len(out), len(data), 0, 0, 1, 0))
        spans.append((len(out), len(out) + len(data)))
        out += data
    out += bytes(-len(out) % 8)
    struct.pack_into("<4sBBB9xHHI", out, 0, b"\x7fELF", 2, 1, 1, 2, 62, 1)
    struct.pack_into("<Q", out, 40, len(out))
    struct.pack_into("<HHHHHH", out, 52, 64, 0, 0, 64, len(headers), len(headers) - 1)
    spans.append((len(out), len(out) + 64 * len(headers)))
    return bytes(out) + b"".join(headers), spans
