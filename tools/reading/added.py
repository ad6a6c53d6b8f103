"""A program with sections added (gABI, ch. 4), and with its index."""
import struct

from . import gdb_entries, limits
from .gdb_index import gdb_index_bytes
from .name_index import name_index
from .sections import HEADER, NO_BITS, NULL, Header

DEBUG_STR = b".debug_str"
PLAIN = 1


class AlreadyIndexed(Exception):
    """The program has a section with that name."""


class TooManySections(Exception):
    """The program would have more sections than it may."""


def index_of_kind(program, kind, rules):
    """The bytes that are stored: those of the index, by gdb's rules where they are asked for, and the strings that it adds or None."""
    if kind == "names":
        return name_index(program)
    version = 9 if kind == "gdb9" else 8
    if rules:
        return gdb_entries.gdb_index_bytes(program, version, gdb_entries.unchanged), None
    return gdb_index_bytes(program, version), None


def with_index(program, kind, rules):
    sections = program.sections
    name = b".debug_names" if kind == "names" else b".gdb_index"
    if sections.index_of(name) is not None:
        raise AlreadyIndexed
    more = 2 if kind == "names" and sections.index_of(DEBUG_STR) is None else 1
    if len(sections.headers) + more > limits.SECTIONS:
        raise TooManySections
    index, strings = index_of_kind(program, kind, rules)
    return added(sections, [(name, index)], strings)


class _Pieces:
    """The program's bytes and the pieces behind them, each from a multiple of 8 on."""

    def __init__(self, file):
        self.out = bytearray(file)

    def place(self, data):
        """Where the piece begins."""
        self.out += bytes(-len(self.out) % 8)
        at = len(self.out)
        self.out += data
        return at


def _moved(header, at, size):
    kind = PLAIN if header.type in (NULL, NO_BITS) else header.type
    return header._replace(type=kind, offset=at, size=size, alignment=1)


def added(sections, parts, strings):
    """The file with the sections added, and with the strings behind those of `.debug_str` where there are any."""
    headers = list(sections.headers)
    headers[0] = headers[0]._replace(size=0, link=0)
    pieces, names, parts = _Pieces(sections.file), sections.names_index, list(parts)
    extended = None if strings is None else sections.index_of(DEBUG_STR)
    if strings is not None and extended is None:
        parts.append((DEBUG_STR, strings))
    texts = sections.contents(names) + (strings if extended == names else b"")
    name_places = []
    for name, _ in parts:
        name_places.append(len(texts))
        texts += name + b"\0"
    if extended is not None:
        data = texts if extended == names else sections.contents(extended) + strings
        headers[extended] = _moved(headers[extended], pieces.place(data), len(data))
    for place, (_, data) in zip(name_places, parts):
        headers.append(Header(place, PLAIN, 0, 0, pieces.place(data), len(data), 0, 0, 4, 0))
    if extended != names:
        headers[names] = _moved(headers[names], pieces.place(texts), len(texts))
    table = pieces.place(b"".join(HEADER.pack(*header) for header in headers))
    struct.pack_into("<Q", pieces.out, 40, table)
    struct.pack_into("<HH", pieces.out, 60, len(headers), names)
    return bytes(pieces.out)
