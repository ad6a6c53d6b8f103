"""The sections of an ELF64 file, or the first fault of the file's header and of its section table (gABI, ch. 4)."""
import struct
from collections import namedtuple

from . import faults
from .faults import Fault

Header = namedtuple("Header", "name type flags address offset size link info alignment entry_size")
HEADER = struct.Struct("<IIQQQQIIQQ")
NULL, NO_BITS = 0, 8
COMPRESSED_FLAG = 0x800


def header_at(file, at):
    return Header(*HEADER.unpack_from(file, at))


class Sections:
    """The headers, the index of the section with the names, and of each section behind section 0 its name and its bytes."""

    def __init__(self, file, headers, names_index):
        self.file, self.headers, self.names_index = file, headers, names_index
        self.names, self.first = [b""], {}

    def is_empty(self, index):
        header = self.headers[index]
        return index == 0 or header.type in (NULL, NO_BITS) or header.size == 0

    def contents(self, index):
        if self.is_empty(index):
            return b""
        header = self.headers[index]
        return self.file[header.offset:header.offset + header.size]

    def leaves_the_file(self, index):
        header = self.headers[index]
        return not self.is_empty(index) and header.offset + header.size > len(self.file)

    def index_of(self, name):
        """The least index of a section with this name, or None."""
        return self.first.get(name)

    def get(self, name):
        index = self.first.get(name)
        return b"" if index is None else self.contents(index)


def _check_kind(file):
    if len(file) < 64 or file[:4] != b"\x7fELF":
        raise Fault(faults.NOT_ELF, 0)
    if file[4] != 2:
        raise Fault(faults.ELF_KIND, 4)
    if file[5] != 1:
        raise Fault(faults.ELF_KIND, 5)
    if struct.unpack_from("<H", file, 16)[0] not in (2, 3):
        raise Fault(faults.ELF_KIND, 16)


def _table(file):
    """All headers and the index of the names' section; what the header's fields can't hold stands in section 0."""
    start, = struct.unpack_from("<Q", file, 40)
    entry_size, count, names = struct.unpack_from("<HHH", file, 58)
    broken = Fault(faults.SECTION_TABLE, 0)
    if entry_size != 64 or start == 0 or start + 64 > len(file):
        raise broken
    if count == 0:
        count = header_at(file, start).size
    if names == 0xFFFF:
        names = header_at(file, start).link
    if start + 64 * count > len(file) or names >= count:
        raise broken
    return [header_at(file, start + 64 * index) for index in range(count)], names


def _name_sections(sections):
    """Each section lies in the file, and its name ends with a zero."""
    texts = sections.contents(sections.names_index)
    for index in range(1, len(sections.headers)):
        at = sections.headers[index].name
        end = texts.find(b"\0", at) if at < len(texts) else -1
        if sections.leaves_the_file(index) or end < 0:
            raise Fault(faults.SECTION_TABLE, index)
        sections.names.append(texts[at:end])
        sections.first.setdefault(texts[at:end], index)


def _check_compression(sections):
    for index in range(1, len(sections.headers)):
        name = sections.names[index]
        flagged = sections.headers[index].flags & COMPRESSED_FLAG and name.startswith(b".debug_")
        if flagged or name.startswith(b".zdebug_"):
            raise Fault(faults.COMPRESSED, index)


def open_sections(file):
    _check_kind(file)
    sections = Sections(file, *_table(file))
    if sections.leaves_the_file(sections.names_index):
        raise Fault(faults.SECTION_TABLE, 0)
    _name_sections(sections)
    _check_compression(sections)
    if not sections.get(b".debug_info"):
        raise Fault(faults.NO_DEBUG_INFO, 0)
    return sections
