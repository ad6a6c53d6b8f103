"""Units, abbreviations and programs as bytes (DWARF 5, section 7; gABI, chapter 4), for files that are made to cost."""
import struct

from fuzzing.packed import pack

# Tags, attributes and forms by their names in DWARF 5, sections 7.5.3 to 7.5.6.
ENUMERATION, STRUCTURE, TYPEDEF, LEXICAL_BLOCK, COMPILE_UNIT = 0x04, 0x13, 0x16, 0x0b, 0x11
SUBPROGRAM, VARIABLE, NAMESPACE, PARTIAL_UNIT, IMPORTED_UNIT, TYPE_UNIT = 0x2e, 0x34, 0x39, 0x3c, 0x3d, 0x41
NAME, LOW_PC, HIGH_PC, LANGUAGE, IMPORT, CONST_VALUE = 0x03, 0x11, 0x12, 0x13, 0x18, 0x1c
SPECIFICATION, RANGES, SIGNATURE, ARTIFICIAL = 0x47, 0x55, 0x69, 0x34
ADDR, BLOCK4, STRING, DATA1, STRP, DATA4, REF_ADDR, REF4 = 0x01, 0x04, 0x08, 0x0b, 0x0e, 0x06, 0x10, 0x13
SEC_OFFSET, FLAG_PRESENT, REF_SIG8 = 0x17, 0x19, 0x20
C, CXX, ADA = 0x0c, 0x21, 0x0d
# The bytes of the header of a unit of version 5 that isn't a type unit, and of its root when that is a code and a language.
HEADER, ROOT_BYTES = 12, 2
MOST_STRING = 1 << 20


def uleb(number):
    """A number as ULEB128 (DWARF 5, section 7.6)."""
    out = bytearray()
    while number >= 0x80:
        out.append(number & 0x7F | 0x80)
        number >>= 7
    return bytes(out) + bytes((number,))


def abbreviation(code, tag, children, *pairs, filler=0):
    """An abbreviation; `filler` more attributes of no bytes stand at its end."""
    specs = b"".join(uleb(attribute) + uleb(form) for attribute, form in pairs)
    return uleb(code) + uleb(tag) + bytes((children,)) + specs + (uleb(ARTIFICIAL) + uleb(FLAG_PRESENT)) * filler + b"\0\0"


# Code 1: a root with a language.
ROOT = abbreviation(1, COMPILE_UNIT, 1, (LANGUAGE, DATA1))


def unit(body, table=0, kind=1):
    """A unit of version 5."""
    return struct.pack("<IHBBI", len(body) + 8, 5, kind, 8, table) + body


def old_unit(body, table=0):
    """A unit of version 4, whose header has 11 bytes."""
    return struct.pack("<IHIB", len(body) + 7, 4, table, 8) + body


def type_unit(body, signature, offset):
    """A type unit of version 5, whose header has 24 bytes."""
    return struct.pack("<IHBBIQI", len(body) + 20, 5, 2, 8, 0, signature, offset) + body


def program(info, table, **more):
    """A program with these units, this table of abbreviations, and these other debug sections."""
    parts = [(b".debug_abbrev", table), (b".debug_info", info)]
    return pack(parts + [(b"." + name.encode(), data) for name, data in more.items()])[0]


def with_sections(data, count, name):
    """The program with so many more empty sections, all of one name (gABI, chapter 4, "Sections")."""
    at, = struct.unpack_from("<Q", data, 40)
    number, index = struct.unpack_from("<HH", data, 60)
    headers = bytearray(data[at:at + 64 * number])
    names_at, size = struct.unpack_from("<QQ", headers, 64 * index + 24)
    names = data[names_at:names_at + size] + name + b"\0"
    struct.pack_into("<QQ", headers, 64 * index + 24, len(data), len(names))
    headers += struct.pack("<IIQQQQIIQQ", size, 1, 0, 0, 0, 0, 0, 0, 1, 0) * count
    number += count
    if number >= 0xFF00:
        # The size and the link of section 0 tell what the header has no room for.
        struct.pack_into("<Q", headers, 32, number)
        struct.pack_into("<I", headers, 40, index)
        number, index = 0, 0xFFFF
    file = bytearray(data + names + headers)
    struct.pack_into("<Q", file, 40, len(data) + len(names))
    struct.pack_into("<HH", file, 60, number, index)
    return bytes(file)


def reference(code, target):
    """An entry of one reference."""
    return uleb(code) + struct.pack("<I", target)


def function(code, target, number):
    """An entry with a specification, a low and a high end."""
    return uleb(code) + struct.pack("<IQI", target, 0x1000 + 16 * number, 16)


FUNCTION = ((SPECIFICATION, REF4), (LOW_PC, ADDR), (HIGH_PC, DATA4))


def letters(number, width):
    """A word of so many letters, another one for each number."""
    return bytes(97 + number // 26 ** place % 26 for place in range(width))


def spellings(count):
    """So many words that differ in capitals alone, so that both index formats have one hash for all."""
    width = max(1, (count - 1).bit_length())
    for number in range(count):
        yield bytes((65 if number >> place & 1 else 97) + place % 26 for place in range(width))
