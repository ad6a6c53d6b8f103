#!/usr/bin/env python3
"""generated.py SEED UNITS FILE: writes the generated file of a seed and a number of units.

A unit is written down as its entries, (tag, attributes, children), and turned into bytes by a writer of one plain form, which
knows nothing of our code.  crates/elf_make/specs/Generated.antt has the rule in words."""
import struct
import sys

TAGS = {'class_type': 0x02, 'compile_unit': 0x11, 'typedef': 0x16, 'subprogram': 0x2e, 'variable': 0x34, 'namespace': 0x39}

# the number of each attribute, its form, and its value as bytes (DWARF 5, sections 7.5.4 to 7.5.6)
ATTRIBUTES = {
    'name': (0x03, 0x08, lambda text: text.encode() + b'\0'),
    'language': (0x13, 0x0b, lambda number: struct.pack('<B', number)),
    'low': (0x11, 0x01, lambda address: struct.pack('<Q', address)),
    'high': (0x12, 0x06, lambda size: struct.pack('<I', size)),
    'external': (0x3f, 0x19, lambda _: b''),
    'declaration': (0x3c, 0x19, lambda _: b''),
    'specification': (0x47, 0x10, lambda offset: struct.pack('<I', offset)),
    'location': (0x02, 0x18, lambda address: struct.pack('<BBQ', 9, 0x03, address)),
}


# ---- the plain form

class Writer:
    """The bytes of both sections, and where each entry with a mark stands."""

    def __init__(self):
        self.abbreviations, self.info, self.marks, self.references = [], bytearray(), {}, []

    def unit(self, entry):
        start = len(self.info)
        self.info += struct.pack('<IHBBI', 0, 5, 1, 8, 0)
        self.entry(entry)
        struct.pack_into('<I', self.info, start, len(self.info) - start - 4)

    def entry(self, entry):
        tag, attributes, children = entry
        if 'mark' in attributes:
            self.marks[attributes.pop('mark')] = len(self.info)
        row = (TAGS[tag], children is not None, tuple(ATTRIBUTES[name][:2] for name in attributes))
        if row not in self.abbreviations:
            self.abbreviations.append(row)
        self.info.append(self.abbreviations.index(row) + 1)
        for name, value in attributes.items():
            if name == 'specification':
                # a mark may stand further on
                self.references.append((len(self.info), value))
                value = 0
            self.info += ATTRIBUTES[name][2](value)
        if children is not None:
            for child in children:
                self.entry(child)
            self.info.append(0)

    def sections(self):
        for at, mark in self.references:
            struct.pack_into('<I', self.info, at, self.marks[mark])
        table = bytearray()
        for code, (tag, braces, attributes) in enumerate(self.abbreviations, 1):
            table += bytes([code, tag, braces]) + bytes(number for pair in attributes for number in pair) + b'\0\0'
        return [('.debug_abbrev', bytes(table) + b'\0'), ('.debug_info', bytes(self.info))]


def packed(kind, sections):
    """An ELF file: header, contents, names, zeros up to a multiple of 8, section headers."""
    contents, names, heads = b'', b'\0', [bytes(64)]
    for name, data in sections + [('.shstrtab', None)]:
        own, place = len(names), 64 + len(contents)
        names += name.encode() + b'\0'
        data, sort = (names, 3) if data is None else (data, 1)
        heads.append(struct.pack('<IIQQQQIIQQ', own, sort, 0, 0, place, len(data), 0, 0, 1, 0))
        contents += data
    contents += bytes(-len(contents) % 8)
    header = b'\x7fELF\x02\x01\x01' + bytes(9) + struct.pack('<HHIQQQIHHHHHH', kind, 62, 1, 0, 0, 64 + len(contents), 0, 64, 0, 0, 64, len(heads), len(heads) - 1)
    return header + contents + b''.join(heads)


# ---- the generator

def even_unit(low, digits, first):
    main = [('subprogram', {'name': 'main', 'external': True, 'low': low, 'high': 0x20}, None)]
    return ('compile_unit', {'name': 'u%s.c' % digits, 'language': 0x0c, 'low': low, 'high': 0x100}, (main if first else []) + [
        ('subprogram', {'name': 'f' + digits, 'external': True, 'low': low + 0x20, 'high': 0x20}, None),
        ('subprogram', {'name': 'helper', 'low': low + 0x40, 'high': 0x20}, None),
        ('variable', {'name': 'v' + digits, 'external': True, 'location': low + 0x80}, None),
        ('typedef', {'name': 'word'}, None)])


def odd_unit(low, digits, own, specified):
    return ('compile_unit', {'name': 'u%s.cc' % digits, 'language': 0x21, 'low': low, 'high': 0x100}, [
        ('namespace', {'name': 'n'}, [
            ('class_type', {'name': 'c' + digits}, [
                ('subprogram', {'mark': own, 'name': 'm', 'external': True, 'declaration': True}, None)])]),
        ('subprogram', {'specification': specified, 'low': low + 0x20, 'high': 0x20}, None)])


def generated(seed, units):
    writer, base = Writer(), 0x100000 + 0x1000 * (seed % 4096)
    for i in range(units):
        low, digits = base + 0x100 * i, '%08x' % i
        if i % 2 == 0:
            writer.unit(even_unit(low, digits, i == 0))
        else:
            writer.unit(odd_unit(low, digits, i, 2 * (((i - 1) // 2 + seed) % (units // 2)) + 1))
    return packed(2, writer.sections())


if __name__ == '__main__':
    with open(sys.argv[3], 'wb') as out:
        out.write(generated(int(sys.argv[1]), int(sys.argv[2])))
