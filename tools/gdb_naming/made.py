"""A made object with a unit for each language code, and in each the tags by which the rules tell items apart: at the unit's level, in a
namespace, a structure, a module and a subprogram; with a name, a linkage name alone or none; external, declared, with children."""
import os
import subprocess

GO_BY_PRODUCER = 0x8765
LANGUAGES = [*range(0x50), 0x8001, 0x9000, GO_BY_PRODUCER]
TAGS = [tag for tag in range(0x01, 0x4C) if tag not in (0x03, 0x11, 0x3C, 0x3D, 0x41, 0x4A)]
ENUMERATOR, SUBPROGRAM, BLOCK, ENTRY_POINT = 0x28, 0x2E, 0x0B, 0x03
HOLDERS = (0x39, 0x13, 0x1E, SUBPROGRAM, 0x04)
NAME, LINKAGE, EXTERNAL, DECLARATION, ENUM_CLASS, SPECIFICATION = 3, 0x6E, 0x3F, 0x3C, 0x6D, 0x47
STRING, PRESENT, REFERENCE = 8, 0x19, 0x13
SORTS = ((NAME,), (NAME, EXTERNAL), (NAME, DECLARATION), (NAME, DECLARATION, EXTERNAL), (LINKAGE,), (NAME, LINKAGE), (), (NAME, ENUM_CLASS))


class Unit:
    """The lines of a unit; of its abbreviations each has a number of its own."""

    def __init__(self, language, abbreviations):
        self.language, self.abbreviations, self.lines, self.count = language, abbreviations, [], 0

    def item(self, tag, attributes, children=False, target=None):
        """Writes an item and gives its label. Its names are its label with what stands before it."""
        self.count += 1
        label = "L%x_%d" % (self.language, self.count)
        forms = [(attribute, STRING if attribute in (NAME, LINKAGE) else REFERENCE if attribute == SPECIFICATION else PRESENT)
                 for attribute in attributes]
        code = self.abbreviations.setdefault((tag, children, tuple(forms)), len(self.abbreviations) + 2)
        self.lines.append("%s: .uleb128 %d" % (label, code))
        for attribute in attributes:
            if attribute in (NAME, LINKAGE):
                self.lines.append(" .asciz \"%s%x_%s\"" % ("n" if attribute == NAME else "l", tag, label[1:].lower()))
            elif attribute == SPECIFICATION:
                self.lines.append(" .4byte %s-U%x" % (target, self.language))
        return label

    def end(self):
        self.lines.append(" .byte 0")

    def within(self, tag, attributes):
        """An item with an enumerator and a subprogram in it."""
        label = self.item(tag, attributes, children=True)
        inner = self.item(ENUMERATOR, (NAME,)), self.item(SUBPROGRAM, (NAME, EXTERNAL))
        self.end()
        return label, inner


def _all_items(unit):
    for attributes in SORTS:
        for tag in TAGS:
            unit.item(tag, attributes)
            if ENUM_CLASS not in attributes or NAME in attributes:
                unit.within(tag, attributes)


def _held(unit):
    """Items in each sort of holder, in it and in a block in it."""
    for holder in HOLDERS:
        unit.item(holder, (NAME,), children=True)
        for tag in TAGS:
            unit.item(tag, (NAME,))
        unit.item(BLOCK, (), children=True)
        unit.within(SUBPROGRAM, (NAME,))
        unit.within(0x13, (NAME,))
        unit.end()
        if holder == SUBPROGRAM:
            unit.item(ENTRY_POINT, (NAME,))
        unit.end()


def _completed(unit):
    """Items whose scope comes from what they complete, before and behind it."""
    for holder in (0x39, 0x13, 0x02):
        for sorts in ((NAME,), (NAME, DECLARATION)):
            unit.item(holder, (NAME,), children=True)
            label, inner = unit.within(0x13, sorts)
            unit.end()
            unit.item(SUBPROGRAM, (SPECIFICATION,), target=inner[1])
            unit.item(0x34, (NAME, SPECIFICATION), target=inner[0])
            unit.within(0x13, (NAME,))
            unit.item(0x13, (SPECIFICATION,), children=True, target=label)
            unit.item(SUBPROGRAM, (NAME,))
            unit.end()


def _unit_text(language, abbreviations):
    unit = Unit(language, abbreviations)
    _all_items(unit)
    _held(unit)
    _completed(unit)
    producer = "GNU Go 12" if language == GO_BY_PRODUCER else "made"
    head = "U%x: .4byte E%x-S%x\nS%x: .2byte 4\n .4byte 0\n .byte 8\n .uleb128 1\n .2byte %d\n" % ((language,) * 5)
    return head + " .asciz \"%s\"\n" % producer + "\n".join(unit.lines) + "\n .byte 0\nE%x:\n" % language


def made_object(folder):
    """The path of the object."""
    abbreviations, path = {}, os.path.join(folder, "made")
    units = "".join(_unit_text(language, abbreviations) for language in LANGUAGES)
    rows = [" .uleb128 1,0x11\n .byte 1\n .uleb128 0x13,0x05,0x25,0x08,0,0"]
    for (tag, children, forms), code in abbreviations.items():
        pairs = "".join("%d,%d," % pair for pair in forms)
        rows.append(" .uleb128 %d,%d\n .byte %d\n .uleb128 %s0,0" % (code, tag, children, pairs))
    with open(path + ".s", "w") as file:
        file.write(" .section .debug_abbrev,\"\",@progbits\n%s\n .uleb128 0\n" % "\n".join(rows))
        file.write(" .section .debug_info,\"\",@progbits\n%s" % units)
    subprocess.run(["as", "-o", path + ".o", path + ".s"], check=True)
    subprocess.run(["ld", "-shared", "-o", path, path + ".o"], check=True)
    return path
