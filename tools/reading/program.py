"""A program file: its sections, its units, its entries and its ranges, or its first fault."""
from . import addresses, entries, languages, range_lists, strings
from .abbreviations import Tables
from .faults import Code, Fault
from .links import Links
from .rules import SUBPROGRAM
from .sections import open_sections
from .units import units_of
from .walk import walk_of


class Program:
    """All that the phases find.  `Program(file)` raises the first fault of the first phase that finds one."""

    def __init__(self, file):
        self.file = file
        self.sections = open_sections(file)
        self.units = units_of(self.sections)

    def build(self):
        """The phases behind the headers: units, references, ranges."""
        tables = Tables(self.sections.get(b".debug_abbrev"))
        self.walks = [(unit, self._walk(unit, tables)) for unit in self.units]
        info_length = len(self.sections.get(b".debug_info"))
        self.languages = languages.languages_of(self.walks, info_length)
        self.links = Links(self.walks, info_length)
        self.entries = entries.entries_of(self.walks, self.languages, self.links)
        self.pieces = addresses.pieces_of(self._ranges())
        self.main = entries.main_of(self.entries, self.languages)
        return self

    def _walk(self, unit, tables):
        """The abbreviations, then the walk, then the texts."""
        try:
            table = tables.at(unit.abbreviations)
        except Code as fault:
            raise Fault(fault.code, unit.joint) from None
        items = walk_of(unit, table)
        strings.read_texts(self.sections, unit, items)
        return items

    def _ranges(self):
        subprograms = {unit.number: [] for unit in self.units}
        for entry in self.entries:
            if entry.tag == SUBPROGRAM and not entry.linkage:
                subprograms[entry.unit].append(entry.item)
        return [(low, end, unit.number) for unit, items in self.walks
                for low, end in range_lists.ranges_of(self.sections, unit, items, subprograms[unit.number])]


def open_program(file):
    """The sections and the units alone."""
    return Program(file)


def built(file):
    return Program(file).build()
