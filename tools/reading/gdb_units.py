"""The units as gdb reads them: a partial unit is read as a part of the unit that imports it (read.c, `index_imported_unit`)."""
from . import attributes, gdb_rules
from .languages import IMPORTED_UNIT, PARTIAL_UNIT, target_of
from .strings import text_of


def _own_class(program, unit, items):
    if not items:
        return gdb_rules.ANY
    value = items[0].first(gdb_rules.PRODUCER)
    base = attributes.base(items[0], attributes.STR_OFFSETS_BASE)
    producer = text_of(program.sections, unit, base, value if value and value[0] in attributes.STRINGS else None)
    return gdb_rules.class_of(attributes.constant(items[0], attributes.LANGUAGE), producer)


class GdbUnits:
    """Of each unit that is read `owner`, to which gdb gives what stands in it, and `class_of`, the class of that one's language.

    A partial unit's owner is the first other unit that imports it, itself or through partial units; without one it isn't read."""

    def __init__(self, program):
        self.owner, self.class_of = {}, {}
        partial = {items[0].offset: unit.number for unit, items in program.walks if items and items[0].tag == PARTIAL_UNIT}
        imports = {unit.number: list(self._imported(items, partial, program)) for unit, items in program.walks}
        for unit, items in program.walks:
            if items and items[0].tag != PARTIAL_UNIT:
                self._take(unit.number, imports, _own_class(program, unit, items))

    @staticmethod
    def _imported(items, partial, program):
        for item in items:
            reference = attributes.import_reference(item) if item.tag == IMPORTED_UNIT else None
            target = None if reference is None else target_of(item.unit, reference, program.links.info_length)
            if target in partial:
                yield partial[target]

    def _take(self, owner, imports, language_class):
        left = [owner]
        while left:
            number = left.pop()
            if number not in self.owner:
                self.owner[number], self.class_of[number] = owner, language_class
                left += reversed(imports[number])
