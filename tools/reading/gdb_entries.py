"""The entries that gdb gives a program, with their names (cooked-index.c, `full_name`; index-write.c, `write_cooked_index`)."""
from . import gdb_ada, gdb_rules, limits
from .gdb_index import gdb_index_of
from .gdb_items import GdbItems
from .gdb_rules import ADA, C, CXX
from .gdb_units import GdbUnits


class Unspelled(Exception):
    """A name of which no reading says how gdb spells it."""


def as_stands(_, name):
    """The spelling of a component: as the file has it."""
    return name


def unchanged(language_class, name):
    """The spelling of a component that gdb doesn't change."""
    if gdb_rules.may_change(language_class, name):
        raise Unspelled(name)
    return name


class Entry:
    """A name of an item and the unit that has it. A linkage entry is a second one, without scope."""

    __slots__ = ("item", "unit", "kinds", "static", "linkage", "name")

    def __init__(self, item, unit, static, linkage, name):
        self.item, self.unit, self.kinds = item, unit, gdb_rules.KINDS[item.tag]
        self.static, self.linkage, self.name = static, linkage, name


class GdbNames:
    """The names of the items of a built program. Each of the `spellings` is that of a release of gdb: `spelled(class, name)` spells a
    component."""

    def __init__(self, program, *spellings):
        self.program, self.spellings = program, spellings
        self.units = GdbUnits(program)
        self.items = GdbItems(program, self.units)

    def class_of(self, item):
        return self.units.class_of[item.unit.number]

    def _open_around(self, item):
        """The innermost open item around any item of the program."""
        around = item.parent
        while around is not None and around.offset not in self.items.opened:
            around = around.parent
        return around

    def _parent(self, item):
        """The open item around it; where there is none, and not in C, that around the first target of its chain that has one.
        An entry point stands where its subprogram stands."""
        around = self.items.around[item.offset]
        if item.tag == gdb_rules.ENTRY_POINT:
            return self._parent(around)
        if around is not None or self.class_of(item) == C:
            return around
        holders = (self._open_around(target) for target in self.items.said[item.offset].targets)
        return next((holder for holder in holders if holder is not None), None)

    def path(self, item):
        """Its scope path, the innermost first; none where it is too long."""
        path, member = [], self._parent(item)
        while member is not None:
            if len(path) == limits.SCOPE_STEPS:
                return []
            path.append(member)
            member = self._parent(member)
        return path

    def gives_component(self, member):
        said = self.items.said[member.offset]
        return said.name is not None and (member.tag != gdb_rules.ENUMERATION or said.scoped)

    def full_name(self, item, spelled):
        language_class, name = self.class_of(item), self.items.said[item.offset].name
        if language_class == ADA:
            return gdb_ada.encoded(self._ada_name(item))
        own = spelled(language_class, name)
        if language_class not in gdb_rules.SEPARATORS:
            return own
        return gdb_rules.SEPARATORS[language_class].join(self.components(self.path(item), spelled) + [own])

    def components(self, path, spelled):
        """What a path gives to names, from the outermost inwards."""
        return [spelled(self.class_of(member), self.items.said[member.offset].name)
                for member in reversed(path) if self.gives_component(member)]

    def _ada_name(self, item):
        """What is decoded has its scope in itself; what isn't stands in what is around it."""
        pieces = []
        for member in [item] + [member for member in self.path(item) if self.gives_component(member)]:
            name = self.items.said[member.offset].name
            decoded = gdb_ada.decoded(name)
            pieces.append(name if decoded is None else decoded)
            if decoded is not None:
                break
        return b".".join(pieces[::-1])

    def by_all(self, name):
        """A name by each of the spellings, none twice."""
        return dict.fromkeys(name(spelled) for spelled in self.spellings)

    def _only_name(self, language_class, linkage, spelled):
        """A linkage name that is taken for a name: it is spelled as names are, and in Ada decoded."""
        if language_class == ADA:
            decoded = gdb_ada.decoded(linkage)
            return gdb_ada.encoded(linkage if decoded is None else decoded)
        return spelled(language_class, linkage)

    def _is_static(self, item):
        if item.tag == gdb_rules.ENTRY_POINT:
            return self._is_static(self.items.around[item.offset])
        return gdb_rules.is_static(item, self.class_of(item), self.items.said[item.offset].external)

    def entries_for(self, item):
        said, language_class = self.items.said[item.offset], self.class_of(item)
        unit, static = self.units.owner[item.unit.number], self._is_static(item)
        if said.hidden and language_class != ADA:
            return
        if said.name is not None:
            for name in self.by_all(lambda spelled: self.full_name(item, spelled)):
                yield Entry(item, unit, static, False, name)
        linkage = said.linkage or (said.name if language_class == ADA else None)
        if linkage is None:
            return
        if said.name is None and item.tag in gdb_rules.CALLED:
            for name in self.by_all(lambda spelled: self._only_name(language_class, linkage, spelled)):
                yield Entry(item, unit, static, False, name)
        elif language_class != CXX:
            yield Entry(item, unit, static, True, gdb_ada.encoded(linkage) if language_class == ADA else linkage)


def entries_of(program, *spellings):
    """All entries in section order."""
    names = GdbNames(program, *spellings)
    looked_at = (item for _, items in program.walks for item in items if item.offset in names.items.said)
    return [entry for item in looked_at for entry in names.entries_for(item)]


def gdb_index_bytes(program, version, *spellings):
    """The bytes of the index of a built program by gdb's own rules, with these spellings of names. Main stands in it where its name is listed."""
    # A text of an index ends at its first zero byte.
    listed = [(entry.name.partition(b"\0")[0], entry.unit, kind, entry.static) for entry in entries_of(program, *spellings) for kind in entry.kinds]
    names = {entry[0] for entry in listed}
    main = program.main if program.main and program.main[1] in names else None
    return gdb_index_of(program, version, listed, main)
