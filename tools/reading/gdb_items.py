"""The items that gdb looks at, and what each says (read.c, `cooked_indexer::index_dies` and `scan_attributes`).

Nothing is refused here: a reference that names nothing ends its chain, and so does a chain's limit."""
from . import attributes, gdb_rules, limits
from .languages import target_of
from .links import ANONYMOUS


class Said:
    """The targets of an item's chain, and what the chain says: the names, whether it is external, and a scoped enumeration.
    `hidden` is an item that gives its name to what stands in it and isn't listed itself."""

    __slots__ = ("targets", "name", "linkage", "external", "scoped", "hidden")


class GdbItems:
    """`said` has the items that are looked at. `around` has of each item that gdb comes to the open one around it, or None."""

    def __init__(self, program, units):
        self.info_length, self.by_offset = program.links.info_length, program.links.by_offset
        self.said, self.around, self.opened, self._inside = {}, {}, set(), set()
        for unit, items in program.walks:
            if unit.number in units.owner:
                self._read(items[1:], units.class_of[unit.number])

    def _read(self, items, language_class):
        for item in items:
            if self._is_reached(item) and self._is_looked_at(item):
                self.said[item.offset] = self.says(item, language_class)
                if self._is_open(item, language_class):
                    self.opened.add(item.offset)

    def _is_reached(self, item):
        """It stands in what is open; or in what isn't looked at somewhere in a subprogram, which is gone through."""
        parent = item.parent
        if parent.is_root():
            self.around[item.offset] = None
        elif parent.offset in self.opened:
            self.around[item.offset] = parent
            if parent.tag == gdb_rules.SUBPROGRAM or parent.offset in self._inside:
                self._inside.add(item.offset)
        elif parent.offset in self._inside and parent.offset not in self.said:
            self.around[item.offset] = self.around[parent.offset]
            self._inside.add(item.offset)
        return item.offset in self.around

    def _is_looked_at(self, item):
        """Of what stands in a subprogram only subprograms and entry points are, and entry points nowhere else."""
        around = self.around[item.offset]
        local = around is not None and around.tag == gdb_rules.SUBPROGRAM
        allowed = local if item.tag == gdb_rules.ENTRY_POINT else not local or item.tag == gdb_rules.SUBPROGRAM
        return allowed and gdb_rules.counts(item)

    def _is_open(self, item, language_class):
        if not item.children:
            return False
        if item.tag in (gdb_rules.ENUMERATION, gdb_rules.NAMESPACE):
            return True
        if item.tag in gdb_rules.RECORDS:
            may = language_class != gdb_rules.C
        elif item.tag == gdb_rules.SUBPROGRAM:
            may = gdb_rules.has_local_subprograms(language_class)
        else:
            may = item.tag == gdb_rules.MODULE
        return may and self.said[item.offset].name is not None

    def _target(self, item):
        """What the first of the item's origin attributes names."""
        values = (item.first(attribute) for attribute in gdb_rules.ORIGINS)
        value = next((value for value in values if value is not None and value[0] in attributes.REFERENCES), None)
        return None if value is None else self.by_offset.get(target_of(item.unit, value, self.info_length))

    def _chain(self, item):
        chain = [item]
        while chain[-1] is not None and len(chain) <= limits.HOPS:
            chain.append(self._target(chain[-1]))
        return [member for member in chain if member is not None]

    def says(self, item, language_class):
        """What an item says, whether it is looked at or not."""
        said = Said()
        said.hidden = gdb_rules.gives_scope_alone(item)
        chain = [item] if said.hidden else self._chain(item)
        said.targets = chain[1:]
        said.name = next((member.name for member in chain if member.name), None)
        said.linkage = next((member.linkage for member in chain if member.linkage), None)
        said.external = any(attributes.has_flag(member, attributes.EXTERNAL) for member in chain)
        said.scoped = any(attributes.has_flag(member, attributes.ENUM_CLASS) for member in chain)
        if item.tag == gdb_rules.NAMESPACE and said.name is None:
            said.name = ANONYMOUS
        if item.tag == gdb_rules.NAMESPACE and said.name == b"::" and language_class == gdb_rules.CXX:
            said.name = None
        return said
