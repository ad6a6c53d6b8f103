"""What the references of an item lead to: its chain, its names, and its scope (DWARF 5, 2.13.2 and 3.3.8.1)."""
from . import attributes, faults, limits
from .faults import Code
from .languages import target_of
from .rules import ENUMERATION, NAMESPACE, RECORDS

ANONYMOUS = b"(anonymous namespace)"


class Followed:
    """What stands at the end of an item's chain, and the names and the flag on it."""

    __slots__ = ("end", "name", "linkage", "external")


class Scope:
    """An item of a scope path: how many steps lead from it to the path's end, what it gives to names, and its own scope."""

    __slots__ = ("steps", "component", "outer", "length")

    def components(self):
        """From the outermost inwards."""
        found, scope = [], self
        while scope is not None:
            if scope.component is not None:
                found.append(scope.component)
            scope = scope.outer
        return found[::-1]


class Links:
    """The references of a whole program.  Each call raises the code of what is wrong with them."""

    def __init__(self, walks, info_length):
        self.info_length = info_length
        self.by_offset = {item.offset: item for _, items in walks for item in items}
        self.types = {}
        for unit, _ in walks:
            if unit.is_type_unit():
                self.types.setdefault(unit.signature, unit)
        self.known, self.scopes = {}, {}

    def _named(self, item, reference):
        target = target_of(item.unit, reference, self.info_length)
        if target not in self.by_offset:
            raise Code(faults.BAD_REFERENCE)
        return self.by_offset[target]

    def _chain(self, item):
        chain, reference = [item], attributes.next_reference(item)
        while reference is not None:
            chain.append(self._named(chain[-1], reference))
            if len(chain) - 1 > limits.HOPS:
                raise Code(faults.REFERENCE_CHAIN)
            reference = attributes.next_reference(chain[-1])
        return chain

    def _name_by_signature(self, item):
        """The name of the entry that the first type unit with the item's signature describes."""
        unit = self.types.get(attributes.signature(item))
        if unit is None:
            return None
        offset = unit.joint + unit.type_offset
        if unit.type_offset >= unit.end - unit.start or offset not in self.by_offset:
            raise Code(faults.BAD_REFERENCE)
        return self.by_offset[offset].name

    def follow(self, item):
        """The item's chain, and then its signature where its name needs it."""
        found = self.known.get(item.offset)
        if found is None:
            chain, found = self._chain(item), Followed()
            found.end = chain[-1]
            found.name = next((member.name for member in chain if member.name), None)
            found.linkage = next((member.linkage for member in chain if member.linkage), None)
            found.external = any(attributes.has_flag(member, attributes.EXTERNAL) for member in chain)
            if found.name is None and attributes.signature(item) is not None:
                found.name = self._name_by_signature(item)
            if found.name is None and item.tag == NAMESPACE:
                found.name = ANONYMOUS
            self.known[item.offset] = found
        return found

    def scope_of(self, item):
        """The scope path of an item whose chain was followed, as its innermost Scope; None where it has no steps."""
        path, member = [], self.follow(item).end.parent
        while member is not None and member.offset not in self.scopes:
            if len(path) + 1 > limits.SCOPE_STEPS:
                raise Code(faults.REFERENCE_CHAIN)
            path.append(member)
            member = None if member.is_root() else self.follow(member).end.parent
        scope = None if member is None else self.scopes[member.offset]
        if len(path) + (scope.steps if scope else 0) > limits.SCOPE_STEPS:
            raise Code(faults.REFERENCE_CHAIN)
        for member in reversed(path):
            scope = self.scopes[member.offset] = self._scope(member, scope)
        return scope

    def _scope(self, member, outer):
        scope = Scope()
        scope.outer, scope.component = outer, None if member.is_root() else self._component(member)
        scope.steps = 1 + (outer.steps if outer else 0)
        own = 0 if scope.component is None else len(scope.component) + 2
        scope.length = own + (outer.length if outer else 0)
        return scope

    def _component(self, member):
        """What a member of a path puts before the names of C++."""
        scoped = attributes.has_flag(member, attributes.ENUM_CLASS)
        if member.tag == NAMESPACE or member.tag in RECORDS or member.tag == ENUMERATION and scoped:
            return self.follow(member).name
        return None
