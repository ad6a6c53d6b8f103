"""The items of a unit one behind the other (DWARF 5, 2.3 and 7.5.2)."""
from . import faults, forms, limits, numbers
from .faults import Code, Fault
from .numbers import Missing

ROOT_TAGS = (0x11, 0x3C, 0x41, 0x4A)


class Item:
    """A debugging information entry: its joint offset, its depth, its parent, and the values of its attributes."""

    __slots__ = ("unit", "offset", "depth", "parent", "tag", "children", "values", "name", "linkage", "visited", "followed")

    def first(self, attribute):
        """The value of the first attribute with this number, in whatever form, or None."""
        return self.values.get(attribute)

    def is_root(self):
        return self.depth == 0


def _item_at(unit, table, at, depth):
    """The item at a place, None for a null; and the place behind it."""
    offset = unit.offset_of(at)
    try:
        code, behind = numbers.uleb(unit.data, at, unit.end)
    except Missing:
        raise Fault(faults.TRUNCATED, offset) from None
    if code == 0 and at != unit.body:
        return None, behind
    if code not in table:
        raise Fault(faults.BAD_CODE, offset)
    abbreviation = table[code]
    if depth > limits.DEPTH:
        raise Fault(faults.DEPTH, offset)
    if depth == 0 and abbreviation.tag not in ROOT_TAGS:
        raise Fault(faults.BAD_ROOT, offset)
    item = Item()
    item.unit, item.offset, item.depth = unit, offset, depth
    item.tag, item.children, item.values = abbreviation.tag, abbreviation.children, {}
    try:
        for attribute, form, constant in abbreviation.attributes:
            value, behind = forms.read_value(unit, form, constant, behind)
            item.values.setdefault(attribute, value)
    except Code as fault:
        raise Fault(fault.code, offset) from None
    return item, behind


def _check_tail(unit, at):
    """Behind the tree stand zeros alone."""
    rest = unit.data[at:unit.end]
    zeros = len(rest) - len(rest.lstrip(b"\0"))
    if zeros < len(rest):
        raise Fault(faults.TRAILING_BYTES, unit.offset_of(at + zeros))


def walk_of(unit, table):
    """All items of the unit's tree, or the walk's first fault."""
    items, at, depth = [], unit.body, 0
    last = [None] * (limits.DEPTH + 2)      # of each depth the last item so far
    open_tree = at < unit.end and unit.data[at] != 0
    while open_tree and at < unit.end:
        item, at = _item_at(unit, table, at, depth)
        if item is None:
            depth -= 1
        else:
            item.parent = last[depth - 1] if depth else None
            last[depth] = item
            items.append(item)
            depth += item.children
        open_tree = depth > 0
    _check_tail(unit, at)
    return items
