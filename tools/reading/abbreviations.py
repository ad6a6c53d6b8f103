"""The abbreviations at an offset of `.debug_abbrev` (DWARF 5, 7.5.3)."""
from . import faults, forms, numbers
from .faults import Code
from .numbers import Missing


class Abbreviation:
    __slots__ = ("tag", "children", "attributes")

    def __init__(self, tag, children, attributes):
        self.tag, self.children, self.attributes = tag, children, attributes


def _attributes(data, at):
    """The (attribute, form, constant) up to the pair of zeros."""
    end, found = len(data), []
    while True:
        attribute, at = numbers.uleb(data, at, end)
        form, at = numbers.uleb(data, at, end)
        constant = None
        if form == forms.IMPLICIT_CONST:
            constant, at = numbers.sleb(data, at, end)
        if attribute == 0 and form == 0:
            return tuple(found), at
        found.append((attribute, form, constant))


def _table(data, at):
    if at > len(data):
        raise Missing
    table = {}
    while True:
        code, at = numbers.uleb(data, at, len(data))
        if code == 0:
            return table
        tag, at = numbers.uleb(data, at, len(data))
        children, at = numbers.fixed(data, at, len(data), 1)
        attributes, at = _attributes(data, at)
        # of two equal codes the first counts
        table.setdefault(code, Abbreviation(tag, children != 0, attributes))


class Tables:
    """The tables of one file, each read once."""

    def __init__(self, data):
        self.data, self.known = data, {}

    def at(self, offset):
        """The table by codes, or the code of a fault where it is damaged."""
        if offset not in self.known:
            try:
                self.known[offset] = _table(self.data, offset)
            except Missing:
                self.known[offset] = None
        if self.known[offset] is None:
            raise Code(faults.BAD_ABBREVIATION)
        return self.known[offset]
