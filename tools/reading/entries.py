"""The entries of a program: the names of its indexed items (DWARF 5, 6.1.1.1)."""
from . import ada_names, attributes, faults, limits, rules
from .faults import Code, Fault
from .languages import ADA, CXX, class_of


class Entry:
    """`tail` is the length of the simple name, which is the end of the name."""

    __slots__ = ("item", "unit", "offset", "tag", "kind", "static", "linkage", "name", "tail")

    def simple(self):
        return self.name[len(self.name) - self.tail:]


def _names(name, scope, language_class):
    """The qualified name of an indexed item and the length of its simple name, or the code of a name that is too long."""
    if language_class == ADA:
        qualified, simple = ada_names.decoded(name)
        length = len(qualified)
    else:
        qualified, simple = name, name
        length = len(name) + (scope.length if scope and language_class == CXX else 0)
    if length > limits.NAME:
        raise Code(faults.NAME_TOO_LONG)
    if language_class == CXX and scope:
        qualified = b"::".join(scope.components() + [name])
    return qualified, len(simple)


def _entry(item, followed, qualified, tail, language_class):
    entry = Entry()
    entry.item, entry.unit, entry.offset, entry.tag = item, item.unit.number, item.offset, item.tag
    entry.kind = rules.KINDS[item.tag]
    entry.static = rules.is_static(item, language_class, followed.external)
    entry.linkage, entry.name, entry.tail = False, qualified, tail
    return entry


def _linkage_entry(own, followed):
    entry = Entry()
    for field in ("item", "unit", "offset", "tag", "kind", "static"):
        setattr(entry, field, getattr(own, field))
    entry.linkage, entry.name, entry.tail = True, followed.linkage, 0
    return entry


def _entries_for(links, item, language_class):
    """The entries of one item whose references are followed: none, one, or one with its linkage entry."""
    followed = links.follow(item)
    scope = links.scope_of(item)
    if not rules.is_indexed(item, followed.name):
        return []
    qualified, tail = _names(followed.name, scope, language_class)
    own = _entry(item, followed, qualified, tail, language_class)
    has_linkage = item.tag in (rules.SUBPROGRAM, rules.VARIABLE_TAG) and followed.linkage not in (None, qualified)
    return [own, _linkage_entry(own, followed)] if has_linkage else [own]


def entries_of(walks, languages, links):
    """All entries in section order, or the first fault of the references."""
    entries = []
    for unit, items in walks:
        language_class = class_of(languages[unit.number])
        rules.mark_visited(items, language_class)
        for item in items:
            if not item.followed:
                continue
            try:
                entries += _entries_for(links, item, language_class)
            except Code as fault:
                raise Fault(fault.code, item.offset) from None
    return entries


def main_of(entries, languages):
    """(language, qualified name) of the main program, or None."""
    own = [entry for entry in entries if not entry.linkage and languages[entry.unit]]
    main = next((entry for entry in own if attributes.says_main(entry.item)), None)
    if main is None:
        main = next((entry for entry in own if _is_called_main(entry, languages)), None)
    return None if main is None else (languages[main.unit], main.name)


def _is_called_main(entry, languages):
    of_class = class_of(languages[entry.unit])
    return entry.tag == rules.SUBPROGRAM and not entry.static and entry.name == b"main" and of_class in ("C", CXX)
