"""Which items are visited and indexed, their kind, and whether they are static (GDB manual, "Index Section Format")."""
from . import attributes
from .languages import ADA, CXX

TYPE, VARIABLE, FUNCTION, OTHER = 1, 2, 3, 4
KIND_WORDS = {TYPE: b"type", VARIABLE: b"variable", FUNCTION: b"function", OTHER: b"other"}

NAMESPACE, SUBPROGRAM, ENUMERATION, ENUMERATOR, VARIABLE_TAG, CONSTANT = 0x39, 0x2E, 0x04, 0x28, 0x34, 0x27
RECORDS = (0x02, 0x13, 0x17, 0x38)
PLAIN_TYPES = (0x16, 0x24, 0x21)
OPEN = (NAMESPACE, ENUMERATION) + RECORDS

KINDS = {NAMESPACE: TYPE, ENUMERATION: TYPE, ENUMERATOR: VARIABLE, SUBPROGRAM: FUNCTION, VARIABLE_TAG: VARIABLE,
         CONSTANT: VARIABLE, **dict.fromkeys(RECORDS + PLAIN_TYPES, TYPE)}


def mark_visited(items, language_class):
    """Says of each item of a unit whether it is visited, and whether its references are followed."""
    opens = OPEN + (SUBPROGRAM,) if language_class == ADA else OPEN
    for item in items:
        parent = item.parent
        item.visited = parent is not None and (parent.is_root() or parent.visited and parent.tag in opens)
        item.followed = item.visited and item.tag in KINDS


def _allowed(item):
    """Whether the row of the item's tag allows it."""
    if item.tag == SUBPROGRAM:
        return attributes.has_address(item)
    if item.tag == VARIABLE_TAG:
        return item.first(attributes.LOCATION) is not None or item.first(attributes.CONST_VALUE) is not None
    if item.tag == CONSTANT:
        return item.first(attributes.CONST_VALUE) is not None
    return True


def is_indexed(item, name):
    """Whether a followed item with this name, or none, is indexed."""
    return name is not None and not attributes.has_flag(item, attributes.DECLARATION) and _allowed(item)


def is_static(item, language_class, external):
    if item.tag in PLAIN_TYPES:
        return True
    if item.tag in RECORDS or item.tag in (ENUMERATION, ENUMERATOR):
        return language_class != CXX
    if item.tag == SUBPROGRAM:
        return not external and language_class != ADA
    return item.tag != NAMESPACE and not external
