"""The language of a unit and its class (DWARF 5, 3.1.1, 3.2.5 and 7.12; the classes are the project's own)."""
from . import attributes, forms

C, CXX, ADA, PLAIN = "C", "C++", "Ada", "plain"
CLASSES = {**dict.fromkeys((0x01, 0x02, 0x0C, 0x1D, 0x2C), C),
           **dict.fromkeys((0x04, 0x19, 0x1A, 0x21, 0x2A, 0x2B), CXX),
           **dict.fromkeys((0x03, 0x0D, 0x2E, 0x2F), ADA)}
PARTIAL_UNIT, IMPORTED_UNIT = 0x3C, 0x3D


def class_of(language):
    return CLASSES.get(language, PLAIN)


def own_language(items):
    """What the root says itself: None where it says no language, 0 for one above 65,535."""
    says = attributes.constant(items[0], attributes.LANGUAGE) if items else None
    return 0 if says is not None and says > 65535 else says


def target_of(unit, reference, info_length):
    """The joint offset that a reference names, or None where it lies outside of what its form names."""
    sort, says = reference
    if sort == forms.FAR:
        return says if says < info_length else None
    return unit.joint + says if says < unit.end - unit.start else None


def _imports(walks, info_length):
    """Of each offset that a unit with a language of its own imports, the language of the first such unit."""
    found = {}
    for unit, items in walks:
        language = own_language(items)
        if language is None:
            continue
        for item in items:
            reference = attributes.import_reference(item) if item.tag == IMPORTED_UNIT else None
            if reference is not None:
                found.setdefault(target_of(unit, reference, info_length), language)
    return found


def languages_of(walks, info_length):
    """The language of each unit, by its number."""
    imported = _imports(walks, info_length)
    languages = []
    for _, items in walks:
        language = own_language(items)
        if language is None and items and items[0].tag == PARTIAL_UNIT:
            language = imported.get(items[0].offset)
        languages.append(language or 0)
    return languages
