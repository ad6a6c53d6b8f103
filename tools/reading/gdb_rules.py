"""Which items gdb lists in its own `.gdb_index`, as what and how its names are joined: the rules of a class, a tag and an abbreviation.

They are those of gdb 13 and 16 (gdb/dwarf2/read.c, abbrev.c, cooked-index.c, index-write.c); docs/GDB.md has them in words. Where the
two differ 16's form stands here."""
import re

from . import attributes
from .rules import FUNCTION, OTHER, TYPE, VARIABLE

C, CXX, ADA, RUST, D, GO, FORTRAN, ANY = "C", "C++", "Ada", "Rust", "D", "Go", "Fortran", "any"
CLASSES = {**dict.fromkeys((0x01, 0x02, 0x0C, 0x12, 0x1D, 0x2C, 0x3E), C),
           **dict.fromkeys((0x04, 0x0B, 0x1A, 0x21, 0x2A, 0x2B, 0x3A), CXX),
           **dict.fromkeys((0x03, 0x0D, 0x2E, 0x2F), ADA),
           **dict.fromkeys((0x1C, 0x9000), RUST), 0x13: D, 0x16: GO,
           **dict.fromkeys((0x07, 0x08, 0x0E, 0x22, 0x23, 0x2D, 0x3F), FORTRAN)}
SEPARATORS = {CXX: b"::", RUST: b"::", D: b".", GO: b".", ADA: b"."}
GO_COMPILER = b"GNU Go "
# One word stands as it is, but for these.
WORD = re.compile(rb"[A-Za-z_][A-Za-z0-9_]*")
ALONE = (b"signed", b"unsigned")
PRODUCER, EXTENSION = 0x25, 0x54

ENTRY_POINT, ENUMERATION, IMPORTED_DECLARATION, INLINED_SUBROUTINE, MODULE = 0x03, 0x04, 0x08, 0x1D, 0x1E
CONSTANT, ENUMERATOR, SUBPROGRAM, VARIABLE_TAG, NAMESPACE, GENERIC_SUBRANGE = 0x27, 0x28, 0x2E, 0x34, 0x39, 0x45
CLASS, STRUCTURE, UNION, INTERFACE = 0x02, 0x13, 0x17, 0x38
RECORDS = (CLASS, STRUCTURE, UNION, INTERFACE)
TYPES = (0x01, 0x12, 0x15, 0x16, 0x1F, 0x20, 0x21, 0x24, 0x3B, ENUMERATION, NAMESPACE) + RECORDS
# gdb 13 calls these types, gdb 16 gives them no kind of their own
BOTH = (IMPORTED_DECLARATION, INLINED_SUBROUTINE, GENERIC_SUBRANGE)
KINDS = {**dict.fromkeys(TYPES, (TYPE,)), **dict.fromkeys((VARIABLE_TAG, CONSTANT, ENUMERATOR), (VARIABLE,)),
         **dict.fromkeys((SUBPROGRAM, ENTRY_POINT), (FUNCTION,)), MODULE: (OTHER,), **dict.fromkeys(BOTH, (TYPE, OTHER))}
ORIGINS = (attributes.SPECIFICATION, attributes.ABSTRACT_ORIGIN, EXTENSION)
NAMES = (attributes.NAME, attributes.LINKAGE_NAME, attributes.OLD_LINKAGE_NAME)
# what is listed by its linkage name where it has no other
CALLED = (SUBPROGRAM, INLINED_SUBROUTINE, ENTRY_POINT)
# what may be declared and still gives its name to what stands in it
DECLARED_SCOPES = (CLASS, STRUCTURE, UNION, NAMESPACE)


def may_change(language_class, name):
    """Whether gdb may spell a name otherwise than it stands."""
    if language_class == C:
        return b" " in name or name in ALONE
    return language_class == CXX and (name in ALONE or not WORD.fullmatch(name))


def class_of(language, producer):
    return GO if producer and GO_COMPILER in producer else CLASSES.get(language, ANY)


def is_declared(item):
    """A variable that is external is looked at all the same."""
    external = item.tag == VARIABLE_TAG and attributes.has_flag(item, attributes.EXTERNAL)
    return attributes.has_flag(item, attributes.DECLARATION) and not external


def gives_scope_alone(item):
    """Whether it isn't listed itself, but gives its name to what stands in it."""
    return is_declared(item) and item.tag in DECLARED_SCOPES and item.children


def counts(item):
    """Whether gdb looks at such an item wherever it comes to it (abbrev.c, `abbrev_table::read`, which asks the abbreviation)."""
    if item.tag not in (NAMESPACE, ENUMERATION) and all(item.first(attribute) is None for attribute in NAMES + ORIGINS):
        return False
    return item.tag in KINDS and (not is_declared(item) or gives_scope_alone(item))


def has_local_subprograms(language_class):
    """Whether subprograms are sought in subprograms, too."""
    return language_class in (ADA, FORTRAN)


def is_static(item, language_class, external):
    if external or item.tag in (NAMESPACE, MODULE):
        return False
    if language_class == CXX and item.tag in RECORDS + (ENUMERATION, ENUMERATOR):
        return False
    return not (item.tag == SUBPROGRAM and has_local_subprograms(language_class))
