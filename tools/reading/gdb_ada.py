"""The names of Ada as gdb reads them in a program and writes them into an index (gdb/ada-lang.c, `ada_decode` without operators and
wide characters, `ada_encode`)."""
import re

SUFFIX = re.compile(rb"(.+)\.([A-Za-z]*)", re.DOTALL)
DIGITS = re.compile(rb"(.*?)(?:\.|\$|___|__)[0-9]+", re.DOTALL)
LATE_DIGITS = re.compile(rb"(.*?)(?:__[0-9]+(?:_[0-9]+)*|\$[0-9]+(?:_[0-9]+)*)", re.DOTALL)
UNPROTECTED = re.compile(rb".*[0-9a-z]N", re.DOTALL)
BLOCK = re.compile(rb"__B_[0-9]+(?=__.)", re.DOTALL)
ENTRY = re.compile(rb"_E[0-9]+[bs](?=_|$)")
PROTECTED = re.compile(rb"(^|.*__)[0-9a-z]*$", re.DOTALL)
NESTED = re.compile(rb"X[bn]*")
WRITTEN_SUFFIX = re.compile(rb"\[([A-Za-z]*)\]?$")


def _without_digits(name):
    found = DIGITS.fullmatch(name)
    return found.group(1) if found else name


def _without_ends(name):
    """The name without what the compiler put behind it, or None where it can't be decoded."""
    name = _without_digits(name)
    if UNPROTECTED.fullmatch(name):
        name = name[:-1]
    three = name.find(b"___")
    if 0 <= three < len(name) - 3:
        if name[three + 3:three + 4] != b"X":
            return None
        name = name[:three]
    for end in (b"TKB", b"TB", b"B"):
        if name.endswith(end) and len(name) > len(end):
            name = name[:-len(end)]
    found = LATE_DIGITS.fullmatch(name)
    return found.group(1) if found else name


def _skipped(name, at):
    """The place behind what stands at a place and isn't part of the decoded name."""
    if name.startswith(b"TK__", at) and at < len(name) - 4:
        at += 2
    for pattern in (BLOCK, ENTRY):
        found = pattern.match(name, at)
        at = found.end() if found else at
    if name.startswith(b"N__", at) and PROTECTED.match(name[:at]):
        at += 1
    return at


def _pieces(name):
    """The name with a point for each `__`, or None."""
    first = next((place for place, byte in enumerate(name) if bytes((byte,)).isalpha()), len(name))
    out, at = bytearray(name[:first]), first
    while at < len(name):
        at = _skipped(name, at)
        if name[at:at + 1] == b"X" and at and name[at - 1:at].isalnum():
            return bytes(out) if NESTED.fullmatch(name, at) else None
        double = name.startswith(b"__", at) and at < len(name) - 2
        out += b"." if double else name[at:at + 1]
        at += 2 if double else 1
    return bytes(out)


def _whole(name):
    """The name without what stands before it."""
    name = name[1:] if name.startswith(b".") else name
    for prefix in (b"_ada_", b"___ghost_"):
        name = name[len(prefix):] if name.startswith(prefix) else name
    return name


def inner_part(name):
    """What is left of a name between what stands around it and at its end, or None where it isn't one of Ada's coding."""
    name = _whole(name)
    if name[:1] in (b"_", b"<", b""):
        return None
    suffix = SUFFIX.fullmatch(name)
    return _without_ends(suffix.group(1) if suffix else name)


def decoded(name):
    """The decoded name, or None where it isn't one of Ada's coding."""
    inner, suffix = inner_part(name), SUFFIX.fullmatch(_whole(name))
    pieces = None if inner is None else _pieces(inner)
    if pieces is None:
        return None
    return pieces + (b"[" + suffix.group(2) + b"]" if suffix else b"") or None


def encoded(name):
    """How a decoded name stands in an index."""
    suffix = WRITTEN_SUFFIX.search(name)
    if suffix:
        return name[:suffix.start()].replace(b".", b"__") + b"." + suffix.group(1)
    return name.replace(b".", b"__")
