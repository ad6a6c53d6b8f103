"""The decoded names of Ada, as GNAT codes them."""
import re

PREFIX = b"_ada_"
OVERLOADED = re.compile(rb"(.+)__[0-9]+", re.DOTALL)
PIECE = re.compile(rb"[a-z]([a-z0-9_]*[a-z0-9])?")


def pieces_of(name):
    """The pieces of the name, or None where they aren't all well formed."""
    left = name[len(PREFIX):] if name.startswith(PREFIX) else name
    numbered = OVERLOADED.fullmatch(left)
    if numbered:
        left = numbered.group(1)
    pieces = left.split(b"__")
    return pieces if all(PIECE.fullmatch(piece) for piece in pieces) else None


def decoded(name):
    """(the decoded name, its last piece); both are the name as it stands where it isn't such a name."""
    pieces = pieces_of(name)
    return (b".".join(pieces), pieces[-1]) if pieces else (name, name)
