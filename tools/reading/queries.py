"""The query that a line asks."""
import re

NAME, SIMPLE, ADDRESS, MAIN, CACHE = "name", "simple", "addr", "main", "cache"
HEX = re.compile(rb"[0-9a-fA-F]{1,16}")


def query_of(line):
    """(sort, what is asked), or None for a bad query."""
    if line in (b"main", b"cache"):
        return line.decode(), None
    word, space, rest = line.partition(b" ")
    if not space or not rest or b"\n" in rest:
        return None
    if word in (b"name", b"simple"):
        return word.decode(), rest
    if word == b"addr" and HEX.fullmatch(rest):
        return ADDRESS, int(rest, 16)
    return None
