"""The grammar of a command line."""
import re
from collections import namedtuple

from . import limits, queries

Task = namedtuple("Task", "command options files query")
NUMBER = re.compile(r"0|[1-9][0-9]*", re.ASCII)
KINDS = ("gdb8", "gdb9", "names")
GDB_RULES = "gdb"
ALL_QUERIES = (queries.NAME, queries.SIMPLE, queries.ADDRESS, queries.MAIN, queries.CACHE)
GDB_QUERIES = (queries.NAME, queries.ADDRESS, queries.MAIN)


def _number(least, most):
    def read(word):
        if not NUMBER.fullmatch(word) or not least <= int(word[:20]) <= most:
            return None
        return int(word)
    return read


def _kind(word):
    return word if word in KINDS else None


def _rules(word):
    return word if word == GDB_RULES else None


WORKERS = ("--workers", _number(1, limits.WORKERS), 4)
AS = ("--as", _kind, None)
RULES = ("--rules", _rules, "")
QUOTE = ("--quote", None, False)

# Of each command its options in their order, each with how its value is read (None where it has none) and its default (None where
# it must be there), how many file names follow, and which queries it offers.
GRAMMAR = {
    "ask": ((WORKERS, QUOTE), 1, ALL_QUERIES),
    "index": ((AS, RULES, WORKERS), 2, None),
    "add": ((AS, RULES, WORKERS), 2, None),
    "aranges": ((WORKERS,), 1, None),
    "files": ((WORKERS,), 2, None),
    "cached": ((WORKERS, QUOTE), 2, GDB_QUERIES),
    "look gdb": ((QUOTE,), 1, GDB_QUERIES),
    "look names": ((("--base", _number(0, 2 ** 32 - 1), 0), QUOTE), 2, (queries.NAME,)),
    "serve": ((WORKERS, ("--wait", _number(0, 3), 0), QUOTE), 1, None),
    "race": ((WORKERS, ("--readers", _number(1, 16), 2), QUOTE), 2, None),
}


def _options(rows, words):
    """(the options, the words behind them), or None."""
    options = {}
    for name, read, default in rows:
        if words[:1] == [name] and read is None:
            options[name], words = True, words[1:]
        elif words[:1] == [name] and len(words) > 1:
            options[name], words = read(words[1]), words[2:]
        else:
            options[name] = default
        if options[name] is None:
            return None
    return options, words


def _is_file_name(word):
    return bool(word) and not word.startswith("--")


def _drill(words):
    readers = _number(0, 2 ** 32 - 1), _number(1, 100_000), _number(1, limits.WORKERS)
    values = [read(word) for read, word in zip(readers, words)]
    return Task("drill", {}, values, None) if len(words) == 3 and None not in values else None


def task_of(words):
    """What the words ask for; None where they aren't in the grammar."""
    if words[:1] == ["drill"]:
        return _drill(words[1:])
    size = 2 if words[:1] == ["look"] else 1
    command = " ".join(words[:size])
    if command not in GRAMMAR or len(words) < size or " " in "".join(words[:size]):
        return None
    rows, file_count, offered = GRAMMAR[command]
    read = _options(rows, list(words[size:]))
    if read is None:
        return None
    options, rest = read
    if options.get("--rules") and options["--as"] == "names":
        return None
    files, rest = rest[:file_count], rest[file_count:]
    if len(files) < file_count or not all(map(_is_file_name, files)):
        return None
    query = None
    if offered is not None:
        query = queries.query_of(" ".join(rest).encode())
        if query is None or query[0] not in offered:
            return None
    elif rest:
        return None
    return Task(command, options, files, query)
