"""What the program may write, by its command and its status."""
import re

CODES = {1: range(1, 25), 8: range(40, 58), 14: range(60, 65), 15: range(70, 75)}
STARTS = {1: b"refused", 8: b"index refused", 14: b"aranges refused", 15: b"files refused"}
LINES = {2: b"usage\n", 3: b"read fault\n", 4: b"store fault\n", 5: b"", 7: b"no memory\n", 9: b"too large\n",
         10: b"file too big\n", 12: b"already indexed\n", 13: b"too many sections\n"}
STATUSES = {"ask": (0, 1), "index": (0, 1, 9), "add": (0, 1, 9, 12, 13), "aranges": (0, 1, 14), "files": (0, 1, 15),
            "look": (0, 8), "cached": (0, 1, 9)}

FAULT = re.compile(rb"(index refused|aranges refused|files refused|refused|stale) ([1-9][0-9]?) (0|[1-9a-f][0-9a-f]{0,15})\n")
NUMBER, HEX = rb"(0|[1-9][0-9]*)", rb"(0|[1-9a-f][0-9a-f]*)"
KIND, SCOPE = rb"(type|variable|function|other)", rb"(static|global)"
ENTRY = NUMBER + b" " + HEX + b" " + HEX + b" " + KIND + b" " + SCOPE + b" (name|linkage) .*"
ELEMENT = NUMBER + rb" (type|variable|function|other|kind[0567]) " + SCOPE + b" .*"
HIT = rb"(compile|type|foreign) " + NUMBER + b" " + HEX + b" " + HEX + b" .*"
FILE = NUMBER + b" " + NUMBER + b" " + NUMBER + b" .*"
UNIT = re.compile(rb"none\n|unit " + NUMBER + rb"\n")
MAIN = re.compile(rb"none\n|main [1-9a-f][0-9a-f]{0,3} .*\n", re.DOTALL)
CACHE = re.compile(rb"cache [1-9][0-9]*\n")
COMPARED = re.compile(rb"agrees\n|differs " + HEX + rb" (none|" + NUMBER + rb") (none|" + NUMBER + rb")\n")


def _is_found(text, line):
    """Whether it is a count and as many lines; a name may have newlines of its own, so there may be more."""
    lines = text.split(b"\n")
    count = re.fullmatch(b"found " + NUMBER, lines[0])
    if count is None or not text.endswith(b"\n"):
        return False
    begun = sum(1 for each in lines[1:] if re.match(line, each, re.DOTALL))
    return len(lines) >= int(count.group(1)) + 2 and begun >= min(int(count.group(1)), len(lines) - 2)


def _is_answer(text, sort, line):
    if sort == "addr":
        return UNIT.fullmatch(text) is not None
    if sort == "main":
        return MAIN.fullmatch(text) is not None
    if sort == "cache":
        return CACHE.fullmatch(text) is not None
    return _is_found(text, line)


def _is_result(command, words, text):
    """Whether this may be written with status 0."""
    sorts = [word for word in words if word in ("name", "simple", "addr", "main", "cache")]
    if command == "ask":
        return _is_answer(text, sorts[0], ENTRY)
    if command == "look":
        return _is_answer(text, sorts[0], HIT if words[1] == "names" else ELEMENT)
    if command == "aranges":
        return COMPARED.fullmatch(text) is not None
    if command == "files":
        return _is_found(text, FILE)
    if command == "cached":
        rest = re.fullmatch(rb"(?:hit\n|(?:stale [0-9]+ [0-9a-f]+\n)?(?:stored|unsaved)\n)(.*)", text, re.DOTALL)
        return rest is not None and _is_answer(rest.group(1), sorts[0], ELEMENT)
    return text == b""


CONTROL = re.compile(rb"[\x00-\x09\x0b-\x1f\x7f]")


def _is_quoted(text):
    """Whether no control byte stands in a text with quoted names, and each line of what was found is one entry."""
    lines = text.split(b"\n")
    count = next((int(line[6:]) for line in lines[:3] if line.startswith(b"found ")), None)
    begun = next((place for place, line in enumerate(lines) if line.startswith(b"found ")), 0)
    return not CONTROL.search(text) and (count is None or len(lines) == begun + count + 2)


def wrong_with(words, status, text):
    """What is wrong with an answer by itself, or None."""
    command = words[0]
    if status is None:
        return "no end"
    if status not in STATUSES[command]:
        return "status %d" % status
    if status == 0 and "--quote" in words and not _is_quoted(text):
        return "a name that isn't quoted"
    if status == 0:
        return None if _is_result(command, words, text) else "a text that isn't one of its command"
    if status in LINES:
        return None if text == LINES[status] else "another line than that of its status"
    fault = FAULT.fullmatch(text)
    if fault is None or fault.group(1) != STARTS[status] or int(fault.group(2)) not in CODES[status]:
        return "another line than that of its status"
    return None
