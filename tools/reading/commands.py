"""What the program has to write and store for a command line, and its status."""
from . import faults, kept, queries, texts, words
from .added import AlreadyIndexed, TooManySections, index_of_kind, with_index
from .addresses import unit_at
from .address_table import first_difference
from .faults import Fault
from .gdb_entries import Unspelled
from .gdb_index import TooLarge, gdb_index_bytes
from .gdb_index_read import GdbIndex
from .line_tables import files_named
from .name_index_read import NameIndex
from .program import built, open_program
from .shelves import ReadFailed, StoreFailed, TooBig


class Unread(Exception):
    """A command whose answer no reading gives."""


class Ended(Exception):
    """A status other than 0, and its line."""

    def __init__(self, status, line):
        super().__init__(status, line)
        self.status, self.line = status, line


def _refuse(status, start, fault):
    return Ended(status, b"%s %d %x\n" % (start, fault.code, fault.place))


def _built(file):
    try:
        return built(file)
    except Fault as fault:
        raise _refuse(1, b"refused", fault) from None


def _size(program):
    try:
        return len(gdb_index_bytes(program, 8))
    except TooLarge:
        return None


def _spelling(task):
    return texts.quoted if task.options["--quote"] else texts.as_stands


def _ask(task, shelf):
    program = _built(shelf.read(task.files[0]))
    spelled = _spelling(task)
    sort, asked = task.query
    if sort == queries.NAME:
        return texts.of_found([texts.of_entry(entry, spelled) for entry in program.entries if entry.name == asked])
    if sort == queries.SIMPLE:
        named = [entry for entry in program.entries if not entry.linkage and entry.simple() == asked]
        return texts.of_found([texts.of_entry(entry, spelled) for entry in named])
    if sort == queries.ADDRESS:
        return texts.of_unit(unit_at(program.pieces, asked))
    return texts.of_main(program.main, spelled) if sort == queries.MAIN else texts.of_cache(_size(program))


def _index(task, shelf):
    name, out = task.files
    program = _built(shelf.read(name))
    try:
        index, strings = index_of_kind(program, task.options["--as"], task.options["--rules"])
    except Unspelled:
        raise Unread from None
    shelf.store(out, index)
    if strings is not None:
        shelf.store(out + ".debug_str", strings)
    return b""


def _add(task, shelf):
    name, out = task.files
    program = _built(shelf.read(name))
    try:
        shelf.store(out, with_index(program, task.options["--as"], task.options["--rules"]))
    except Unspelled:
        raise Unread from None
    except AlreadyIndexed:
        raise Ended(12, b"already indexed\n") from None
    except TooManySections:
        raise Ended(13, b"too many sections\n") from None
    return b""


def _aranges(task, shelf):
    program = _built(shelf.read(task.files[0]))
    try:
        return texts.of_difference(first_difference(program))
    except Fault as fault:
        raise _refuse(14, b"aranges refused", fault) from None


def _files(task, shelf):
    name, asked = task.files
    program = _built(shelf.read(name))
    try:
        return texts.of_found([texts.of_file(*file) for file in files_named(program, asked.encode())])
    except Fault as fault:
        raise _refuse(15, b"files refused", fault) from None


def _answer_of_index(index, task):
    sort, asked = task.query
    spelled = _spelling(task)
    if sort == queries.NAME:
        return texts.of_found([texts.of_element(element, spelled(asked)) for element in index.elements(asked)])
    return texts.of_unit(index.unit_at(asked)) if sort == queries.ADDRESS else texts.of_main(index.main, spelled)


def _look_gdb(task, shelf):
    try:
        index = GdbIndex(shelf.read(task.files[0]))
    except Fault as fault:
        raise _refuse(8, b"index refused", fault) from None
    return _answer_of_index(index, task)


def _look_names(task, shelf):
    data, strings = map(shelf.read, task.files)
    try:
        index = NameIndex(data, strings, task.options["--base"])
    except Fault as fault:
        raise _refuse(8, b"index refused", fault) from None
    asked = task.query[1]
    return texts.of_found([texts.of_hit(hit, _spelling(task)(asked)) for hit in index.hits(asked)])


def _kept(build_id, name, shelf):
    """(the kept index or None, the line that says why it is stale)."""
    try:
        return kept.open_kept(shelf.read(name), build_id), b""
    except ReadFailed:
        return None, b""
    except TooBig:
        return None, b"stale %d 0\n" % faults.KEPT_TOO_LARGE
    except Fault as fault:
        return None, b"stale %d %x\n" % (fault.code, fault.place)


def _cached(task, shelf):
    file = shelf.read(task.files[0])
    try:
        program = open_program(file)
    except Fault as fault:
        raise _refuse(1, b"refused", fault) from None
    build_id, index, stale = kept.build_id_of(program.sections), None, b""
    if build_id is not None:
        name = kept.cache_name(task.files[1], build_id)
        index, stale = _kept(build_id, name, shelf)
    if index is not None:
        return b"hit\n" + _answer_of_index(index, task)
    made, stored = gdb_index_bytes(_built(file), 9), False
    if build_id is not None:
        try:
            shelf.store(name, kept.kept_bytes(build_id, made))
            stored = True
        except StoreFailed:
            pass
    return stale + (b"stored\n" if stored else b"unsaved\n") + _answer_of_index(GdbIndex(made), task)


COMMANDS = {"ask": _ask, "index": _index, "add": _add, "aranges": _aranges, "files": _files, "cached": _cached,
            "look gdb": _look_gdb, "look names": _look_names}


def run(line, shelf):
    """(status, what is written) of the words of a command line."""
    task = words.task_of(list(line))
    if task is None:
        return 2, b"usage\n"
    if task.command not in COMMANDS:
        raise Unread(task.command)
    try:
        return 0, COMMANDS[task.command](task, shelf)
    except Ended as ended:
        return ended.status, ended.line
    except ReadFailed:
        return 3, b"read fault\n"
    except StoreFailed:
        return 4, b"store fault\n"
    except TooLarge:
        return 9, b"too large\n"
    except TooBig:
        return 10, b"file too big\n"
