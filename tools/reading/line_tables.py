"""The files of line tables (DWARF 5, 6.2.4; DWARF 4, 6.2.4).  Directories aren't joined, and line programs aren't read."""
from . import attributes, faults, numbers
from .faults import Code, Fault
from .numbers import Missing

PATH, DIRECTORY = 1, 2
FIXED = {0x0B: 1, 0x05: 2, 0x06: 4, 0x07: 8, 0x1E: 16}
STRING, BLOCK, UDATA = 0x08, 0x09, 0x0F
STRING_SECTIONS = {0x0E: b".debug_str", 0x1F: b".debug_line_str"}
PATH_FORMS = (STRING, *STRING_SECTIONS)
DIRECTORY_FORMS = (0x0B, 0x05, 0x06, 0x07, UDATA)
FORMS = (*FIXED, *PATH_FORMS, BLOCK, UDATA)


class Table:
    """The table at a place of `.debug_line`.  `files` are (index, directory, path)."""

    def __init__(self, sections, at):
        self.sections, self.data = sections, sections.get(b".debug_line")
        try:
            (length, self.wide), self.at = numbers.initial_length(self.data, at, len(self.data))
            self.end = numbers.skip(self.at, len(self.data), length)
        except Missing:
            raise Code(faults.LINES_LENGTH) from None
        try:
            self.version = self._number(2)
        except Missing:
            self.version = None
        if self.version not in (2, 3, 4, 5):
            raise Code(faults.LINES_VERSION)
        try:
            self.files = self._files()
        except Missing:
            raise Code(faults.LINES_FIELDS) from None

    def _number(self, size):
        value, self.at = numbers.fixed(self.data, self.at, self.end, size)
        return value

    def _uleb(self):
        value, self.at = numbers.uleb(self.data, self.at, self.end)
        return value

    def _string(self):
        text, self.at = numbers.zstr(self.data, self.at, self.end)
        return text

    def _files(self):
        if self.version == 5:
            self._number(1)
            self._number(1)
        self._number(numbers.offset_size(self.wide))
        # up to line_range; from version 4 on there is one field more
        for _ in range(4 if self.version < 4 else 5):
            self._number(1)
        opcode_base = self._number(1)
        self.at = numbers.skip(self.at, self.end, max(opcode_base - 1, 0))
        if self.version == 5:
            self._entries()
            return list(enumerate_from(0, self._entries()))
        while self._string():
            pass
        return list(enumerate_from(1, self._old_files()))

    def _old_files(self):
        found = []
        while True:
            path = self._string()
            if not path:
                return found
            directory = self._uleb()
            self._uleb()
            self._uleb()
            found.append((directory, path))

    def _formats(self):
        """(content, form) of each value of an entry; a content that came before is none."""
        found = []
        for _ in range(self._number(1)):
            content, form = self._uleb(), self._uleb()
            if content in (PATH, DIRECTORY) and content in [each for each, _ in found]:
                content = None
            allowed = {PATH: PATH_FORMS, DIRECTORY: DIRECTORY_FORMS}.get(content, FORMS)
            if form not in allowed:
                raise Code(faults.LINES_FORM)
            found.append((content, form))
        return found

    def _entries(self):
        formats = self._formats()
        count = self._uleb()
        if count and not formats:
            raise Missing
        found = []
        for _ in range(count):
            said = {content: self._value(content, form) for content, form in formats}
            found.append((said.get(DIRECTORY, 0), said.get(PATH, b"")))
        return found

    def _value(self, content, form):
        if form in FIXED:
            return self._number(FIXED[form])
        if form == STRING:
            return self._string()
        if form == UDATA:
            return self._uleb()
        if form == BLOCK:
            count = self._uleb()
            self.at = numbers.skip(self.at, self.end, count)
            return None
        offset = self._number(numbers.offset_size(self.wide))
        return self._text(STRING_SECTIONS[form], offset) if content == PATH else None

    def _text(self, section, offset):
        data = self.sections.get(section)
        try:
            return numbers.zstr(data, offset, len(data))[0]
        except Missing:
            raise Code(faults.LINES_PATH) from None


def enumerate_from(first, files):
    return ((index, directory, path) for index, (directory, path) in enumerate(files, first))


def is_match(path, name):
    return path == name or path.rpartition(b"/")[2] == name


def files_named(program, name):
    """(unit, index, directory, path) of each file that the name is of, or the fault of the first unit that has one."""
    found, tables = [], {}
    for unit, items in program.walks:
        place = attributes.line_offset(items[0]) if items else None
        if place is None:
            continue
        try:
            if place not in tables:
                tables[place] = [file for file in Table(program.sections, place).files if is_match(file[2], name)]
        except Code as fault:
            raise Fault(fault.code, unit.joint) from None
        found += [(unit.number, *file) for file in tables[place]]
    return found
