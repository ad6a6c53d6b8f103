"""The first thing that is wrong with a file: a code and a place."""

NOT_ELF, ELF_KIND, SECTION_TABLE, COMPRESSED, NO_DEBUG_INFO = 1, 2, 3, 4, 5
UNIT_LENGTH, UNIT_VERSION, UNIT_TYPE, ADDRESS_SIZE = 6, 7, 8, 9
BAD_ABBREVIATION, TRUNCATED, UNKNOWN_FORM, BAD_STRING, NO_BASE, BAD_RANGE = 10, 11, 12, 13, 14, 15
BAD_REFERENCE, REFERENCE_CHAIN, SUPPLEMENTARY, BAD_CODE, BAD_ROOT, DEPTH = 16, 17, 18, 19, 20, 21
TOO_MANY_UNITS, TRAILING_BYTES, NAME_TOO_LONG = 22, 23, 24
GDB_VERSION, GDB_OFFSETS, GDB_UNIT_LIST, GDB_ADDRESS_AREA = 40, 41, 42, 43
GDB_TABLE_SIZE, GDB_BAD_NAME, GDB_BAD_VECTOR, GDB_LOST_SLOT = 44, 45, 46, 47
NAMES_LENGTH, NAMES_VERSION, NAMES_COUNTS, NAMES_ABBREVIATION = 50, 51, 52, 53
NAMES_BUCKET, NAMES_HASH, NAMES_STRING_OFFSET, NAMES_ENTRY_POOL = 54, 55, 56, 57
ARANGES_LENGTH, ARANGES_VERSION, ARANGES_UNIT, ARANGES_SIZES, ARANGES_NO_END = 60, 61, 62, 63, 64
LINES_LENGTH, LINES_VERSION, LINES_FIELDS, LINES_FORM, LINES_PATH = 70, 71, 72, 73, 74
KEPT_HEADER, KEPT_BUILD_ID, KEPT_TOO_LARGE = 80, 81, 82


class Fault(Exception):
    """A code and the place that it stands at."""

    def __init__(self, code, place):
        super().__init__(code, place)
        self.code, self.place = code, place


class Code(Exception):
    """A code whose place only the caller knows."""

    def __init__(self, code):
        super().__init__(code)
        self.code = code
