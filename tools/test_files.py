#!/usr/bin/env python3
"""Writes the small files that the tests go through, as the constants of the crate test_files.

    test_files.py           writes them anew
    test_files.py --check   says which of them are not what it would write; status 1 where there are some

A program or an index is that of a row in rows/vectors (gen_vectors.py says what a row is), whose `stdout` says what is to be found in
it. A generated file is what generated.py writes of a seed and a number of units."""
import os
import re
import sys

import gen_vectors
import generated

FOLDER = os.path.join(gen_vectors.CRATES, 'test_files/src')
WRITTEN = '// Written by tools/test_files.py; not to be changed by hand.\n'

# constant, row, file of the row, what it shows
PROGRAMS = [
    ('PLAIN', 'gdb8_of_file_a', 'A', 'A C unit with one function, `main`, with external linkage.'),
    ('STRINGS_BY_OFFSET', 'c_compiler_file_int', 'A', 'A C unit whose strings stand in `.debug_str` and in `.debug_line_str`.'),
    ('STRINGS_BY_INDEX', 'indexed_name_before_its_base', 'A', 'A unit whose name is an index into `.debug_str_offsets` and stands before the base.'),
    ('THREE_UNITS', 'method_over_three_units_by_name_1_workers', 'A',
     'Three units of C++: a method that is declared in a class of one, specified in another and made in the third.'),
    ('TWO_DAMAGED_UNITS', 'two_damaged_units_the_first_counts', 'A', 'Ten units, of which the third and the eighth have a fault.'),
    ('PARTIAL_UNIT', 'nested_in_a_partial_unit_1_workers', 'A', 'A partial unit without a language, and one of Ada that imports it.'),
    ('ANONYMOUS_NAMESPACE', 'anonymous_namespace', 'A', 'A function in a namespace without a name.'),
    ('LINKAGE_NAME', 'linkage_name_asked_by_name', 'A', 'A function with a linkage name.'),
    ('ADA_NAME', 'ada_decodes_a__b__c__12_by_name', 'A', 'A subprogram of Ada whose name is coded.'),
    ('MAIN_MARK', 'main_mark_before_the_name_main', 'A', 'A function that is marked as the main program.'),
    ('TWO_RANGES', 'address_two_pairs_1007_inside', 'A', 'A unit whose root has two ranges.'),
    ('ADDRESS_TABLE', 'aranges_too_short', 'A', '`PLAIN` with an address table that has the first half of its unit alone.'),
    ('WITH_BUILD_ID', 'cached_first_run', 'A', '`PLAIN` with the build-id ab01.'),
    ('FILES_OF_VERSION_4', 'files_by_name', 'A', 'A unit whose line table names two files, version 4.'),
    ('FILES_OF_VERSION_5', 'files_path_in_debug_line_str', 'A', 'A unit whose line table names files by `.debug_line_str`, version 5.'),
    ('FILES_OF_THREE_UNITS', 'files_in_three_units', 'A', 'Three units with files. The first two have one line table.'),
    ('DAMAGED_LINE_TABLES', 'files_first_damaged_table_counts', 'A', 'Three units with line tables. That of the second begins past its section, that of the third has version 6.'),
    ('PLAIN_WITH_GDB8', 'add_gdb8', 'expect/X', '`PLAIN` with its `.gdb_index`, version 8.'),
]

INDEXES = [
    ('GDB8', 'look_gdb8_main', 'X', 'The `.gdb_index` of `PLAIN`, version 8.'),
    ('GDB9', 'look_gdb9_main', 'X', 'The `.gdb_index` of `PLAIN`, version 9.'),
    ('KEPT', 'cached_first_run', 'expect/c_ab01.gdb-index', 'The `.gdb_index` of `WITH_BUILD_ID`, version 9, kept by its build-id.'),
    ('NAMES', 'look_names_name', 'X', 'The `.debug_names` of `PLAIN`, whose strings begin at the end of a `.debug_str` without bytes.'),
]

# constant, seed, units
GENERATED = [('SEED_7_UNITS_3', 7, 3)]


def bytes_of(row, name):
    return gen_vectors.read(os.path.join(gen_vectors.ROWS, row, name))


def literal(data):
    """The bytes as a byte string of short lines."""
    signs = {0: '\\0', 34: '\\"', 92: '\\\\'}
    lines = [''.join(signs.get(b) or (chr(b) if 32 <= b < 127 else '\\x%02x' % b) for b in data[k:k + 24]) for k in range(0, len(data), 24)]
    # a line's spaces in front don't count
    return 'b"' + '\\\n    '.join(re.sub('^ ', r'\\x20', line) for line in lines) + '"'


def constant(name, doc, data):
    return '/// %s\npub const %s: [u8; %d] = *%s;\n' % (doc, name, len(data), literal(data))


def of_rows(doc, files):
    return '\n'.join([WRITTEN + '//! ' + doc + '\n'] + [constant(name, told, bytes_of(row, file)) for name, row, file, told in files])


def texts():
    made = [constant(name, 'The file of seed %d and %d units.' % (seed, units), generated.generated(seed, units)) for name, seed, units in GENERATED]
    return {
        'programs.rt': of_rows('Programs: an ELF header, the contents of the sections, their names and their headers.', PROGRAMS),
        'indexes.rt': of_rows('Indexes of programs.', INDEXES),
        'generated.rt': '\n'.join([WRITTEN + '//! Generated programs, by a writer of their rule that knows nothing of our code.\n'] + made)}


def squeezed(text):
    """The text without what `rt fmt` adds or takes away: white space."""
    return re.sub(r'\s+', '', text)


def main():
    stale = 0
    for name, text in texts().items():
        path = os.path.join(FOLDER, name)
        if '--check' in sys.argv[1:]:
            if not os.path.isfile(path) or squeezed(gen_vectors.read(path).decode()) != squeezed(text):
                print('%s is not what would be written' % path)
                stale = 1
        else:
            with open(path, 'w') as out:
                out.write(text)
    return stale


if __name__ == '__main__':
    sys.exit(main())
