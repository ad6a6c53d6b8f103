#!/usr/bin/env python3
"""Writes the crate index_vectors: theorems on whole small files, which the checker computes.

    gen_vectors.py           writes its modules anew
    gen_vectors.py --check   says which of them are not what it would write; status 1 where there are some
    gen_vectors.py --opened  writes proofs/Opened.antt alone, after the definitions have changed
    gen_vectors.py --take FOLDER   copies the rows that vectors.txt names from the folder into rows/vectors

A row is a folder: the words of a command in `args`, what it must write in `stdout`, its `status`, and the files that it reads
by their own names.  What it must store lies in `expect`.  The rows and their groups are listed in vectors.txt.  Nothing expected
is computed here: it is what the row's own files say.

The words that the statements are made of (Prints, WritesGdb8, ..) stand in specs/Says.antt, which is written by hand."""
import os
import re
import shutil
import sys

from vector_parts import PART, homes_of, joined, share

TOOLS = os.path.dirname(os.path.abspath(__file__))
CRATES = os.path.join(os.path.dirname(TOOLS), 'crates')
CRATE = os.path.join(CRATES, 'index_vectors')
ROWS = os.path.join(os.path.dirname(TOOLS), 'rows', 'vectors')
LIST = os.path.join(os.path.dirname(TOOLS), 'rows', 'vectors.txt')
WRITTEN = 'Written by tools/gen_vectors.py; not to be changed by hand.'
# the crates whose definitions a computation opens, as far as the statements use them
OPENED = ('ix_base', 'index_model', 'reach_model', 'index_vectors')
# modules of the crate that are written by hand, and the functions of those in src
BY_HAND = {'specs': ['LookTexts', 'Comparisons', 'Says', 'Limits'], 'proofs': []}
FUNCTIONS = {'limits': ['depth_ends', 'names_end', 'units_end']}


def read(path):
    with open(path, 'rb') as file:
        return file.read()


def groups():
    """(name, doc, rows) of each group of vectors.txt."""
    found = []
    for line in read(LIST).decode().split('\n'):
        if not line.strip() or line.startswith('#'):
            continue
        if line.startswith(' '):
            found[-1][2].append(line.strip())
        else:
            name, doc = line.split(': ', 1)
            found.append((name, doc, []))
    names = [row for _, _, rows in found for row in rows]
    twice = sorted({row for row in names if names.count(row) > 1})
    if twice:
        sys.exit('rows that stand twice: %s' % twice)
    return found


def missing(found):
    """The listed rows that rows/vectors doesn't have, and those of rows/vectors that aren't listed."""
    wanted, have = {row for _, _, rows in found for row in rows}, set(os.listdir(ROWS)) if os.path.isdir(ROWS) else set()
    return sorted(wanted - have), sorted(have - wanted)


# ---- terms

def chain(numbers):
    """The bytes as a list, on one line."""
    return '(' + ' ∷ '.join(map(str, numbers)) + ' ∷ [])' if numbers else '[]'


def text(data):
    """Bytes as a text, where each has a sign that needs no escape or is a newline."""
    if data and all(32 <= b < 127 and b not in (34, 92) or b == 10 for b in data):
        return '(codes "%s")' % data.decode().replace('\n', '\\n')
    return chain(data)


def camel(name):
    return ''.join(word.capitalize() for word in name.split('_'))


# ---- what a row says

class Group:
    """The files that the rows of a group read, each with a name, and the words that the statements use."""

    def __init__(self):
        self.files, self.words = {}, set()

    def file(self, data):
        if data not in self.files:
            self.files[data] = 'file_%d' % len(self.files)
        return self.files[data]

    def says(self, word, *terms):
        self.words.add(word)
        return ' '.join((word,) + terms)


def statement(group, name):
    """The statement of a row, by the command in its args."""
    folder = os.path.join(ROWS, name)
    args = read(os.path.join(folder, 'args')).split(b'\n')[:-1]
    command = COMMANDS[args[0]]
    if len(args) > 2 and args[1] == b'--workers':    # how many workers there are changes nothing
        args[1:3] = []
    return command(group, folder, args[1:], int(read(os.path.join(folder, 'status'))), read(os.path.join(folder, 'stdout')))


def asked(group, folder, args, status, stdout):
    """ask FILE QUERY: the text of the answer or of the first fault, or a bad query."""
    file, line = group.file(read(os.path.join(folder, args[0].decode()))), text(b' '.join(args[1:]))
    if status == 2:
        return group.says('IsBadQuery', file, line)
    return group.says('PrintsLength' if args[1:] == [b'cache'] else 'Prints', file, line, str(status), text(stdout))


def served(group, folder, args, status, stdout):
    """serve [--wait S] FILE: what a session writes on its input."""
    source = read(os.path.join(folder, args[-1].decode()))
    return group.says('Serves', group.file(source), text(read(os.path.join(folder, 'stdin'))), chain(stages(stdout)), text(stdout))


def stages(transcript):
    """The digits that begin the replies of a transcript. Behind `found COUNT` stand so many lines of entries, which begin with other numbers."""
    lines, found = transcript.split(b'\n')[:-1], []
    while lines:
        words = lines.pop(0).split(b' ')
        if words[0] != b'-':
            found.append(int(words[0]))
        if words[1] == b'found':
            del lines[:int(words[2])]
    return found


def indexed(group, folder, args, status, stdout):
    """index --as KIND FILE OUT: the bytes of the index, which `expect` has."""
    kind, source, out = args[1], group.file(read(os.path.join(folder, args[2].decode()))), args[3].decode()
    bytes_ = group.file(read(os.path.join(folder, 'expect', out)))
    if kind != b'names':
        return group.says({b'gdb8': 'WritesGdb8', b'gdb9': 'WritesGdb9'}[kind], source, bytes_)
    return group.says('WritesNames', source, bytes_, group.file(read(os.path.join(folder, 'expect', out + '.debug_str'))))


def added(group, folder, args, status, stdout):
    """add --as KIND FILE OUT: the bytes of the program with its index, which `expect` has."""
    kind, source, out = args[1], group.file(read(os.path.join(folder, args[2].decode()))), args[3].decode()
    bytes_ = group.file(read(os.path.join(folder, 'expect', out)))
    return group.says({b'gdb8': 'AddsGdb8', b'gdb9': 'AddsGdb9', b'names': 'AddsNames'}[kind], source, bytes_)


def compared(group, folder, args, status, stdout):
    """aranges FILE: how the address table and the units' own ranges differ, or the first fault of the table."""
    return group.says('Compares', group.file(read(os.path.join(folder, args[0].decode()))), str(status), text(stdout))


def cached(group, folder, args, status, stdout):
    """cached FILE STORE QUERY: the file's first fault, the index that is kept, the fault of what was kept, or what it answers."""
    file, line = group.file(read(os.path.join(folder, args[0].decode()))), text(b' '.join(args[2:]))
    if status:
        return group.says('Prints', file, line, str(status), text(stdout))
    said, _, answer = stdout.partition(b'\n')
    if said == b'unsaved':
        return group.says('KeepsNothing', file, text(args[1]))
    if said == b'stored':
        name, = os.listdir(os.path.join(folder, 'expect'))
        return group.says('Keeps', file, text(args[1]), text(name.encode()), group.file(read(os.path.join(folder, 'expect', name))))
    name, = (name for name in os.listdir(folder) if name.endswith('.gdb-index'))
    kept = group.file(read(os.path.join(folder, name)))
    if said == b'hit':
        return group.says('KeptPrints', file, kept, line, text(answer))
    _, code, place = said.decode().split()
    return group.says('IsStale', file, kept, code, str(int(place, 16)))


def listed_files(group, folder, args, status, stdout):
    """files FILE NAME: the files with this name, or the first fault of a line table."""
    return group.says('ListsFiles', group.file(read(os.path.join(folder, args[0].decode()))), text(args[1]), str(status), text(stdout))


def looked(group, folder, args, status, stdout):
    """look gdb INDEX QUERY, or look names [--base N] INDEX STRINGS QUERY: the first fault of the index, or what it answers."""
    kind, args, base = args[0], args[1:], '0'
    if args[0] == b'--base':
        base, args = args[1].decode(), args[2:]
    count = 1 if kind == b'gdb' else 2
    files = [group.file(read(os.path.join(folder, name.decode()))) for name in args[:count]]
    line = text(b' '.join(args[count:]))
    if kind == b'names':
        return group.says('NamesPrint', *files, base, line, str(status), text(stdout))
    if status == 2:
        return group.says('GdbOffersNot', *files, line)
    return group.says('GdbPrints', *files, line, str(status), text(stdout))


# ---- modules

SPECS = '''-- {written}
-- {doc}
use Rattle.std.specs.Prelude.{{{plain}}}
{parts}use Rattle.index_vectors.specs.Says.{{{words}}}

{files}
-- what each row says
abbrev pub {type} : Type 0
{type} = record {{
{facts}}}
'''

FILE = '''unfoldable pub {name} : List ℕ
{name} =
    {bytes}
'''

PARTS = '''-- {written}
-- Runs of bytes that stand in several places of the files{which}.
use Rattle.std.specs.Prelude.{{{plain}}}
{others}
{parts}'''

HOLD = '''-- {written}
-- Each row of {type}, by computation.
use Rattle.std.proofs.Common.{{{plain}}}
{codes}use Rattle.index_vectors.specs.Says.{{{words}}}
use Rattle.index_vectors.specs.{type}.{{{files}}}
use Rattle.index_vectors.proofs.Opened.{{all_defs}}

{facts}'''

FACT = '''pub {row} : {said}
unfolding all_defs {files}
{row} = refl
'''

ANSWERS = '''-- {written}
use Rattle.index_vectors.proofs.{type}Hold.{{{rows}}}
use Rattle.index_vectors.proofs.{name}.Goals as goal

pub returns : goal.returns
returns c = record {{
{facts}}}
'''

LIB = '''// {written}
//! What the definitions of `index_model` give for whole small files, computed by the checker.
//!
//! Each function does nothing. Its contract is a group of facts, one for each row in `rows/vectors`: what a file prints for a
//! query, the bytes of an index, or what a look-up in an index prints. The rows say what is expected, and the checker computes
//! the definitions on the bytes until both are the same.
#![tactic(auto)]

{uses}
{modules}
{functions}'''

OPEN = '''-- {written}
-- One name that opens all that a computation of a file needs, so that each theorem names it alone.
use Rattle.std.proofs.Common.{{ℕ}}
use Rattle.std.specs.Fmt.{{digits}}
{uses}
unfoldable pub all_defs : ℕ
unfolding {names}
all_defs = 0
'''


def listed(names):
    return ', '.join(names)


def plain_words(body, words):
    """Those of the words of std that a body uses."""
    signs = {'[]': '[]', '◌∷◌': '∷', '◌++◌': '++', 'codes': 'codes "'}
    return [word for word in words if signs.get(word, '') in body]


def stated(found):
    """(name, doc, group, statements) of each group, the group with all files that its rows read."""
    for name, doc, rows in found:
        group = Group()
        yield name, doc, group, {row: statement(group, row) for row in rows}


def group_modules(name, doc, group, said, items, homes):
    """What the script writes for a group: its files and its statement, a theorem for each row, and the answer to the goal of its function."""
    own = camel(name)
    files = ''.join(FILE.format(name=file, bytes=joined(items[own, file])) + '\n' for file in group.files.values())
    facts = ''.join('  %s : %s;\n' % fact for fact in said.items())
    words = listed(sorted(group.words))
    theorems = '\n'.join(FACT.format(row=row, said=fact, files=' '.join(dict.fromkeys(re.findall(r'\bfile_\d+\b', fact)))) for row, fact in said.items())
    return {
        'specs/%s.antt' % own: SPECS.format(
            written=WRITTEN, doc=doc, plain=listed(plain_words(files + facts, ['ℕ', 'List', '[]', '◌∷◌', '◌++◌', 'codes'])), words=words,
            parts=uses_of(files, homes), files=files.rstrip('\n') + '\n', type=own, facts=facts),
        'proofs/%sHold.antt' % own: HOLD.format(
            written=WRITTEN, type=own, plain=listed(plain_words(facts, ['[]', '◌∷◌']) + ['refl']), words=words, files=listed(group.files.values()),
            codes='use Rattle.std.specs.Prelude.{codes}\n' if 'codes "' in facts else '', facts=theorems),
        'proofs/%s/Answers.antt' % name: ANSWERS.format(
            written=WRITTEN, type=own, name=name, rows=listed('%s as %s_holds' % (row, row) for row in said),
            facts=''.join('  %s = %s_holds;\n' % (row, row) for row in said)),
    }


def uses_of(body, homes, module=None):
    """The lines that name the parts of other modules that a body uses."""
    names = sorted(set(re.findall(r'\bpart_\d+\b', body)), key=lambda part: int(part[5:]))
    by_module = {}
    for name in names:
        by_module.setdefault(homes[name], []).append(name)
    return ''.join('use Rattle.index_vectors.specs.%s.{%s}\n' % (home, listed(own)) for home, own in by_module.items() if home != module)


def part_modules(parts, homes):
    """The modules of the parts that files share."""
    modules = sorted(set(homes.values()), key=lambda module: int(module[5:]))
    for module in modules:
        body = '\n'.join(PART.format(name=name, bytes=joined(items)) for name, items in parts.items() if homes[name] == module)
        yield 'specs/%s.antt' % module, PARTS.format(
            written=WRITTEN, plain=listed(plain_words(body, ['ℕ', 'List', '[]', '◌∷◌', '◌++◌'])), parts=body, others=uses_of(body, homes, module),
            which='' if module == modules[0] else ', made of those of the modules before as well')


def lib(found):
    """The root: a function for each group, and those that are written by hand."""
    return LIB.format(
        written=WRITTEN,
        uses=''.join('ghost use Rattle.index_vectors.specs.%s.{%s};\n' % (camel(name), camel(name)) for name, _, _ in sorted(found)),
        modules=''.join('mod %s;\n' % name for name in sorted(FUNCTIONS)) + '\n' + ''.join('pub use %s::{%s};\n' % (
            name, listed(sorted(FUNCTIONS[name]))) for name in sorted(FUNCTIONS)),
        functions='\n'.join('/// %s\npub fn %s()\n    ensures { %s }\n{}\n' % (doc, name, camel(name)) for name, doc, _ in found))


def used():
    """The modules of definitions that the words of the statements are made of, each behind those that it uses."""
    found = []

    def follow(crate, module):
        if (crate, module) not in found:
            body = read(os.path.join(CRATES, crate, 'specs', module + '.antt')).decode()
            for below in re.findall(r'^use Rattle\.(%s)\.specs\.([A-Z]\w*)[. ]' % '|'.join(OPENED), body, re.M):
                follow(*below)
            found.append((crate, module))

    for module in BY_HAND['specs']:
        follow('index_vectors', module)
    return found


def unfoldables():
    """(crate, module, names) of the definitions that have to be opened. Limits opens its own files."""
    for crate, module in used():
        names = re.findall(r'^ *unfoldable pub (\S+) :', read(os.path.join(CRATES, crate, 'specs', module + '.antt')).decode(), re.M)
        if names and module != 'Limits':
            yield crate, module, names


def opened():
    """The module that opens the definitions."""
    uses, known = [], ['digits']
    for crate, module, names in unfoldables():
        parts = []
        for name in names:
            alias = name if name not in known else '%s_%s' % (name, module.lower())
            known.append(alias)
            parts.append(name if alias == name else '%s as %s' % (name, alias))
        uses.append('use Rattle.%s.specs.%s.{%s}\n' % (crate, module, ', '.join(parts)))
    return OPEN.format(written=WRITTEN, uses=''.join(uses), names=' '.join(known))


def modules():
    """Each file that the script writes, by its path in the crate."""
    found, files = groups(), {}
    absent, unlisted = missing(found)
    if absent or unlisted:
        sys.exit('rows without a folder: %s; folders that vectors.txt does not list: %s' % (absent, unlisted))
    all_stated = list(stated(found))
    items, parts = share({(camel(name), file): data for name, _, group, _ in all_stated for data, file in group.files.items()})
    homes = homes_of(parts)
    for name, doc, group, said in all_stated:
        files.update(group_modules(name, doc, group, said, items, homes))
    files.update(part_modules(parts, homes))
    for kind in ('specs', 'proofs'):
        own = BY_HAND[kind] + (['Opened'] if kind == 'proofs' else list(dict.fromkeys(homes.values()))) + [camel(name) + ('Hold' if kind == 'proofs' else '') for name, _, _ in found]
        files['%s/Lib.antt' % kind] = '-- %s\n' % WRITTEN + ''.join('pub mod %s\n' % module for module in own)
    files['proofs/Opened.antt'] = opened()
    files['src/lib.rt'] = lib(found)
    return files


def write(files):
    for name, body in files.items():
        path = os.path.join(CRATE, name)
        os.makedirs(os.path.dirname(path), exist_ok=True)
        if not os.path.exists(path) or read(path) != body.encode():
            with open(path, 'wb') as file:
                file.write(body.encode())


def check(files):
    other = [name for name, body in sorted(files.items())
             if not os.path.exists(os.path.join(CRATE, name)) or read(os.path.join(CRATE, name)) != body.encode()]
    known = set(files) | {'%s/%s.antt' % (kind, own) for kind, names in BY_HAND.items() for own in names}
    left = [name for name in sorted(made()) if name not in known]
    for name in other:
        print('%s is not what the script writes' % name)
    for name in left:
        print('%s is no group of vectors.txt' % name)
    return 1 if other or left else 0


def made():
    """The files of the crate whose first line says that the script wrote them."""
    for kind in ('specs', 'proofs', 'src'):
        for base, _, names in os.walk(os.path.join(CRATE, kind)):
            for name in names:
                path = os.path.join(base, name)
                if WRITTEN.encode() in read(path).split(b'\n')[0]:
                    yield os.path.relpath(path, CRATE)


def take(folder):
    """Copies the listed rows, and drops those that aren't listed any more."""
    absent, unlisted = missing(groups())
    for row in unlisted:
        shutil.rmtree(os.path.join(ROWS, row))
    for row in absent:
        for base, _, names in os.walk(os.path.join(folder, row)):
            to = os.path.join(ROWS, row, os.path.relpath(base, os.path.join(folder, row)))
            os.makedirs(to, exist_ok=True)
            for name in names:
                shutil.copyfile(os.path.join(base, name), os.path.join(to, name))


# What says the statement of a row, by its command.
COMMANDS = {b'add': added, b'aranges': compared, b'ask': asked, b'cached': cached, b'files': listed_files, b'index': indexed,
            b'look': looked, b'serve': served}


def main(args):
    if args[:1] == ['--take'] and len(args) == 2:
        take(args[1])
    elif args == ['--opened']:
        write({'proofs/Opened.antt': opened()})
    elif args == ['--check']:
        return check(modules())
    elif not args:
        write(modules())
    else:
        sys.exit(__doc__)
    return 0


if __name__ == '__main__':
    sys.exit(main(sys.argv[1:]))
