"""The files that a fuzzer begins with: programs that compilers made of small sources, and indexes by several tools."""
import os
import shutil
import subprocess
import tempfile

from . import packed
from reading.check_rows import FOLDERS, inputs_of, words_of
from reading.commands import COMMANDS
from reading.faults import Fault
from reading.gdb_index import gdb_index_bytes
from reading.gdb_index_read import GdbIndex
from reading.name_index_read import NameIndex
from reading.program import built
from reading.words import task_of

SOURCES = os.path.join(os.path.dirname(os.path.dirname(os.path.dirname(os.path.abspath(__file__)))), ".ci", "programs")
VERSIONS = ("-gdwarf-2", "-gdwarf-3", "-gdwarf-4", "-gdwarf-5")
C, CXX = ("demo.c", "shapes.c"), ("demo.cc", "shapes.cc")
COMPILERS = (("gcc", C), ("clang", C), ("g++", CXX), ("clang++", CXX))
MORE = (["-gdwarf64"], ["-fdebug-types-section", "-gdwarf-4"], ["-fdebug-types-section", "-gdwarf-5"],
        ["-ffunction-sections"], ["-gsplit-dwarf", "-gdwarf-5"])
FORTRAN = "module shapes\ncontains\ninteger function area(n)\ninteger :: n\narea = n * n\nend function\nend module\n" \
          "program hello\nuse shapes\nprint *, area(3)\nend program\n"


# A row whose changes have many names of 16 MiB, for which the reading lacks the room that a run has.
NO_SEEDS = {"qualified_name_of_16_mib_and_a_byte"}


class Seed:
    """A file that is changed, what lies beside it, and the names and the addresses that are asked for."""

    def __init__(self, about, sort, data, beside=b"", base=0):
        self.about, self.sort, self.data, self.beside, self.base = about, sort, data, beside, base
        self.is_invented = False
        self.parts, self.spans, self.names, self.addresses, self.kept = None, [(0, len(data))], [b"main"], [0x1000], b""

    def ask_for(self, names, addresses):
        self.names = sorted(set(names) | {b"main"})
        self.addresses = sorted(set(addresses) | {0x1000})


def program_seed(about, file, whole=False):
    """A seed of a program, repacked unless its whole file is wanted."""
    seed = Seed(about, "program", file)
    if not whole:
        seed.parts = packed.sections_in(file)
        seed.data, seed.spans = packed.pack(seed.parts)
    try:
        program = built(seed.data)
    except Fault:
        return seed
    names = [name for entry in program.entries for name in (entry.name, entry.simple())]
    seed.kept = gdb_index_bytes(program, 9)
    paths = [b"demo.c", b"shapes.hh", b"shapes.h"]
    seed.ask_for([name for name in names + paths if is_word(name)], [edge for piece in program.pieces for edge in piece[:2]])
    return seed


def is_word(name):
    """Whether a name can be asked for in a word of a command line."""
    try:
        return bool(name.decode()) and b"\n" not in name and b"\0" not in name and not name.startswith(b"--")
    except UnicodeDecodeError:
        return False


def index_seed(about, data, strings=None, base=0):
    """A seed of a `.gdb_index`, or with strings of a `.debug_names`."""
    seed = Seed(about, "gdb" if strings is None else "names", data, strings or b"", base)
    try:
        if strings is None:
            index = GdbIndex(data)
            seed.ask_for([slot[0] for slot in index.slots if slot and is_word(slot[0])], [entry[0] for entry in index.addresses])
        else:
            seed.ask_for([name for name, _ in NameIndex(data, strings, base).names if is_word(name)], [])
    except Fault:
        pass
    return seed


# ---- what compilers make

def _runs(words, folder):
    return shutil.which(words[0]) and subprocess.run(words, cwd=folder, capture_output=True, timeout=120).returncode == 0


def _linked(folder, objects, linker, out):
    words = ["ld.bfd" if linker is None else linker, "-shared", "--build-id=sha1", "-o", out, *objects]
    return read(folder, out) if _runs(words, folder) else None


def read(folder, name):
    with open(os.path.join(folder, name), "rb") as file:
        return file.read()


def compiled(compiler, options, sources, folder):
    """A library of these sources, or None where there is no such compiler or it has no such option."""
    objects = []
    for source in sources:
        objects.append(os.path.splitext(source)[0] + ".o")      # gnat takes no other name
        if not _runs([compiler, "-c", "-fPIC", *options, "-o", objects[-1], source], folder):
            return None
    return _linked(folder, objects, None, "out.so")


def recipes():
    """(compiler, options, sources) of each program."""
    for version in VERSIONS:
        for compiler, sources in COMPILERS + (("gcc", ("demo.adb",)), ("gfortran", ("shapes.f90",))):
            yield compiler, [version, "-O2"], sources
    for options in MORE:
        for compiler, sources in COMPILERS:
            yield compiler, ["-g", *options, "-O0"], sources


def _rust(folder):
    words = ["rustc", "--crate-type=cdylib", "-Cpanic=abort", "-g", "-Clink-arg=-nostdlib", "-o", "rust.so", "demo.rs"]
    return read(folder, "rust.so") if _runs(words, folder) else None


def programs(folder):
    """(about, file) of each program that is made here."""
    for compiler, options, sources in recipes():
        file = compiled(compiler, options, sources, folder)
        if file is not None:
            yield " ".join([compiler, *options, sources[0]]), file
    file = _rust(folder)
    if file is not None:
        yield "rustc demo.rs", file


# ---- what other tools index

def old_strings(file):
    """How long the program's own strings are."""
    return len(dict(packed.sections_in(file)).get(b".debug_str", b""))


def _by_gdb(file, folder):
    """(the `.gdb_index`, the `.debug_names`, its `.debug_str`) that gdb saves, each or none."""
    with open(os.path.join(folder, "indexed.so"), "wb") as out:
        out.write(file)
    for option, name in (("", "indexed.so.gdb-index"), ("-dwarf-5 ", "indexed.so.debug_names")):
        command = "save gdb-index %s." % option
        if _runs(["gdb", "-nx", "-batch", "-ex", command, "indexed.so"], folder) and name in os.listdir(folder):
            strings = read(folder, "indexed.so.debug_str") if option else None
            yield index_seed("gdb %s" % command, read(folder, name), strings, old_strings(file) if option else 0)


def _by_linkers(folder):
    """The `.gdb_index` of gold and of lld, which has version 7, made 8 too."""
    compiled("gcc", ["-g", "-gdwarf-4", "-ggnu-pubnames"], C, folder)
    for linker in ("ld.gold", "ld.lld"):
        words = [linker, "-shared", "--gdb-index", "-o", "linked.so", "demo.o", "shapes.o"]
        if _runs(words, folder):
            index = dict(packed.sections_in(read(folder, "linked.so"))).get(b".gdb_index", b"")
            yield index_seed(linker, index)
            yield index_seed(linker + " as version 8", b"\x08" + index[1:])


def _by_program(program, file, folder):
    """Those of the program that is tried."""
    with open(os.path.join(folder, "own.so"), "wb") as out:
        out.write(file)
    for kind in ("gdb8", "gdb9", "names"):
        if _runs([program, "index", "--as", kind, "own.so", "own"], folder):
            strings = read(folder, "own.debug_str") if kind == "names" else None
            yield index_seed("own " + kind, read(folder, "own"), strings, old_strings(file) if kind == "names" else 0)


def made_seeds(program):
    with tempfile.TemporaryDirectory(dir="/dev/shm") as folder:
        for name in os.listdir(SOURCES):
            shutil.copy(os.path.join(SOURCES, name), folder)
        with open(os.path.join(folder, "shapes.f90"), "w") as file:
            file.write(FORTRAN)
        for number, (about, file) in enumerate(programs(folder)):
            yield program_seed(about, file)
            if number % 6 == 0:
                yield program_seed(about + " whole", file, whole=True)
                yield from _by_gdb(file, folder)
                yield from _by_program(program, file, folder)
        yield from _by_linkers(folder)


def worked_program(about, file):
    """A program of a row as it stands; where it has sections these are changed too."""
    seed = program_seed(about, file, whole=True)
    try:
        seed.parts = packed.sections_in(file)
    except Fault:
        pass
    return seed


def row_seeds():
    """The worked programs and indexes, each once."""
    found = {}
    for row in sorted(os.path.join(folder, name) for folder in FOLDERS for name in os.listdir(folder)):
        task, files = task_of(words_of(row)), inputs_of(row)
        if task is None or task.command not in COMMANDS or any(name not in files for name in task.files[:1]):
            continue
        about, data = os.path.basename(row), files[task.files[0]]
        if about in NO_SEEDS:
            continue
        if task.command == "look gdb":
            found.setdefault(data, lambda about=about, data=data: index_seed(about, data))
        elif task.command == "look names" and task.files[1] in files:
            strings, base = files[task.files[1]], task.options["--base"]
            found.setdefault(data, lambda about=about, data=data, strings=strings, base=base: index_seed(about, data, strings, base))
        elif task.command != "look names":
            found.setdefault(data, lambda about=about, data=data: worked_program(about, data))
    return [make() for make in found.values()]


def invented_seed():
    """Stands for a program that is made up anew for each run."""
    seed = Seed("made up", "program", b"")
    seed.is_invented = True
    return seed


def all_seeds(program):
    """The programs that were made, the indexes that were made, the worked files, and those that are made up."""
    made = list(made_seeds(program))
    of_compilers = [seed for seed in made if seed.sort == "program"]
    return of_compilers, [seed for seed in made if seed.sort != "program"], row_seeds(), [invented_seed()]
