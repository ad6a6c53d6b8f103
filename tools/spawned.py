"""Runs of a program that cost little: no shell, no thread, and one pipe for what it writes.  Many runs at once cost less still, by a
program in C that is compiled where it is used.  Beside them stands the reading's answer."""
import os
import resource
import select
import shutil
import signal
import struct
import subprocess
import tempfile
import time

from reading.commands import run
from reading.shelves import MemoryShelf

SECONDS = 10


def limit_memory(size):
    """Limits the address space of this process and of what it starts."""
    _, hard = resource.getrlimit(resource.RLIMIT_AS)
    resource.setrlimit(resource.RLIMIT_AS, (size, hard))


class Program:
    """A program that is run in the current folder.  A status below 0 is a signal; None stands for a run that didn't end."""

    def __init__(self, path, seconds=SECONDS):
        self.path, self.seconds = os.path.abspath(path), seconds
        self.nothing = os.open(os.devnull, os.O_RDWR)

    def end(self):
        os.close(self.nothing)

    def run(self, words):
        """(status, what it wrote)."""
        source, sink = os.pipe()
        actions = [(os.POSIX_SPAWN_DUP2, self.nothing, 0), (os.POSIX_SPAWN_DUP2, sink, 1), (os.POSIX_SPAWN_DUP2, self.nothing, 2)]
        child = os.posix_spawn(self.path, [self.path, *words], os.environ, file_actions=actions)
        os.close(sink)
        end = time.monotonic() + self.seconds
        text, closed = _read(source, end)
        os.close(source)
        return _status(child, end if closed else 0), text


def _take_files():
    """The files in the current folder, which are taken away."""
    found = {}
    for name in os.listdir():
        with open(name, "rb") as file:
            found[name] = file.read()
        os.unlink(name)
    return found


def write(name, data):
    with open(name, "wb") as file:
        file.write(data)


def answer(program, words, files):
    """(status, what is written, the files that are stored) of a run over these files in the current folder, which is empty."""
    for name, data in files.items():
        write(name, data)
    status, text = program.run(words)
    return status, text, {name: data for name, data in _take_files().items() if files.get(name) != data}


NUMBER = struct.Struct("=I")
STATUS = struct.Struct("=i")
UNENDED = 0x7FFFFFFF


def compiled(folder):
    """The words that start spawning.c, compiled into a folder with the library of forking.c; None where there is no gcc."""
    if shutil.which("gcc") is None:
        return None
    made = os.path.join(folder, "spawning"), os.path.join(folder, "forking.so")
    for name, words, out in ("spawning.c", [], made[0]), ("forking.c", ["-shared", "-fPIC"], made[1]):
        source = os.path.join(os.path.dirname(os.path.abspath(__file__)), name)
        subprocess.run(["gcc", "-O2", *words, "-o", out, source, "-ldl"], check=True)
    return made


def _counted(data):
    return NUMBER.pack(len(data)) + data


class Taken:
    """Numbers and bytes, one after the other."""

    def __init__(self, data):
        self.data, self.at = data, 0

    def number(self, form=NUMBER):
        number, = form.unpack_from(self.data, self.at)
        self.at += 4
        return number

    def bytes(self):
        begin = self.at + 4
        self.at = begin + self.number()
        return self.data[begin:self.at]


class Spawner:
    """Runs of a program over files, many at once, in the current folder, which is empty."""

    def __init__(self, made, path, seconds=SECONDS, copies=False):
        """With copies, runs with the same words one after the other are copies of one process, which cost less still."""
        self.program = Program(path, seconds)
        words = made and [made[0], self.program.path, str(seconds)] + [made[1]] * copies
        self.driver = words and subprocess.Popen(words, stdin=subprocess.PIPE, stdout=subprocess.PIPE)

    def end(self):
        self.program.end()
        if self.driver:
            self.driver.stdin.close()
            self.driver.wait()
            self.driver.stdout.close()

    def answers(self, runs):
        """Of each run, its words and files, what `answer` has."""
        if not self.driver:
            return [answer(self.program, words, files) for words, files in runs]
        batch = b"".join(_run_of(words, files) for words, files in runs)
        self.driver.stdin.write(_counted(batch))
        self.driver.stdin.flush()
        length, = NUMBER.unpack(self.driver.stdout.read(4))
        taken = Taken(self.driver.stdout.read(length))
        return [_outcome(taken) for _ in runs]


def _run_of(words, files):
    parts = [NUMBER.pack(len(words))] + [_counted(os.fsencode(word)) for word in words] + [NUMBER.pack(len(files))]
    for name, data in files.items():
        parts += [_counted(os.fsencode(name)), _counted(data)]
    return b"".join(parts)


def _outcome(taken):
    status, text = taken.number(STATUS), taken.bytes()
    stored = {}
    for _ in range(taken.number()):
        name = os.fsdecode(taken.bytes())
        stored[name] = taken.bytes()
    return None if status == UNENDED else status, text, stored


def meant(words, files):
    """The same by the reading; one that breaks off has no status, so no program agrees with it."""
    shelf = MemoryShelf(files)
    try:
        status, text = run(words, shelf)
    except Exception as error:      # whatever it is, it has to be shown with the file that brought it about
        return "broken off", repr(error).encode(), {}
    return status, text, {name: data for name, data in shelf.files.items() if files.get(name) != data}


def offers_cached(path):
    """Whether the program has the command `cached`: else its words aren't in the grammar (status 2)."""
    program = Program(path)
    status, _ = program.run(["cached", os.devnull + "/none", "none", "main"])
    program.end()
    return status == 3


def _read(source, end):
    """(what was written, whether the output was closed in time)."""
    pieces = []
    while _is_ready(source, end):
        piece = os.read(source, 65536)
        if not piece:
            return b"".join(pieces), True
        pieces.append(piece)
    return b"".join(pieces), False


def _is_ready(handle, end):
    return bool(select.select([handle], [], [], max(0, end - time.monotonic()))[0])


def _status(child, end):
    """The status of the child; it is killed where it doesn't end in time."""
    handle = os.pidfd_open(child)
    ended = _is_ready(handle, end)
    os.close(handle)
    if not ended:
        os.kill(child, signal.SIGKILL)
    _, status = os.waitpid(child, 0)
    return os.waitstatus_to_exitcode(status) if ended else None
