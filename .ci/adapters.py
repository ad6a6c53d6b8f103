#!/usr/bin/env python3
"""python3 adapters.py PROGRAM

Runs PROGRAM where what lies outside of it isn't plain: inputs that come in pieces or fail, outputs that are short, full, closed or
without a reader, files that are no files, names that are links, and stores that are cut or meet others. Each run has its status and
its line, says the system's words on standard error, and leaves in every name what has to stand there. What can't be had here, as
another user, a small disk or a compiler, is said and passed over. The last line is 'adapters: N passed, M failed'."""
import errno
import fcntl
import os
import random
import resource
import shutil
import signal
import socket
import subprocess
import sys
import tempfile
import threading
import time

from real_program import compiled

HERE = os.path.dirname(os.path.abspath(__file__))
SMALL_PROGRAM = os.path.join(os.path.dirname(HERE), "crates", "index_tool", "data", "A")
NOBODY = 65534
ROUNDS = 100
KILLS = 60
# Runs a program as a user who owns nothing here.
AS_NOBODY = ["setpriv", "--reuid", str(NOBODY), "--regid", str(NOBODY), "--clear-groups"]
# A session whose answers fill many pipes.
QUERIES = b"name main\nmain\naddr 401000\n" * 1500


class Room:
    """A folder with the program to be tried and a FILE for it to read."""

    def __init__(self, program, folder):
        self.folder = folder
        os.chmod(folder, 0o777)
        self.program = os.path.join(folder, "gdbix")
        shutil.copy(program, self.program)
        os.chmod(self.program, 0o755)
        self.put("FILE", read(SMALL_PROGRAM))

    def path(self, name):
        return os.path.join(self.folder, name)

    def put(self, name, held):
        with open(self.path(name), "wb") as file:
            file.write(held)

    def start(self, *words, before=(), **how):
        return subprocess.Popen([*before, self.program, *words], cwd=self.folder, **how)

    def run(self, *words, before=(), **how):
        """Status, output and what is said on standard error."""
        how = {"stdin": subprocess.DEVNULL, "stdout": subprocess.PIPE, "stderr": subprocess.PIPE, "timeout": 30, **how}
        if "input" in how:
            del how["stdin"]
        done = subprocess.run([*before, self.program, *words], cwd=self.folder, **how)
        return done.returncode, done.stdout, done.stderr

    def names(self):
        """What each name of the folder holds, and where each link leads."""
        return {name: os.readlink(self.path(name)) if os.path.islink(self.path(name)) else read(self.path(name))
                for name in os.listdir(self.folder) if os.path.islink(self.path(name)) or os.path.isfile(self.path(name))}


def read(path):
    """What the name holds; nothing where it isn't there."""
    if not os.path.exists(path):
        return b""
    with open(path, "rb") as file:
        return file.read()


def differs(got, want):
    """None where both are the same, and else a text that shows both."""
    return None if got == want else "%s, not %s" % (repr(got)[:300], repr(want)[:300])


def fails(got, status, line, words=""):
    """What is wrong with a run that has to end with this status and line, and to say these words."""
    if got[:2] != (status, line):
        return differs(got[:2], (status, line))
    said = got[2].decode()
    return None if said.startswith("gdbix: ") and said.endswith(words + "\n") else "it says %r, not %r" % (said, words)


def session(room):
    return room.run("serve", "--wait", "3", "FILE", input=QUERIES)[1]


# Inputs.

def fed(room, size, whole):
    """A session whose input comes in pieces of this size."""
    child = room.start("serve", "--wait", "3", "FILE", stdin=subprocess.PIPE, stdout=subprocess.PIPE)
    given = QUERIES[:90] if size < 64 else QUERIES

    def feed():
        for at in range(0, len(given), size):
            os.write(child.stdin.fileno(), given[at:at + size])
            if size < 64:
                time.sleep(0.001)
        child.stdin.close()
    feeder = threading.Thread(target=feed)
    feeder.start()
    out = child.stdout.read()
    feeder.join()
    return differs((child.wait(), out), (0, whole[:len(out)] if size < 64 else whole)) or (None if out.count(b"\n") >= 9 else "too short")


def inputs(room):
    whole = session(room)
    yield "a session answers each line", None if whole.count(b"\n") >= 4500 else whole[:200]
    for size in (1, 2, 7, 4095, 4096, 65537):
        yield "input in pieces of %d bytes" % size, fed(room, size, whole)
    with open("/proc/self/mem", "rb") as unmapped:
        got = room.run("serve", "FILE", stdin=unmapped)
        yield "an input at a place that can't be read", fails(got, 6, b"", "standard input: " + os.strerror(errno.EIO))
    folder = os.open(room.folder, os.O_RDONLY)
    yield "a folder as input", fails(room.run("serve", "FILE", stdin=folder), 6, b"", "standard input: " + os.strerror(errno.EISDIR))
    os.close(folder)
    closed = room.run("serve", "FILE", preexec_fn=lambda: os.close(0))
    yield "an input that is closed", fails(closed, 6, b"", "standard input: " + os.strerror(errno.EBADF))
    writing = os.open("/dev/null", os.O_WRONLY)
    yield "an input that can't be read", fails(room.run("serve", "FILE", stdin=writing), 6, b"", "standard input: " + os.strerror(errno.EBADF))
    os.close(writing)
    yield "an input that fails behind its first lines", cut_input(room)


def cut_input(room):
    """A connection that is reset once its first line was answered."""
    listener = socket.create_server(("127.0.0.1", 0))
    ours = socket.create_connection(listener.getsockname())
    theirs, _ = listener.accept()
    child = room.start("serve", "--wait", "3", "FILE", stdin=theirs.fileno(), stdout=subprocess.PIPE, stderr=subprocess.PIPE)
    ours.send(b"main\n")
    first = child.stdout.readline()
    ours.setsockopt(socket.SOL_SOCKET, socket.SO_LINGER, b"\1\0\0\0\0\0\0\0")
    ours.close()
    rest, said = child.communicate(timeout=30)
    theirs.close()
    listener.close()
    wrong = fails((child.returncode, rest, said), 6, b"", "standard input: " + os.strerror(errno.ECONNRESET))
    return wrong or (None if first.startswith(b"3 ") else "it answers %r" % first)


# Outputs.

def narrow(blocks=True):
    """A pipe of one page."""
    reads, writes = os.pipe()
    fcntl.fcntl(writes, fcntl.F_SETPIPE_SZ, 4096)
    os.set_blocking(writes, blocks)
    return reads, writes


def through_pipe(room, blocks, most, size, pause):
    """Status, and what is read of a session, `most` bytes of it at most, in pieces with pauses."""
    reads, writes = narrow(blocks)
    room.put("QUERIES", QUERIES)
    with open(room.path("QUERIES"), "rb") as given:
        child = room.start("serve", "--wait", "3", "FILE", stdin=given, stdout=writes, stderr=subprocess.DEVNULL)
    os.close(writes)
    out = b""
    while len(out) < most:
        piece = os.read(reads, size)
        if not piece:
            break
        out += piece
        time.sleep(pause)
    os.close(reads)
    return child.wait(timeout=30), out


def outputs(room):
    whole = session(room)
    for size in (1000, 4096):
        yield "a narrow pipe, read %d bytes at a time" % size, differs(through_pipe(room, True, 1 << 30, size, 0), (0, whole))
    for pause in (0, 0.0005, 0.01):
        status, out = through_pipe(room, False, 1 << 30, 3000, pause)
        right = (status == 0 and out == whole) or (status == 5 and whole.startswith(out))
        yield "a pipe that doesn't wait", None if right else "status %d, %d bytes of %d" % (status, len(out), len(whole))
    status, out = through_pipe(room, True, 100, 100, 0)
    yield "a reader that goes away", differs((status, whole.startswith(out)), (5, True))
    for words in (["ask", "FILE", "name", "main"], ["--help"], ["nothing"], ["ask", "missing", "main"]):
        yield from refused_outputs(room, words)
    room.put("LIMITED", b"")
    with open(room.path("LIMITED"), "wb") as limited:
        got = room.run("serve", "--wait", "3", "FILE", input=QUERIES, stdout=limited, **limited_to(8192))
    wrong = fails((got[0], b"", got[2]), 5, b"", os.strerror(errno.EFBIG))
    yield "an output that comes to its limit", wrong or differs(read(room.path("LIMITED")), whole[:8192])


def refused_outputs(room, words):
    """A command whose output takes nothing."""
    shown = " ".join(words)
    with open("/dev/full", "wb") as full:
        got = room.run(*words, stdout=full)
    yield "%s to a full device" % shown, fails((got[0], b"", got[2]), 5, b"", os.strerror(errno.ENOSPC))
    got = room.run(*words, stdout=None, preexec_fn=lambda: os.close(1))
    yield "%s to a closed output" % shown, fails((got[0], b"", got[2]), 5, b"", os.strerror(errno.EBADF))
    reads, writes = os.pipe()
    os.close(reads)
    got = room.run(*words, stdout=writes)
    os.close(writes)
    yield "%s to a pipe without a reader" % shown, fails((got[0], b"", got[2]), 5, b"", os.strerror(errno.EPIPE))


def limited_to(size):
    """No file grows beyond a size; the signal that says so is passed over, so the call fails."""
    def before():
        signal.signal(signal.SIGXFSZ, signal.SIG_IGN)
        resource.setrlimit(resource.RLIMIT_FSIZE, (size, size))
    return {"preexec_fn": before, "restore_signals": False}


# Files that are read.

def unreadable(room):
    """Names that can't be read, with the system's words for why."""
    os.mkfifo(room.path("FIFO"))
    os.mkdir(room.path("FOLDER"))
    os.symlink("nowhere", room.path("DANGLING"))
    os.symlink("LOOP", room.path("LOOP"))
    os.symlink("FIFO", room.path("TO_FIFO"))
    listener = socket.socket(socket.AF_UNIX)
    listener.bind(room.path("SOCKET"))
    listener.close()
    for name in ("FIFO", "TO_FIFO", "SOCKET", "/dev/zero", "/dev/null", "/dev/full"):
        yield name, "not a regular file"
    numbers = {"FOLDER": errno.EISDIR, ".": errno.EISDIR, "missing": errno.ENOENT, "DANGLING": errno.ENOENT, "LOOP": errno.ELOOP,
               "FILE/x": errno.ENOTDIR, "n" * 300: errno.ENAMETOOLONG, "/proc/self/mem": errno.EIO}
    for name, number in numbers.items():
        yield name, os.strerror(number)


def files(room):
    room.put("OUT", b"old")
    began = time.monotonic()
    room.run("ask", "missing", "main")
    most = 1 + 3 * (time.monotonic() - began)
    for name, words in unreadable(room):
        for command in (["ask", name, "main"], ["index", "--as", "gdb8", name, "OUT"], ["add", "--as", "gdb8", name, "OUT"], ["serve", name],
                        ["look", "gdb", name, "main"], ["race", "FILE", name]):
            began = time.monotonic()
            wrong = fails(room.run(*command), 3, b"read fault\n", "%s: %s" % (name, words))
            late = time.monotonic() - began > most
            yield " ".join(command)[:80], wrong or ("it waited" if late else None)
    yield "what can't be read leaves OUT", differs(read(room.path("OUT")), b"old")
    if not shutil.which("setpriv") or os.geteuid():
        print("adapters: another user can't be had here, so a file that is another's isn't read")
        return
    room.put("SECRET", read(SMALL_PROGRAM))
    os.chmod(room.path("SECRET"), 0o600)
    got = room.run("ask", "SECRET", "main", before=AS_NOBODY)
    yield "a file that is another's", fails(got, 3, b"read fault\n", "SECRET: " + os.strerror(errno.EACCES))


def changing(room):
    """A file that others make longer and shorter while it is read: its bytes at one time are answered, or a read has failed."""
    whole = read(SMALL_PROGRAM)
    answer = room.run("ask", "FILE", "name", "main")
    ended = threading.Event()

    def change():
        with open(room.path("FILE"), "r+b") as file:
            while not ended.is_set():
                for size in (len(whole), 300, 0, len(whole) + (1 << 20)):
                    file.seek(0)
                    file.write(whole)
                    file.truncate(size)
    changer = threading.Thread(target=change)
    changer.start()
    for _ in range(ROUNDS):
        status, out, _ = room.run("ask", "FILE", "name", "main")
        right = out == answer[1] if status == 0 else (status == 1 and out.startswith(b"refused ")) or (status, out) == (3, b"read fault\n")
        yield "a file that changes while it is read", None if right else "status %d, %r" % (status, out[:80])
    ended.set()
    changer.join()


# Names under which something is stored.

def index(room, file, out, kind="gdb8", **how):
    return room.run("index", "--as", kind, file, out, **how)


def names(room):
    index(room, "FILE", "INDEX")
    made = read(room.path("INDEX"))
    yield "an index is stored", None if made[:4] == b"\x08\0\0\0" else repr(made[:40])
    room.put("OLD", b"old")
    os.symlink("OLD", room.path("LINK"))
    os.symlink("NEW", room.path("TO_NEW"))
    os.mkdir(room.path("FOLDER"))
    for name, held in (("LINK", "OLD"), ("TO_NEW", "NEW")):
        before = room.names()
        got = index(room, "FILE", name)
        yield "a link as OUT, " + name, differs((got, room.names()), ((0, b"", b""), {**before, held: made}))
    for name, number in (("FOLDER", errno.EISDIR), ("none/OUT", errno.ENOENT), ("OLD/OUT", errno.ENOTDIR), ("/dev/full", errno.ENOSPC),
                         ("n" * 255, errno.ENAMETOOLONG)):
        before = room.names()
        wrong = fails(index(room, "FILE", name), 4, b"store fault\n", "%s: %s" % (name, os.strerror(number)))
        yield "%s as OUT" % name[:20], wrong or differs(room.names(), before)
    if shutil.which("setpriv") and not os.geteuid():
        yield from names_of_others(room)


def names_of_others(room):
    os.mkdir(room.path("OPEN"), 0o777)
    os.chmod(room.path("OPEN"), 0o777)
    os.mkdir(room.path("SHUT"), 0o755)
    for name in ("OPEN/OUT", "SHUT/OUT"):
        room.put(name, b"old")
    os.chmod(room.path("OPEN/OUT"), 0o444)
    os.chmod(room.path("SHUT/OUT"), 0o666)
    for name in ("OPEN/OUT", "SHUT/OUT", "SHUT/NEW"):
        got = index(room, "FILE", name, before=AS_NOBODY)
        yield "%s as OUT of another" % name, fails(got, 4, b"store fault\n", "%s: %s" % (name, os.strerror(errno.EACCES)))
    held = [os.listdir(room.path(name)) + [read(room.path(name + "/OUT"))] for name in ("OPEN", "SHUT")]
    yield "files of others stay", differs(held, [["OUT", b"old"]] * 2)


def over_itself(room):
    os.symlink("FILE", room.path("LINK"))
    os.link(room.path("FILE"), room.path("SECOND"))
    os.link(room.path("FILE"), room.path("X.debug_str"))
    before = room.names()
    runs = [("FILE", name, kind) for name in ("FILE", "./FILE", "LINK", "SECOND") for kind in ("gdb8", "gdb9", "names")]
    runs += [("LINK", "FILE", "gdb8"), ("LINK", "LINK", "gdb8"), ("FILE", "X", "names"), ("X.debug_str", "X", "names")]
    for file, name, kind in runs:
        got = index(room, file, name, kind)
        wrong = None if got[:2] == (2, b"usage\n") and got[2].startswith(b"gdbix: usage: OUT is FILE itself") else repr(got)
        yield "index --as %s %s %s" % (kind, file, name), wrong or differs(room.names(), before)
    status, out, _ = index(room, "FILE", "X", "gdb8")
    yield "X isn't FILE where it has no strings", differs((status, out), (0, b""))
    status, out, _ = room.run("add", "--as", "gdb8", "FILE", "FILE")
    yield "add over its PROGRAM", differs((status, out, len(read(room.path("FILE"))) > len(before["FILE"])), (0, b"", True))


# Stores that are cut.

def larger(room):
    """The name of a larger program; None where no compiler is here."""
    if not shutil.which("gcc"):
        print("adapters: no compiler is here, so no two programs are stored at once")
        return None
    return compiled("gcc", ("demo.c", "shapes.c"), ("-gdwarf-5",), room.folder)


def cut_stores(room):
    room.put("OUT", b"old" * 10000)
    before = room.names()
    got = index(room, "FILE", "OUT", **limited_to(64))
    wrong = fails(got, 4, b"store fault\n", "OUT: " + os.strerror(errno.EFBIG))
    yield "a store that comes to the limit of a file", wrong or differs(room.names(), before)
    status = index(room, "FILE", "OUT", preexec_fn=lambda: resource.setrlimit(resource.RLIMIT_FSIZE, (64, 64)))[0]
    yield "the signal of that limit ends it", differs((status, read(room.path("OUT"))), (-signal.SIGXFSZ, before["OUT"]))
    status = index(room, "FILE", "OUT")[0]
    yield "a store after one that was cut", differs((status, read(room.path("OUT"))[:4]), (0, b"\x08\0\0\0"))
    os.mkdir(room.path("DISK"))
    if os.geteuid() or subprocess.run(["mount", "-t", "tmpfs", "-o", "size=16k", "none", room.path("DISK")], capture_output=True).returncode:
        print("adapters: no small disk can be had here, so none is filled")
        return
    try:
        yield from full_disk(room)
    finally:
        subprocess.run(["umount", room.path("DISK")], check=True)


def full_disk(room):
    room.put("DISK/OUT", b"old")
    room.put("DISK/REST", b"x" * 4096)
    for size in (4096, 0):
        with open(room.path("DISK/FILLER"), "ab") as filler:
            filler.write(b"x" * size)
        file = larger(room) or "FILE"
        got = room.run("add", "--as", "gdb8", file, "DISK/OUT")
        wrong = fails(got, 4, b"store fault\n", "DISK/OUT: " + os.strerror(errno.ENOSPC))
        yield "a full disk", wrong or differs((sorted(os.listdir(room.path("DISK"))), read(room.path("DISK/OUT"))), (["FILLER", "OUT", "REST"], b"old"))


def two_stores(room):
    file = larger(room)
    if file is None:
        return
    wholes = []
    for name in ("FILE", file):
        index(room, name, "WHOLE")
        wholes.append(read(room.path("WHOLE")))
    room.put("OUT", wholes[0])
    beside = set(os.listdir(room.folder))
    for _ in range(ROUNDS):
        both = [room.start("index", "--as", "gdb8", "--workers", "1", name, "OUT") for name in ("FILE", file)]
        seen = set()
        while any(child.poll() is None for child in both):
            seen.add(read(room.path("OUT")))
        seen.add(read(room.path("OUT")))
        statuses = [child.wait() for child in both]
        yield "two stores at once", differs((statuses, seen <= set(wholes)), ([0, 0], True))
    yield "nothing is left beside", differs(set(os.listdir(room.folder)), beside)


def killed_stores(room):
    file = larger(room) or "FILE"
    began = time.monotonic()
    index(room, file, "OUT")
    takes = time.monotonic() - began
    whole = read(room.path("OUT"))
    chance = random.Random(7)
    for _ in range(KILLS):
        room.put("OUT", b"old")
        child = room.start("index", "--as", "gdb8", file, "OUT", stderr=subprocess.DEVNULL)
        time.sleep(chance.uniform(0.3, 1.1) * takes)
        child.kill()
        child.wait()
        yield "a store that is killed", None if read(room.path("OUT")) in (b"old", whole) else "OUT is neither the old nor the new index"
    yield "a store after those", differs((index(room, file, "OUT")[0], read(room.path("OUT")) == whole), (0, True))


# Words.

def words(room):
    before = room.names()
    for line in ([b"ask", b"FILE", b"\xff"], [b"\xc3"], [b"index", b"--as", b"gdb8", b"FILE", b"O\x80"], [b"--help", b"\xed\xa0\x80"]):
        yield "words %r" % line, fails(room.run(*line), 2, b"usage\n", "a word isn't UTF-8")
    yield "words in Greek are words", differs(room.run("ask", "FILE", "name", "όνομα")[:2], (0, b"found 0\n"))
    yield "nothing is stored", differs(room.names(), before)
    long_words = ["ask", *["x" * 100000] * 12]
    seen = set()
    for limit in range(4 << 20, 24 << 20, 1 << 19):
        try:
            status, out, _ = room.run(*long_words, preexec_fn=lambda: resource.setrlimit(resource.RLIMIT_AS, (limit, limit)))
        except (OSError, subprocess.SubprocessError):
            continue
        # The loader itself may be refused memory: then the program doesn't begin.
        if status not in (127, -signal.SIGSEGV):
            seen.add((status, out))
    right = {(7, b"no memory\n"), (2, b"usage\n")}
    yield "little memory for words", differs(seen, right)


GROUPS = (inputs, outputs, files, changing, names, over_itself, cut_stores, two_stores, killed_stores, words)


def main():
    program = os.path.abspath(sys.argv[1])
    passed, failed = 0, 0
    for group in GROUPS:
        with tempfile.TemporaryDirectory() as folder:
            for what, wrong in group(Room(program, folder)):
                passed += wrong is None
                failed += wrong is not None
                if wrong is not None:
                    print("adapters: %s: %s" % (what, wrong), flush=True)
    print("adapters: %d passed, %d failed" % (passed, failed))
    return 1 if failed or not passed else 0


if __name__ == "__main__":
    sys.exit(main())
