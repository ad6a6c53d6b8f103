#!/usr/bin/env python3
"""python3 front_door.py PROGRAM

Tries PROGRAM as someone does who has just installed it: questions that are answered, mistakes, files of every kind that is refused, an
installation into an empty folder, the man page, and completion in real shells. Of each run it looks at standard output, at standard
error and at the status: a run that fails says why, in a sentence that begins with the program's name and names the file; a run that
answers says nothing, unless it couldn't use a kept index. Of each code of a fault a row is run, and its sentence has to stand there. A tool that is missing is said and passed
over. The last line is 'front door: N passed, M failed'."""
import contextlib
import os
import pty
import re
import resource
import select
import shutil
import subprocess
import sys
import tempfile
import time

TOP = os.path.dirname(os.path.dirname(os.path.abspath(__file__)))
sys.path.insert(0, os.path.join(TOP, "tools"))
import fault_pages  # noqa: E402

SOURCE = "int counter;\nint add(int n) { return counter += n; }\nint main(void) { return add(1); }\n"
COMMANDS = ("ask", "serve", "race", "cached", "index", "add", "look", "aranges", "files", "drill")
TRY = "; try 'gdbix %s--help'\n"

# What is run: the words, the status, and patterns of the whole of standard output and of standard error.
USAGE = [
    ((), "no command" + TRY % ""),
    (("foo",), "unknown command 'foo'" + TRY % ""),
    (("ask",), "ask lacks FILE" + TRY % "ask "),
    (("ask", "app"), "ask lacks QUERY" + TRY % "ask "),
    (("ask", "app", "foo"), "unknown query 'foo'" + TRY % "ask "),
    (("ask", "app", "name"), "name lacks NAME" + TRY % "ask "),
    (("ask", "app", "main", "x"), "'x' is a word too many" + TRY % "ask "),
    (("ask", "app", "addr", "0x10"), "an address is 1 to 16 hexadecimal digits without 0x, not '0x10'" + TRY % "ask "),
    (("ask", "app", "addr", "main"), "an address is 1 to 16 hexadecimal digits without 0x, not 'main'" + TRY % "ask "),
    (("ask", "--workers", "65", "app", "main"), "--workers is a number from 1 to 64, not '65'" + TRY % "ask "),
    (("ask", "--workers", "app", "main"), "--workers is a number from 1 to 64, not 'app'" + TRY % "ask "),
    (("ask", "--jobs", "4", "app", "main"), "'--jobs' isn't an option of ask, or stands in another place" + TRY % "ask "),
    (("index", "app", "out"), "index lacks --as" + TRY % "index "),
    (("index", "--as", "elf", "app", "out"), "--as is gdb8, gdb9 or names, not 'elf'" + TRY % "index "),
    (("add", "--as", "gdb8", "app"), "add lacks OUT" + TRY % "add "),
    (("look",), "look lacks gdb or names" + TRY % "look "),
    (("look", "gdb", "idx", "simple", "main"), "unknown query 'simple'" + TRY % "look "),
    (("files", "app"), "files lacks NAME" + TRY % "files "),
    (("serve",), "serve lacks FILE" + TRY % "serve "),
    (("serve", "--wait", "4", "app"), "--wait is a number from 0 to 3, not '4'" + TRY % "serve "),
    (("drill", "7", "0", "4"), "UNITS is a number from 1 to 100000, not '0'" + TRY % "drill "),
]
REFUSED = [
    (("ask", "app.o", "main"), "refused 2 10\n", r"app\.o: not a 64-bit .*\(byte 0x10 of the file\); link .*"),
    (("ask", "packed", "main"), r"refused 4 [0-9a-f]+\n", r"packed: a debug section is compressed \(section \[\d+\] \.debug_\w+\); run objcopy --decompress-debug-sections first"),
    (("ask", "bare", "main"), "refused 5 0\n", r"bare: no debug information: .*; compile with -g.*"),
    (("ask", "app.c", "main"), "refused 1 0\n", r"app\.c: not an ELF file; .*"),
    (("add", "--as", "gdb8", "packed", "out"), r"refused 4 [0-9a-f]+\n", r"packed: a debug section is compressed .*"),
    (("aranges", "bare"), "refused 5 0\n", r"bare: no debug information.*"),
]
ENDS = [
    (("ask", "gone", "main"), 3, "read fault\n", "gone: No such file or directory"),
    (("ask", ".", "main"), 3, "read fault\n", r"\.: Is a directory"),
    (("look", "names", "app.c", "gone", "name", "main"), 3, "read fault\n", "gone: No such file or directory"),
    (("race", "app", "gone"), 3, "read fault\n", "gone: No such file or directory"),
    (("index", "--as", "gdb8", "app", "none/out"), 4, "store fault\n", "none/out: Not a directory"),
    (("look", "gdb", "app.c", "name", "main"), 8, "index refused 40 0\n", r"app\.c: no \.gdb_index of version 8 or 9 .*"),
    (("look", "names", "names", "none", "name", "main"), 8, r"index refused 56 [0-9a-f]+\n", r"names: a name isn't in the strings .*; give the strings .*"),
    (("race", "app", "big"), 10, "file too big\n", r"app or big: too big: .*"),
    (("race", "app", "long"), 11, None, "a line has more than 65,536 bytes.*"),
    (("add", "--as", "gdb8", "indexed", "out"), 12, "already indexed\n", "indexed: already has such an index; remove it .*"),
]
ANSWERED = [
    (("--version",), r"gdbix \d+\.\d+\.\d+\n"),
    (("ask", "app", "name", "main"), r"found 1\n0 [0-9a-f]+ 2e function global name main\n"),
    (("ask", "app", "simple", "nothing"), r"found 0\n"),
    (("ask", "app", "main"), r"main [0-9a-f]+ main\n"),
    (("ask", "app", "addr", "0"), r"none\n"),
    (("ask", "unpacked", "name", "add"), r"found 1\n0 [0-9a-f]+ 2e function global name add\n"),
    (("aranges", "app"), r"agrees\n"),
    (("files", "app", "app.c"), r"found [12]\n(?:0 \d+ \d+ .*app\.c\n)+"),
    (("add", "--as", "gdb9", "app", "with9"), ""),
    (("index", "--as", "gdb8", "app", "app.idx"), ""),
    (("look", "gdb", "app.idx", "name", "add"), "found 1\n0 function global add\n"),
    (("add", "--as", "names", "app", "named"), ""),
    (("drill", "7", "10", "2"), r"units 10 entries \d+ names \d+ gdb8 \d+ dbgnames \d+ \d+ main main\n"),
]


class Door:
    """The program, the folder in which it is run, and what was found."""

    def __init__(self, program, folder):
        self.program, self.folder = program, folder
        self.passed, self.failed = 0, 0

    def run(self, *words, **how):
        how.setdefault("stdin", subprocess.DEVNULL)
        how.setdefault("stdout", subprocess.PIPE)
        done = subprocess.run([self.program, *words], cwd=self.folder, stderr=subprocess.PIPE, timeout=120, **how)
        return done.returncode, (done.stdout or b"").decode(errors="replace"), done.stderr.decode(errors="replace")

    def note(self, what, wrong):
        if wrong is None:
            self.passed += 1
        else:
            self.failed += 1
            print(f"front door: {what}: {wrong}")

    def expect(self, words, status, out, err, **how):
        """Runs it, and compares: the pattern of standard output, None for any; that of the sentence, None for no sentence."""
        self.note(" ".join(map(str, words)) or "no words", differs(self.run(*words, **how), status, out, err))


def differs(got, status, out, err):
    said = "" if err is None else r"gdbix: (?:%s)\n?" % err
    if got[0] != status:
        return "status %d, not %d; %r" % (got[0], status, got[1] + got[2])
    if out is not None and not re.fullmatch(out, got[1]):
        return "wrote %r" % got[1]
    if not re.fullmatch(said, got[2]):
        return "said %r on standard error" % got[2]
    return None


def prepare(folder):
    """The files of the cases."""
    def make(*words):
        subprocess.run(words, cwd=folder, check=True, capture_output=True)

    with open(os.path.join(folder, "app.c"), "w", encoding="utf-8") as file:
        file.write(SOURCE)
    make("gcc", "-g", "-gz=none", "-o", "app", "app.c")
    make("gcc", "-g", "-gz=none", "-c", "app.c")
    make("gcc", "-g", "-gz=zlib", "-o", "packed", "app.c")
    make("objcopy", "--decompress-debug-sections", "packed", "unpacked")
    make("strip", "-o", "bare", "app")
    for name, size in (("big", 1048577), ("long", 70000), ("none", 0)):
        with open(os.path.join(folder, name), "w", encoding="utf-8") as file:
            file.write("x" * size)


def try_words(door):
    for words, sentence in USAGE:
        door.expect(words, 2, "usage\n", re.escape("usage: " + sentence.rstrip("\n")))
    door.expect((b"ask", b"app", b"name", b"\xff"), 2, "usage\n", "usage: .*")
    for words in (("--help",), ("-h",)):
        status, out, err = door.run(*words)
        missing = [command for command in COMMANDS if not re.search(rf"gdbix {command}\b", out)]
        door.note(" ".join(words), None if (status, err, missing) == (0, "", []) else f"status {status}, {err!r}, without {missing}")
    for command in COMMANDS:
        for word in ("--help", "-h"):
            door.expect((command, word), 0, rf"(?s)usage: gdbix {command} .*\n", None)


def try_usage_rows(door):
    """A row outside the grammar is told which word is wrong."""
    for base in fault_pages.ROWS:
        for row in sorted(os.listdir(os.path.join(TOP, base))):
            folder = os.path.join(TOP, base, row)
            if os.path.exists(os.path.join(folder, "status")) and fault_pages.read(folder, "status").strip() == "2":
                words = fault_pages.read(folder, "args").split("\n")[:-1] if os.path.exists(os.path.join(folder, "args")) else []
                got = door.run(*words)
                door.note(row, "said %r" % got[2] if "aren't in the grammar" in got[2] else differs(got, 2, "usage\n", "usage: .*"))


def try_files(door):
    for words, out in ANSWERED:
        door.expect(words, 0, out, None)
    for words, out, err in REFUSED:
        door.expect(words, 1, out, err)
    door.run("add", "--as", "gdb8", "app", "indexed")
    door.run("index", "--as", "names", "app", "names")
    for words, status, out, err in ENDS:
        door.expect(words, status, out, err)


def try_streams(door):
    lines = b"main\nname add\nnonsense\n"
    out = r"3 main [0-9a-f]+ main\n3 found 1\n0 [0-9a-f]+ 2e function global name add\n- bad query\n"
    door.expect(("serve", "--wait", "3", "app"), 0, out, None, stdin=None, input=lines)
    door.expect(("serve", "--wait", "3", "packed"), 1, r"4 refused 4 [0-9a-f]+\n", "packed: a debug section is compressed .*", stdin=None, input=b"main\n")
    with open("/dev/full", "wb") as full:
        door.expect(("ask", "app", "name", "main"), 5, None, "standard output: No space left on device", stdout=full)
        door.expect(("--help",), 5, None, "standard output: No space left on device", stdout=full)
    folder = os.open(door.folder, os.O_RDONLY)
    door.expect(("serve", "app"), 6, None, "standard input: Is a directory", stdin=folder)
    os.close(folder)


def try_little_memory(door):
    """The first run with so little memory that it ends for want of it, and not before it begins."""
    for size in range(16 << 20, 1, -1 << 20):
        got = door.run("ask", "app", "main", preexec_fn=lambda: resource.setrlimit(resource.RLIMIT_AS, (size, size)))
        if got[0] == 7:
            return door.note("little memory", differs(got, 7, "no memory\n", "out of memory; .*"))
        if got[0] != 0:
            break
    print("front door: no run ended for want of memory, passed over")
    return None


def try_kept(door):
    found = r"found 1\n0 function global main\n"
    words = ("cached", "app", "kept/", "name", "main")
    door.expect(words, 0, "unsaved\n" + found, None)
    os.mkdir(os.path.join(door.folder, "kept"))
    door.expect(words, 0, "stored\n" + found, None)
    door.expect(words, 0, "hit\n" + found, None)
    door.expect(("cached", "gone", "kept/", "main"), 3, "read fault\n", "gone: No such file or directory")


def try_codes(door):
    """A row for each code has its sentence. One of a kept index comes with an answer."""
    rows = fault_pages.shown()
    for code, _, _, sentence, _ in fault_pages.faults():
        row = rows.get(code)
        if row is None:
            continue        # .ci/too_large.py looks at its sentence
        folder = os.path.join(TOP, row)
        words = fault_pages.read(folder, "args").split("\n")[:-1]
        with tempfile.TemporaryDirectory() as room:
            shutil.copytree(folder, room, dirs_exist_ok=True)
            status, _, err = Door(door.program, room).run(*words)
        wrong = (status == 0) != (code >= 80) or not err.startswith("gdbix: ") or sentence not in err
        door.note(f"code {code} ({row})", f"status {status}, said {err!r}" if wrong else None)


def try_readme(door):
    """The examples of README.md, run in their order over the small program: what they write but for numbers, which compilers decide."""
    examples = fault_pages.read(TOP, "README.md").split("## Four examples", 1)[1].split("\n## ", 1)[0]
    bin_folder = os.path.join(door.folder, "bin")
    os.mkdir(bin_folder)
    os.symlink(door.program, os.path.join(bin_folder, "gdbix"))
    environment = {**os.environ, "PATH": bin_folder + ":" + os.environ["PATH"]}
    for example in re.split(r"^    \$ ", examples, flags=re.M)[1:]:
        command, _, wanted = example.partition("\n")
        if "gdb " in command and shutil.which("gdb") is None:
            print("front door: no gdb, an example is passed over")
            continue
        done = subprocess.run(["bash", "-c", command], cwd=door.folder, env=environment, capture_output=True, text=True)
        shapes = [re.sub(r"\b[0-9a-f]+\b", "#", text).split() for text in (done.stdout, wanted)]
        door.note("README.md: " + command, None if shapes[0] == shapes[1] and not done.stderr else f"wrote {done.stdout + done.stderr!r}")


def try_install(door):
    prefix = os.path.join(door.folder, "prefix")
    done = subprocess.run([os.path.join(TOP, "install.sh"), prefix], env={**os.environ, "GDBIX": door.program}, capture_output=True, text=True)
    names = ("bin/gdbix", "share/man/man1/gdbix.1", "share/bash-completion/completions/gdbix", "share/zsh/site-functions/_gdbix")
    missing = [name for name in names if not os.path.isfile(os.path.join(prefix, name)) or f"{prefix}/{name}\n" not in done.stdout]
    door.note("install.sh", f"status {done.returncode}, without {missing}, {done.stderr!r}" if done.returncode or missing else None)
    said = subprocess.run([os.path.join(prefix, "bin", "gdbix"), "--version"], capture_output=True, text=True)
    door.note("the installed program", None if said.stdout.startswith("gdbix ") else f"wrote {said.stdout!r}")
    page = os.path.join(prefix, "share/man/man1/gdbix.1")
    if shutil.which("mandoc"):
        lint = subprocess.run(["mandoc", "-Tlint", page], capture_output=True, text=True)
        door.note("mandoc -Tlint", lint.stdout or None)
        text = subprocess.run(["mandoc", "-Tascii", page], capture_output=True, text=True).stdout
    elif shutil.which("man"):
        text = subprocess.run(["man", page], capture_output=True, text=True).stdout
    else:
        return print("front door: neither mandoc nor man, passed over")
    plain = re.sub(".\b", "", text)
    door.note("the man page", None if "EXIT STATUS" in plain and "index refused CODE PLACE" in plain else f"{plain[:200]!r}")
    return None


@contextlib.contextmanager
def shell(folder, words):
    """A shell on a terminal of its own: what is typed into it, and what it shows."""
    child, terminal = pty.fork()
    if child == 0:
        os.chdir(folder)
        os.environ.update(TERM="dumb", PS1="READY ", PATH=os.environ["PATH"])
        os.execvp(words[0], words)
    try:
        yield terminal
    finally:
        os.kill(child, 9)
        os.waitpid(child, 0)
        os.close(terminal)


def typed(terminal, text, wanted):
    """Types text; whether the shell then shows what is wanted, within ten seconds, and all that it showed."""
    os.write(terminal, text.encode())
    shown, end = "", time.monotonic() + 10
    while wanted not in shown and time.monotonic() < end:
        if select.select([terminal], [], [], 0.2)[0]:
            shown += os.read(terminal, 4096).decode(errors="replace")
    return wanted in shown, shown


def try_completion(door):
    shells = {
        "bash": (["bash", "--norc", "--noprofile", "-i"], f". {TOP}/completions/gdbix.bash\n"),
        "zsh": (["zsh", "-f", "-i"], f"fpath=({TOP}/completions $fpath); autoload -Uz compinit; compinit -u -D; PS1='READY '\n"),
    }
    begun = (("gdbix aran", "aranges "), ("gdbix ask --w", "--workers "), ("gdbix index --as na", "names "), ("gdbix ask app si", "simple "))
    for name, (words, first) in shells.items():
        if shutil.which(name) is None:
            print(f"front door: no {name}, passed over")
            continue
        for text, wanted in begun:
            with shell(door.folder, words) as terminal:
                typed(terminal, first + "echo be''gun\n", "begun")
                found, shown = typed(terminal, text + "\t", text.rsplit(" ", 1)[0] + " " + wanted)
            door.note(f"{name}: {text}", None if found else f"shows {shown!r}")


def main():
    with tempfile.TemporaryDirectory() as folder:
        door = Door(os.path.abspath(sys.argv[1]), folder)
        prepare(folder)
        for part in (try_words, try_usage_rows, try_files, try_streams, try_little_memory, try_kept, try_codes, try_readme, try_install, try_completion):
            part(door)
    print("front door: %d passed, %d failed" % (door.passed, door.failed))
    return 1 if door.failed or not door.passed else 0


if __name__ == "__main__":
    sys.exit(main())
