#!/usr/bin/env python3
"""python3 many.py PROGRAM

Has the scripts of contrib/ give a tree of 60 compiled files their indexes: by GNU parallel, by make, as tasks of a slurm array, and as
gdb-add-index in a build of a package. Every file is done but those that are to be refused (compressed, cut, and one with a supplementary
file), and they are named with what helps; each stored file has the bytes of `add` alone, whatever the number of jobs; a run that is killed
or stopped goes on without doing work twice, and leaves nothing. parallel and slurm come from Debian's packages, which are unpacked in a
folder of this check where they aren't installed; where they can't be had, that is said. The last line is 'many: N passed, M failed'."""
import concurrent.futures
import glob
import os
import re
import shutil
import signal
import socket
import subprocess
import sys
import tempfile
import time

HERE = os.path.dirname(os.path.abspath(__file__))
TOP = os.path.dirname(HERE)
CONTRIB = os.path.join(TOP, "contrib")
FILES = 60
# The places of the files that aren't as the others.
CUT, INDEXED, OF_DWZ, ODD_NAME = 7, 17, 27, 37
SLURM = ("slurmctld", "slurmd", "slurm-client", "slurm-wlm-basic-plugins", "libmunge2", "libhwloc15", "liblua5.1-0")
LIBRARIES = "usr/lib/x86_64-linux-gnu"

C = """struct part%(n)d { int weight, height; };
static int inner%(n)d(struct part%(n)d *it) { return it->weight * %(n)d + it->height; }
int outer%(n)d(int weight) { struct part%(n)d it = {weight, %(n)d}; return inner%(n)d(&it); }
"""
CXX = """namespace shelf%(n)d { template <class T> struct Box { T held; T get() const { return held; } };
long total(long a) { Box<long> box{a}; return box.get() + %(n)d; } }
long outer%(n)d(long a) { return shelf%(n)d::total(a); }
"""
# gdbix as the scripts call it: each call leaves a line, and what the check wants to happen at a file happens.
CALLS = """#!/bin/sh
for file; do case $file in /*) break ;; esac; done
echo "$file" >>"$CALLS"
case $file in *"${STOPS_AT:-none}"*) exit 7 ;; esac
sleep "${PAUSE:-0}"
exec "$PROGRAM" "$@"
"""


def read(path):
    with open(path, "rb") as file:
        return file.read()


def write(path, text, mode=0o644):
    with open(path, "w", encoding="utf-8") as file:
        file.write(text)
    os.chmod(path, mode)


def differs(got, want):
    """None where both are the same, and else a text that shows both."""
    return None if got == want else "%s, not %s" % (repr(got)[:300], repr(want)[:300])


def files_below(folder):
    """What stands below a folder: the bytes of each file, by its place."""
    found = {}
    for at, _, names in os.walk(folder):
        for name in names:
            path = os.path.join(at, name)
            found[os.path.relpath(path, folder)] = read(path)
    return found


class Room:
    """A folder with the tree, the program and the tools."""

    def __init__(self, program, folder):
        self.folder = folder
        self.program = program
        self.tree = self.path("tree")
        self.calls = self.path("calls")
        write(self.path("gdbix"), CALLS, 0o755)
        self.environment = {**os.environ, "GDBIX": self.path("gdbix"), "PROGRAM": program, "CALLS": self.calls, "HOME": folder}

    def path(self, *names):
        return os.path.join(self.folder, *names)

    def names(self, place):
        """The place of a file in the tree."""
        folder, suffix = ("a", ".debug") if place % 2 else (os.path.join("b", "c"), ".so")
        return os.path.join("odd names", "it's \"%d\".so" % place) if place == ODD_NAME else os.path.join(folder, "lib%d%s" % (place, suffix))

    def compile(self, place):
        """The library of this number."""
        compiler, text, suffix = ("gcc", C, "c") if place % 3 else ("g++", CXX, "cc")
        source, file = self.path("%d.%s" % (place, suffix)), os.path.join(self.tree, self.names(place))
        write(source, text % {"n": place})
        compressed = ["-gz"] if place % 10 == 3 else []
        subprocess.run([compiler, "-g", *compressed, "-shared", "-fPIC", "-nostdlib", "-o", file, source], check=True, capture_output=True)

    def fill(self):
        """Makes the tree, and what has to come of it: the bytes of each file that is done, and a word of each that is refused."""
        for place in range(FILES):
            os.makedirs(os.path.dirname(os.path.join(self.tree, self.names(place))), exist_ok=True)
        with concurrent.futures.ThreadPoolExecutor(4) as pool:
            list(pool.map(self.compile, range(FILES)))
        cut, indexed, of_dwz = (os.path.join(self.tree, self.names(place)) for place in (CUT, INDEXED, OF_DWZ))
        os.truncate(cut, os.path.getsize(cut) // 2)
        subprocess.run([self.program, "add", "--as", "gdb8", indexed, indexed], check=True)
        supplement(of_dwz)
        self.done, self.refused = {}, {}
        for place in range(FILES):
            name, out = self.names(place), self.path("alone")
            status = subprocess.run([self.program, "add", "--as", "gdb8", os.path.join(self.tree, name), out], capture_output=True).returncode
            if status == 1:
                self.refused[name] = "is cut or damaged" if place == CUT else "--no-dwz-multifile" if place == OF_DWZ else "run objcopy --decompress-debug-sections"
            else:
                self.done[name] = read(out if status == 0 else os.path.join(self.tree, name))

    def run(self, *words, **more):
        """Status, output and what is said on standard error."""
        done = subprocess.run(words, cwd=self.folder, env={**self.environment, **more}, capture_output=True, text=True, stdin=subprocess.DEVNULL, timeout=100)
        return done.returncode, done.stdout, done.stderr

    def index_tree(self, out, *words, how=(), **more):
        return self.run(os.path.join(CONTRIB, "index-tree"), *how, self.tree, self.path(out), *words, **more)

    def called(self):
        """The files for which gdbix was called since this was asked last."""
        lines = read(self.calls).decode().splitlines() if os.path.exists(self.calls) else []
        write(self.calls, "")
        return [os.path.relpath(line, self.tree) for line in lines]

    def wrong_refusals(self, said, tree=None):
        """What is wrong with the lines that name the refused files."""
        wanted = self.refused if tree is None else tree
        lines = {os.path.relpath(line.split(": status ")[0], self.tree): line for line in said.splitlines()}
        missing = [name for name, word in wanted.items() if word not in lines.get(name, "")]
        return "not named with what helps: %s" % missing if missing else differs(sorted(lines), sorted(wanted))


def supplement(file):
    """Has a library as dwz -m leaves it: the name of its producer lies in a supplementary file, which a section names."""
    held = read(file)
    # DW_AT_producer with DW_FORM_strp becomes one with DW_FORM_strp_sup (DWARF 5, 7.5.6).
    with open(file, "wb") as out:
        out.write(held.replace(b"\x25\x0e", b"\x25\x1d", 1))
    link = file + ".link"
    write(link, "common.debug\0")
    subprocess.run(["objcopy", "--add-section", ".gnu_debugaltlink=" + link, file], check=True)
    os.remove(link)


# Packages of Debian, unpacked here where they aren't installed.

def unpacked(room, *packages):
    """The folder with what is in the packages; None where they can't be had."""
    folder = room.path("of_" + packages[0])
    os.makedirs(folder)
    if not shutil.which("apt-get"):
        return None
    try:
        subprocess.run(["apt-get", "-q", "download", *packages], cwd=folder, capture_output=True, timeout=60, check=True)
    except (subprocess.CalledProcessError, subprocess.TimeoutExpired):
        return None
    for package in glob.glob(os.path.join(folder, "*.deb")):
        subprocess.run(["dpkg", "-x", package, folder], check=True)
    return folder


def has_parallel(room):
    # moreutils has another program of this name.
    if shutil.which("parallel") and room.run("parallel", "--version")[1].startswith("GNU parallel"):
        return True
    folder = unpacked(room, "parallel")
    if folder is None:
        print("many: GNU parallel is neither installed nor to be had, so index-tree wasn't tried")
        return False
    room.environment["PATH"] = os.path.join(folder, "usr", "bin") + ":" + room.environment["PATH"]
    return True


def scripts(room):
    if not shutil.which("shellcheck"):
        print("many: shellcheck is missing here, so the scripts weren't looked at")
        return
    names = [os.path.join(CONTRIB, name) for name in ("index-one", "index-tree", "index-array.sbatch", "gdb-add-index")]
    yield "shellcheck is silent", differs(room.run("shellcheck", *names), (0, "", ""))


# By GNU parallel.

def trees(room):
    status, out, said = room.run(room.program, "add", "--as", "gdb8", os.path.join(room.tree, room.names(0)), room.path("quiet"))
    yield "add writes nothing where all is well", differs((status, out, said), (0, "", ""))
    for jobs in ("1", "4"):
        out = "by" + jobs
        status, said, wrong = room.index_tree(out, "-j", jobs)
        yield "%s jobs end well" % jobs, differs((status, said, wrong), (0, "60 files, %d refused: %s.run/refused\n" % (len(room.refused), room.path(out)), ""))
        yield "%s jobs store what `add` stores" % jobs, differs(sorted(files_below(room.path(out)).items()), sorted(room.done.items()))
        yield "%s jobs name what is refused" % jobs, room.wrong_refusals(read(room.path(out + ".run", "refused")).decode())
        yield "%s jobs call the program once a file" % jobs, differs(sorted(room.called()), sorted([*room.done, *room.refused]))
    room.index_tree("by4", "-j", "4")
    yield "what is there isn't done again", differs(sorted(room.called()), sorted(room.refused))
    status = room.index_tree("plain", how=("--decompress",))[0]
    compressed = [name for name, word in room.refused.items() if "objcopy" in word]
    left = {name: word for name, word in room.refused.items() if name not in compressed}
    yield "compressed files are done by a decompressed copy", differs((status, sorted(files_below(room.path("plain")))), (0, sorted([*room.done, *compressed])))
    yield "the others stay refused", room.wrong_refusals(read(room.path("plain.run", "refused")).decode(), left)
    write(room.path("objcopy"), "#!/bin/sh\necho 'objcopy: no' >&2\nexit 1\n", 0o755)
    one = [os.path.join(CONTRIB, "index-one"), "--decompress", os.path.join(room.tree, compressed[0]), room.path("one")]
    status, said, _ = room.run(*one, PATH=room.folder + ":" + room.environment["PATH"])
    os.remove(room.path("objcopy"))
    yield "what can't be decompressed is refused", differs((status, said.count("\n"), said.endswith(": objcopy: no\n")), (0, 1, True))
    room.called()
    yield from in_place(room)


def in_place(room):
    """The tree itself, of a copy."""
    copy = room.path("copy")
    shutil.copytree(room.tree, copy)
    status = room.run(os.path.join(CONTRIB, "index-tree"), copy, copy)[0]
    unchanged = {name: read(os.path.join(room.tree, name)) for name in room.refused}
    yield "a tree in its place", differs((status, sorted(files_below(copy).items())), (0, sorted({**room.done, **unchanged}.items())))
    room.called()


def resumed(room):
    """A run that is killed with all that it started, and one that is stopped by a file."""
    child = subprocess.Popen([os.path.join(CONTRIB, "index-tree"), room.tree, room.path("killed"), "-j", "4"], env={**room.environment, "PAUSE": "0.2"},
                             stdout=subprocess.DEVNULL, stderr=subprocess.DEVNULL, start_new_session=True)
    log, began = room.path("killed.run", "jobs"), time.monotonic()
    while not (os.path.exists(log) and read(log).count(b"\n") > 12) and time.monotonic() - began < 30:
        time.sleep(0.02)
    kill_all(child)
    there = {name for name in files_below(room.path("killed")) if ".gdbix-part." not in name}
    before = room.called()
    yield "a run is killed amid its work", None if 0 < len(there) < len(room.done) and len(before) > len(there) else "%d files are there" % len(there)
    status = room.index_tree("killed", "-j", "4")[0]
    after = room.called()
    yield "it goes on to its end", differs((status, sorted(files_below(room.path("killed")).items())), (0, sorted(room.done.items())))
    yield "what was stored isn't done again", differs([name for name in after if name in there], [])
    twice = set(before) & set(after)
    yield "only what ran at the kill is done twice", None if len(twice) <= 8 and len(before) + len(after) <= FILES + 8 else "twice: %s" % sorted(twice)
    yield "it names what is refused", room.wrong_refusals(read(room.path("killed.run", "refused")).decode())
    yield from stopped(room)


def kill_all(child):
    """Kills a child and all that it started, which may stand in groups of their own."""
    doomed, found = {child.pid}, True
    os.kill(child.pid, signal.SIGSTOP)
    while found:
        found = False
        for stat in glob.glob("/proc/[0-9]*/stat"):
            try:
                words = read(stat).decode(errors="replace").rpartition(")")[2].split()
            except OSError:
                continue
            pid = int(stat.split("/")[2])
            if int(words[1]) in doomed and pid not in doomed:
                doomed.add(pid)
                found = True
    for pid in sorted(doomed, reverse=True):
        try:
            os.kill(pid, signal.SIGKILL)
        except ProcessLookupError:
            pass
    child.wait()


def stopped(room):
    name = room.names(40)
    status, out, said = room.index_tree("stopped", "-j", "1", STOPS_AT=os.path.basename(name))
    yield "no memory stops a run", differs((status, out, "stopped with status 7" in said, name + ": status 7" in said), (7, "", True, True))
    before = room.called()
    status = room.index_tree("stopped", "-j", "2")[0]
    after = room.called()
    yield "and it goes on", differs((status, sorted(files_below(room.path("stopped")).items())), (0, sorted(room.done.items())))
    yield "with the file that stopped it", differs(sorted(set(before) & set(after)), [name])
    yield "which isn't named as refused", room.wrong_refusals(read(room.path("stopped.run", "refused")).decode())
    status, _, said = room.index_tree("other", "-j", "1", STOPS_AT=os.path.basename(name))
    other = room.index_tree("other", how=("--as", "names"))
    yield "other words don't go on with it", differs((status, other[0], "other words" in other[2]), (7, 2, True))
    room.called()


# By make.

def makes(room):
    words = ["make", "-s", "-j4", "-f", os.path.join(CONTRIB, "gdbix.mk"), "FROM=" + os.path.join(room.tree, "a"), "TO=" + room.path("made")]
    done = {os.path.relpath(name, "a"): held for name, held in room.done.items() if name.startswith("a/")}
    refused = {name: word for name, word in room.refused.items() if name.startswith("a/")}
    status, out, said = room.run(*words)
    yield "make ends well", differs((status, said), (0, ""))
    yield "make names what is refused", room.wrong_refusals(out, refused)
    yield "make stores what `add` stores", differs(sorted(files_below(room.path("made")).items()), sorted(done.items()))
    room.called()
    newer = sorted(done)[0]
    os.utime(os.path.join(room.tree, "a", newer))
    room.run(*words)
    yield "make does again what is newer", differs(sorted(room.called()), sorted([*refused, "a/" + newer]))
    room.run(*words)
    yield "and that alone", differs(sorted(room.called()), sorted(refused))


# In the build of a package.

def packages(room):
    hook, file, link = os.path.join(CONTRIB, "gdb-add-index"), room.path("program"), room.path("link")
    subprocess.run(["gcc", "-g", "-o", file, *(os.path.join(HERE, "programs", name) for name in ("demo.c", "shapes.c"))], check=True)
    os.link(file, link)
    yield "as gdb-add-index", differs(room.run(hook, file), (0, "", ""))
    yield "names of one file stay so", differs((os.path.samefile(file, link), os.access(file, os.X_OK)), (True, True))
    # What dh_strip runs.
    debug = room.path("program.debug")
    for words in (["objcopy", "--only-keep-debug", "--compress-debug-sections", file, debug],
                  ["strip", "--remove-section=.comment", "--remove-section=.note", file], ["objcopy", "--add-gnu-debuglink", debug, file]):
        subprocess.run(words, check=True)
    if shutil.which("gdb"):
        shown = room.run("gdb", "-nx", "-batch", "-iex", "set debuginfod enabled off", "-ex", "maint print objfiles", "-ex", "break main", file)[1]
        yield "gdb uses it in the stripped debug file", None if ".gdb_index: version 8" in shown and "Breakpoint 1" in shown else shown[:200]
    status, out, said = room.run(hook, debug)
    yield "a refused file is named and no error", differs((status, out, "objcopy --decompress-debug-sections" in said), (0, "", True))
    with_names = room.path("names")
    shutil.copy(os.path.join(room.tree, room.names(1)), with_names)
    yield "-dwarf-5", differs((room.run(hook, "-dwarf-5", with_names), b".debug_names\0" in read(with_names)), ((0, "", ""), True))
    room.called()


# As a slurm array.

def arrays(room):
    names = [name for name in sorted(room.done) + sorted(room.refused)]
    write(room.path("list"), "".join(name + "\n" for name in names))
    room.environment["PATH"] = "%s:%s" % (CONTRIB, room.environment["PATH"])
    words = [os.path.join(CONTRIB, "index-array.sbatch"), "4", room.path("list"), room.tree, room.path("array")]
    slurm = "/" if all(map(os.path.exists, ("/usr/sbin/slurmctld-wlm", "/usr/sbin/slurmd-wlm", "/usr/bin/sbatch"))) else unpacked(room, *SLURM)
    ran = None
    if slurm is not None:
        with Cluster(room, slurm) as cluster:
            ran = cluster.array(words) if cluster.idle else None
    if ran is None:
        print("many: slurm %s, so the array's script was run without it, with SLURM_ARRAY_TASK_ID set" % ("can't be had" if slurm is None else "doesn't start here"))
        tasks = [room.run(*words, SLURM_ARRAY_TASK_ID=str(task)) for task in range(4)]
        ran = [status for status, _, _ in tasks], "".join(out for _, out, _ in tasks)
    statuses, said = ran
    yield "the tasks end well", differs(statuses, [0] * 4)
    yield "the tasks store what `add` stores", differs(sorted(files_below(room.path("array")).items()), sorted(room.done.items()))
    yield "the tasks name what is refused", room.wrong_refusals(said)
    yield "each file is done once", differs(sorted(room.called()), sorted(names))


class Cluster:
    """slurm on this machine alone, with all that it keeps in a folder of the check."""

    def __init__(self, room, unpacked_at):
        self.room, self.at = room, unpacked_at
        self.folder = room.path("slurm")
        libraries = os.path.join(unpacked_at, LIBRARIES)
        room.environment["LD_LIBRARY_PATH"] = "%s:%s/slurm-wlm" % (libraries, libraries)
        room.environment["SLURM_CONF"] = os.path.join(self.folder, "slurm.conf")
        for name in ("state", "spool"):
            os.makedirs(os.path.join(self.folder, name))
        write(room.environment["SLURM_CONF"], self.settings(libraries + "/slurm-wlm"))

    def settings(self, plugins):
        user, host = subprocess.run(["id", "-un"], capture_output=True, text=True).stdout.strip(), socket.gethostname()
        ports = [free_port(), free_port()]
        lines = ["ClusterName=many", "SlurmctldHost=%s(127.0.0.1)" % host, "SlurmUser=" + user, "SlurmdUser=" + user, "AuthType=auth/none", "CredType=cred/none",
                 "PluginDir=" + plugins, "SlurmctldPort=%d" % ports[0], "SlurmdPort=%d" % ports[1], "StateSaveLocation=%s/state" % self.folder,
                 "SlurmdSpoolDir=%s/spool" % self.folder, "SlurmctldPidFile=%s/controller.pid" % self.folder, "SlurmdPidFile=%s/node.pid" % self.folder,
                 "ProctrackType=proctrack/pgid", "TaskPlugin=task/none", "SwitchType=switch/none", "MpiDefault=none", "SchedulerType=sched/builtin",
                 "SelectType=select/cons_tres", "SelectTypeParameters=CR_Core", "ReturnToService=2", "JobAcctGatherType=jobacct_gather/none",
                 "SlurmdParameters=config_overrides", "NodeName=%s NodeAddr=127.0.0.1 CPUs=4 RealMemory=1000 State=UNKNOWN" % host,
                 "PartitionName=all Nodes=%s Default=YES State=UP MaxTime=10" % host]
        return "\n".join(lines) + "\n"

    def tool(self, name):
        return os.path.join(self.at, "usr", "bin", name)

    def __enter__(self):
        server = os.path.join(self.at, "usr", "sbin")
        self.started = []
        for words in (["slurmctld-wlm", "-D", "-c"], ["slurmd-wlm", "-D", "-c", "-d", server + "/slurmstepd-wlm"]):
            log = open(os.path.join(self.folder, words[0] + ".log"), "w")
            self.started.append(subprocess.Popen([os.path.join(server, words[0]), *words[1:]], env=self.room.environment, cwd=self.folder, stdout=log, stderr=log))
        began, self.idle = time.monotonic(), False
        while not self.idle and time.monotonic() - began < 20:
            time.sleep(0.2)
            self.idle = "idle" in self.room.run(self.tool("sinfo"), "-h", "-o", "%T")[1]
        return self

    def array(self, words):
        """The statuses of the four tasks of the array, and what they wrote."""
        out = os.path.join(self.folder, "task.%a")
        made = self.room.run(self.tool("sbatch"), "--wait", "--array=0-3", "-o", out, *words)
        outputs = [out.replace("%a", str(task)) for task in range(4)]
        said = "".join(read(path).decode() for path in outputs if os.path.exists(path))
        shown = self.room.run(self.tool("scontrol"), "show", "jobs")[1]
        statuses = [int(status) for status in re.findall(r"ExitCode=(\d+):", shown)]
        return (statuses if made[0] == 0 else [made]), said

    def __exit__(self, *_):
        for child in reversed(self.started):
            child.terminate()
        for child in self.started:
            child.wait(timeout=30)


def free_port():
    with socket.create_server(("127.0.0.1", 0)) as server:
        return server.getsockname()[1]


def main():
    program = os.path.abspath(sys.argv[1])
    missing = [tool for tool in ("gcc", "g++", "objcopy", "readelf", "make") if shutil.which(tool) is None]
    if missing:
        print("many: %s is missing here\nmany: 0 passed, 1 failed" % " and ".join(missing))
        return 1
    passed, failed = 0, 0
    with tempfile.TemporaryDirectory() as folder:
        room = Room(program, folder)
        room.fill()
        for group in (scripts, *((trees, resumed) if has_parallel(room) else ()), makes, packages, arrays):
            began = time.monotonic()
            for what, wrong in group(room):
                passed += wrong is None
                failed += wrong is not None
                if wrong is not None:
                    print("many: %s: %s" % (what, wrong), flush=True)
            if os.environ.get("MANY_TIMES"):
                print("many: %s took %.1f s" % (group.__name__, time.monotonic() - began))
    print("many: %d passed, %d failed" % (passed, failed))
    return 1 if failed or not passed else 0


if __name__ == "__main__":
    sys.exit(main())
