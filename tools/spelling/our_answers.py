"""What the crates cxx_spelling and ada_spelling make of names: a program over one is made beside the repository, so that no gate has to
prove it."""
import os
import shutil
import subprocess
import sys
import tempfile

TOP = os.path.dirname(os.path.dirname(os.path.dirname(os.path.abspath(__file__))))
BATCH = 48 << 20
# How a name is spelled by each crate, by the spelling of one release of gdb.
SPELLED = {
    "cxx_spelling": """use cxx_spelling::{Release, spelling};
use std::alloc::{AllocError, Global};

fn spelled(alloc: Global, name: &[u8]) -> Result<Vec<u8>, AllocError> {
    spelling(alloc, Release::RELEASE, name)?.bytes().to_vec(alloc)
}
""",
    "ada_spelling": """use ada_spelling::{decode, encode};
use std::alloc::{AllocError, Global};

fn spelled(alloc: Global, name: &[u8]) -> Result<Vec<u8>, AllocError> {
    match decode(alloc, name)? {
        Some(text) => encode(alloc, text.as_slice()),
        None => encode(alloc, name),
    }
}
""",
}
PROGRAM = """//! Writes the last line, and of each line, a name and a spelling, the name and its spelling where that is another one.
#![tactic(auto)]

use std::io;
use std::io::{BufReader, BufWriter, Read, Write};
%s
// What stands behind the last line's end.
fn last_of(lines: &[u8]) -> &[u8] {
    lines.split(|b| *b == b'\\n').last().unwrap_or(lines)
}

fn main(rt: HostRuntime) -> io::Result<()> {
    let alloc = rt.alloc();
    let mut input = BufReader::new(alloc, rt.reader())?;
    let mut lines = Vec::new(alloc);
    input.read_to_end(&mut lines)?;
    let mut out = BufWriter::new(alloc, io::writer(&rt))?;
    out.write_all(last_of(lines.as_slice()))?;
    out.write_all(b"\\n")?;
    for line in lines.as_slice().split(|b| *b == b'\\n') {
        let mut halves = line.split(|b| *b == b'\\t');
        let name = halves.next().unwrap_or(b"");
        let wanted = halves.next().unwrap_or(b"");
        let text = spelled(alloc, name)?;
        if text.as_slice() != wanted {
            out.write_all(name)?;
            out.write_all(b"\\t")?;
            out.write_all(text.as_slice())?;
            out.write_all(b"\\n")?;
        }
    }
    out.flush()
}
"""


def write(path, text):
    os.makedirs(os.path.dirname(path), exist_ok=True)
    with open(path, "w", encoding="utf-8") as file:
        file.write(text)


def answers_to(folder, lines):
    """What the program in the folder writes for these lines, of which it has read the last one too."""
    words = ["rt", "try", "--seconds", "600", "--steps", "2000000000"]
    done = subprocess.run(words, cwd=folder, input=b"\n".join(lines), capture_output=True, check=False)
    last, *answers = done.stdout.split(b"\n")
    if done.returncode or last != lines[-1]:
        sys.exit("spelling: rt try: status %d, %s" % (done.returncode, done.stderr.decode(errors="replace")[-500:]))
    return dict(line.split(b"\t") for line in answers if line)


def batches(lines):
    """The lines, so many at once as `rt try` takes for an input."""
    batch, length = [], 0
    for line in lines:
        if length + len(line) > BATCH:
            yield batch
            batch, length = [], 0
        batch.append(line)
        length += len(line) + 1
    if batch:
        yield batch


def other_spellings(wanted, crate="cxx_spelling", release="Gdb13"):
    """Of names with a spelling, those that a crate spells otherwise for a release of gdb, with that. No name has a tab or the end of a line
    in it."""
    others = {}
    with tempfile.TemporaryDirectory() as folder:
        for part in ("src", "specs", "proofs"):
            shutil.copytree(os.path.join(TOP, "crates", crate, part), os.path.join(folder, "crates", crate, part))
        write(os.path.join(folder, "crates.txt"), "%s:\nspelled_lines: %s\n" % (crate, crate))
        write(os.path.join(folder, "HANDLES"), "Handles allowed: none.\n")
        program = os.path.join(folder, "crates", "spelled_lines")
        write(os.path.join(program, "src", "main.rt"), PROGRAM % SPELLED[crate].replace("RELEASE", release))
        for batch in batches([name + b"\t" + spelling for name, spelling in wanted.items()]):
            others.update(answers_to(program, batch))
    return others
