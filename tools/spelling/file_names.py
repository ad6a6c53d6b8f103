"""The names that files have: what a program's .debug_str has, and of it all that isn't one identifier."""
import os
import re
import subprocess
import sys
import tempfile

IDENTIFIER = re.compile(rb"[A-Za-z_$\x80-\xff][A-Za-z0-9_$\x80-\xff]*")


def strings_of(file):
    """What a program's .debug_str has."""
    with tempfile.TemporaryDirectory() as folder:
        section = os.path.join(folder, "strings")
        words = ["objcopy", "--decompress-debug-sections", "--dump-section", ".debug_str=" + section, file, os.path.join(folder, "copy")]
        done = subprocess.run(words, capture_output=True, text=True, check=False)
        if done.returncode:
            sys.exit("spelling: objcopy: " + done.stderr[:300])
        with open(section, "rb") as strings:
            return set(strings.read().split(b"\0"))


def names_of(file):
    """The names of a program, and what else its .debug_str has: no spelling may be wrong of it either."""
    return sorted(text for text in strings_of(file) if text and not set(b"\t\n") & set(text) and not IDENTIFIER.fullmatch(text))
