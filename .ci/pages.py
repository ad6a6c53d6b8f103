#!/usr/bin/env python3
"""python3 pages.py

What the pages say of the repository is so: each statement of docs/PROVED.md names something in backquotes that is declared in the sources
(a call, a type, a variant, a clause or a definition), and nothing that isn't; each link and each path in the pages leads to a file that is
there; docs/FAULTS.md is that of the table, whose codes are those of the sources, and every command has its help and its words in the man
page and in the completions; the table of the grammar has the commands and bounds of the grammar; docs/WORDS.md has each name of a
type that two crates or more declare, with its files, and says how many they are; README.md has at most 100 lines, and a line of help at
most 80 letters. The last line is 'pages: N passed, M failed'."""
import glob
import os
import re
import subprocess
import sys

TOP = os.path.dirname(os.path.dirname(os.path.abspath(__file__)))
PAGES = ["README.md", "CONTRIBUTING.md", "CHANGELOG.md", "SECURITY.md", "rows/README.md", *sorted(glob.glob("docs/*.md", root_dir=TOP))]
NAME = r"[A-Za-z_]\w*"
# How a name is declared, in Rattle and in antt.
DECLARED = (
    rf"\b(?:fn|struct|enum|trait|const|static|ensures)\s+({NAME})",
    rf"^\s+([A-Z]\w*)(?:,|\(| \{{)",
    rf"^\s*(?:abbrev |unfoldable )?pub ({NAME}) :",
    rf"^\s*(?:abbrev |unfoldable )?(?:pub )?(?:data|record) ({NAME})",
)
# How a type is declared, private or not.
TYPE = r"^(?:pub(?:\([^)]*\))? )?(?:struct|enum|type|trait) ([A-Z]\w*)"
# What std declares.
OF_STD = {"usize", "None", "Ok", "Err", "Some"}
# Sources that hold the codes of faults.
CODES = ("ix_base/src/code.rt", "index_model/src/index_code.rt", "reach_model/src/code.rt")
# The words of numbers below 100.
ONES = (
    "zero one two three four five six seven eight nine ten eleven twelve thirteen fourteen fifteen sixteen seventeen eighteen nineteen"
).split()
TENS = "twenty thirty forty fifty sixty seventy eighty ninety".split()
# What a page names that no checkout has: files of a build, of users and of examples.
MADE = ("crates/index_tool/out", "crates/index_tool/data/A")


def read(*parts):
    with open(os.path.join(TOP, *parts), encoding="utf-8") as file:
        return file.read()


def sources():
    for pattern in ("crates/*/src/**/*.rt", "crates/*/specs/**/*.antt"):
        for path in glob.glob(pattern, root_dir=TOP, recursive=True):
            yield read(path)


def declared():
    names = set(OF_STD)
    for source in sources():
        for pattern in DECLARED:
            names.update(re.findall(pattern, source, re.M))
    return names


def forms():
    """The words of the commands, as the table of fault_words has them."""
    return re.findall(r'^    "(\w+)" "(\w*)" &\[', read("crates", "fault_words", "src", "form.rt"), re.M)


def statements(page):
    """The statements of a page: its list items, each in one line."""
    for item in re.split(r"\n(?=- |\n|#)", page):
        if item.startswith("- "):
            yield " ".join(item.split())


def names_of(text):
    """The names in backquotes, but for those of sections, paths and words of the command line."""
    for quoted in re.findall(r"`([^`]+)`", text):
        if not re.search(r"[./\- ]", quoted):
            yield from quoted.split("::")


def wrong_statements():
    known, commands = declared(), {word for form in forms() for word in form}
    for statement in statements(read("docs", "PROVED.md")):
        names = [name for name in names_of(statement) if name not in commands]
        missing = [name for name in names if name not in known]
        yield f"PROVED.md: no {missing[0]} is declared: {statement[:80]}" if missing else None
        yield None if names else f"PROVED.md: no clause is named: {statement[:80]}"


def links(page):
    """What a page leads to: the targets of its links, and paths in its text."""
    text = read(page)
    yield from (target for target in re.findall(r"\]\(([^)#]+)[^)]*\)", text) if "://" not in target)
    for path in re.findall(r"(?<![\w/.~-])((?:docs|crates|tools|rows|man|completions|\.ci)/[\w./*-]*\w)", text):
        yield os.path.relpath(path, os.path.dirname(page) or ".")


def wrong_links():
    for page in PAGES:
        for target in sorted(set(links(page))):
            path = os.path.normpath(os.path.join(TOP, os.path.dirname(page), target))
            made = os.path.relpath(path, TOP).startswith(MADE)
            yield None if made or glob.glob(path) else f"{page}: no {target}"


def slugs(page):
    """The anchors of a page's headings."""
    for heading in re.findall(r"^#+ (.*)$", read(page), re.M):
        yield re.sub(r"[^\w\- ]", "", heading.lower()).replace(" ", "-")


def wrong_anchors():
    for page in PAGES:
        for target, anchor in re.findall(r"\]\(([^)#:]*)#([^)]+)\)", read(page)):
            path = os.path.normpath(os.path.join(os.path.dirname(page), target)) if target else page
            yield None if anchor in set(slugs(path)) else f"{page}: no #{anchor} in {path}"


def wrong_faults():
    done = subprocess.run([sys.executable, os.path.join(TOP, "tools", "fault_pages.py"), "--check"], capture_output=True, text=True)
    yield None if done.returncode == 0 else done.stdout.strip()
    codes = [int(code) for path in CODES for code in re.findall(r": u8 = (\d+);", read("crates", path))]
    table = [int(code) for code in re.findall(r'^    (\d+) "', read("crates", "fault_words", "src", "fault.rt"), re.M)]
    yield None if table == sorted(set(codes)) else f"codes: the table and the sources differ in {set(table) ^ set(codes)}"


def wrong_commands():
    texts = {
        "the man page": read("man", "gdbix.1"),
        "bash": read("completions", "gdbix.bash"),
        "zsh": read("completions", "_gdbix"),
        "the help": read("crates", "index_cmd", "src", "about.rt"),
        "the help of the commands": read("crates", "fault_words", "src", "help.rt"),
    }
    for command, second in forms():
        for where, text in texts.items():
            yield None if re.search(rf"\b{command}\b", text) and second in text else f"{where}: no {command} {second}"


def wrong_grammar():
    """The table of the grammar in fault_words has the commands and the bounds of command_words."""
    words = read("crates", "command_words", "src", "words.rt")
    known = {word for form in forms() for word in form}
    for word in re.findall(r'(?:word|word\.as_str\(\)) == "(\w+)"', words):
        yield None if word in known else f"form.rt: no {word}"
    options = read("crates", "command_words", "src", "options.rt").replace("u32::MAX", "4294967295")
    table = read("crates", "fault_words", "src", "form.rt")
    for name, low, high in re.findall(r'name: "(--\w+)",\s+low: (\d+),\s+high: (\d+),', options):
        yield None if f'number!("{name}" {low} {high} ' in table else f"form.rt: {name} isn't {low} to {high}"


def twice_declared():
    """The names of types that two crates or more declare, each with its files. Crates of tests are left out."""
    files = {}
    for path in glob.glob("crates/*/src/**/*.rt", root_dir=TOP, recursive=True):
        if not path.split("/")[1].endswith("_tests"):
            for name in re.findall(TYPE, read(path), re.M):
                files.setdefault(name, set()).add(path)
    return {name: paths for name, paths in files.items() if len({path.split("/")[1] for path in paths}) > 1}


def listed_types(section):
    """The names that a section lists with files of sources, each with these: a file belongs to the name before it."""
    listed, name = {}, ""
    for quoted in re.findall(r"`([^`]+)`", section):
        if quoted.endswith(".rt"):
            listed.setdefault(name, set()).add(quoted)
        else:
            name = quoted
    return listed


def in_words(number):
    """A number below 100 in words."""
    tens, ones = divmod(number, 10)
    if tens < 2:
        return ONES[number]
    return TENS[tens - 2] + (f"-{ONES[ones]}" if ones else "")


def wrong_words():
    section = read("docs", "WORDS.md").partition("\n## Two things by one name\n")[2].partition("\n## ")[0]
    declared_twice, listed = twice_declared(), listed_types(section)
    count = in_words(len(declared_twice))
    yield None if f"names of types {count} are declared" in section else f"WORDS.md: {count} names of types are declared in two crates"
    for name in sorted(declared_twice.keys() | listed.keys()):
        differ = declared_twice.get(name, set()) ^ listed.get(name, set())
        yield f"WORDS.md: {name}: the section and the sources differ in {', '.join(sorted(differ))}" if differ else None


def wrong_lengths():
    lines = len(read("README.md").splitlines())
    yield None if lines <= 100 else f"README.md: {lines} lines"
    texts = read("crates", "index_cmd", "src", "about.rt") + read("crates", "fault_words", "src", "help.rt")
    for text in re.findall(r'&str = "\\\n(.*?)";', texts, re.S):
        long = [line for line in text.splitlines() if len(line) > 80]
        yield f"help: more than 80 letters: {long[0]}" if long else None


def main():
    passed, failed = 0, 0
    for check in (wrong_statements, wrong_links, wrong_anchors, wrong_faults, wrong_commands, wrong_grammar, wrong_words, wrong_lengths):
        for wrong in check():
            if wrong is None:
                passed += 1
            else:
                failed += 1
                print("pages: " + wrong)
    print("pages: %d passed, %d failed" % (passed, failed))
    return 1 if failed or not passed else 0


if __name__ == "__main__":
    sys.exit(main())
