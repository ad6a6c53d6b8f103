"""The entries of a program by readelf's own reading of it, and which of them a symbol index lists under which simple name.

The rules are those of docs/DEFINITIONS.md in their shortest form: an entry is listed where its parents are scopes, it isn't a
declaration, it has a name (its own, that of the entry that it completes, or that of its type's unit), and it has what its tag
asks for."""
import re
import subprocess

SCOPES = {"namespace", "class_type", "structure_type", "union_type", "interface_type", "enumeration_type"}
ALWAYS = SCOPES | {"typedef", "base_type", "subrange_type", "enumerator"}
TAGS = {"namespace": 0x39, "class_type": 0x02, "structure_type": 0x13, "union_type": 0x17, "interface_type": 0x38,
        "enumeration_type": 0x04, "typedef": 0x16, "base_type": 0x24, "subrange_type": 0x21, "enumerator": 0x28,
        "subprogram": 0x2E, "variable": 0x34, "constant": 0x27}
ADA = {0x03, 0x0D, 0x2E, 0x2F}
HOPS = 8

SECTION = re.compile(r"^Contents of the (\.debug_\w+) section:")
UNIT = re.compile(r"^  Compilation Unit @ offset (?:0x)?([0-9a-f]+):")
HEAD = re.compile(r"^   (Signature|Type Offset):\s*(?:0x)?([0-9a-f]+)")
ENTRY = re.compile(r"^ <([0-9a-f]+)><([0-9a-f]+)>: Abbrev Number: \d+ \(DW_TAG_(\w+)\)")
ATTRIBUTE = re.compile(r"^    <[0-9a-f]+>\s+DW_AT_(\w+)\s*:\s*(?:\(\w+\) ?)?(.*)$")


class Unit:
    def __init__(self, number, start, base):
        self.number, self.start, self.base = number, start, base
        self.signature, self.type_offset, self.root = None, None, None

    @property
    def is_ada(self):
        return self.language in ADA

    @property
    def language(self):
        text = self.root.attributes.get("language", "0") if self.root else "0"
        return int(text.split()[0], 0)


class Entry:
    def __init__(self, unit, offset, tag, parent):
        self.unit, self.offset, self.tag, self.parent, self.attributes = unit, offset, tag, parent, {}


def lines_of(*words):
    done = subprocess.run(words, check=True, capture_output=True, text=True, errors="surrogateescape")
    return done.stdout.splitlines()


def size_of_info(file):
    for line in lines_of("readelf", "-SW", file):
        found = re.search(r"\] \.debug_info\s+\S+\s+\S+\s+\S+\s+([0-9a-f]+)", line)
        if found:
            return int(found[1], 16)
    return 0


def entries_of(file):
    """All entries. An offset of `.debug_types` counts on from the end of `.debug_info`."""
    size, base, unit, units, found, path = size_of_info(file), 0, None, 0, [], []
    for line in lines_of("readelf", "--debug-dump=info,no-follow-links", "--wide", file):
        attribute = ATTRIBUTE.match(line)
        if attribute:
            if found:
                found[-1].attributes.setdefault(attribute[1], attribute[2].strip())
            continue
        entry, head, start, section = ENTRY.match(line), HEAD.match(line), UNIT.match(line), SECTION.match(line)
        if section:
            base = size if section[1] == ".debug_types" else 0
        elif start:
            unit, units = Unit(units, base + int(start[1], 16), base), units + 1
        elif head and head[1] == "Signature":
            unit.signature = int(head[2], 16)
        elif head:
            unit.type_offset = unit.start + int(head[2], 16)
        elif entry:
            depth = int(entry[1], 16)
            del path[depth:]
            found.append(Entry(unit, base + int(entry[2], 16), entry[3], path[-1] if path else None))
            path.append(found[-1])
            unit.root = unit.root or found[-1]
    return found


class Program:
    def __init__(self, file):
        self.entries = entries_of(file)
        self.at = {entry.offset: entry for entry in self.entries}
        self.typed = {}
        for entry in self.entries:
            if entry.parent is None and entry.unit.signature is not None:
                self.typed.setdefault(entry.unit.signature, entry.unit.type_offset)

    def chain(self, entry):
        for _ in range(HOPS + 1):
            yield entry
            text = entry.attributes.get("specification") or entry.attributes.get("abstract_origin")
            target = re.match(r"<?0x([0-9a-f]+)", text or "")
            if not target:
                return
            entry = self.at[entry.unit.base + int(target[1], 16)]

    def name(self, entry):
        for member in self.chain(entry):
            if own_name(member):
                return own_name(member)
        signature = re.search(r"0x([0-9a-f]+)", entry.attributes.get("signature", ""))
        if signature:
            typed = self.typed.get(int(signature[1], 16))
            if typed is not None and own_name(self.at[typed]):
                return own_name(self.at[typed])
        return "(anonymous namespace)" if entry.tag == "namespace" else None

    def is_visited(self, entry):
        parent = entry.parent
        if parent is None:
            return False
        opens = parent.tag in SCOPES or (parent.tag == "subprogram" and entry.unit.is_ada)
        return parent.parent is None or (opens and self.is_visited(parent))

    def is_listed(self, entry):
        has = entry.attributes.keys()
        if entry.tag not in TAGS or "declaration" in has or not self.is_visited(entry) or not self.name(entry):
            return False
        if entry.tag == "subprogram":
            return bool(has & {"low_pc", "ranges", "entry_pc"})
        if entry.tag == "variable":
            return bool(has & {"location", "const_value"})
        return entry.tag in ALWAYS or "const_value" in has

    def listed(self):
        """(unit, offset, tag) of the listed entries, by simple name."""
        found = {}
        for entry in self.entries:
            if self.is_listed(entry):
                name = simple(self.name(entry), entry.unit.is_ada)
                found.setdefault(name, []).append((entry.unit.number, entry.offset, TAGS[entry.tag]))
        return found

    def functions(self):
        """The units of subprograms, by low_pc."""
        found = {}
        for entry in self.entries:
            low = re.search(r"(?:0x)?([0-9a-f]+)$", entry.attributes.get("low_pc", ""))
            if entry.tag == "subprogram" and low:
                found.setdefault(int(low[1], 16), set()).add(entry.unit.number)
        return found


def own_name(entry):
    """The name, without readelf's note on where the string lies."""
    text = entry.attributes.get("name")
    return text and re.sub(r"^\((?:indirect|indexed|offset|alt)[^)]*\):\s*", "", text)


def simple(name, is_ada):
    return decoded(name).split(".")[-1] if is_ada else name


def decoded(name):
    """An Ada name as its source spells it, or the name as it stands."""
    text = name[len("_ada_"):] if name.startswith("_ada_") else name
    text = re.sub(r"(?<=.)__[0-9]+$", "", text, flags=re.S)
    pieces = text.split("__")
    fits = re.fullmatch(r"[a-z0-9_]*", text) and all(re.fullmatch(r"[a-z](.*[^_])?", piece) for piece in pieces)
    return ".".join(pieces) if fits else name
