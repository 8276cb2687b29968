"""The sources of the crates: functions with their contracts, types, traits, modules; read by line, not parsed.

What is read: items whose head begins a line, blocks that end with a brace at the indent of their head.
"""
import glob
import os
import re

ITEM = re.compile(r"^( *)(?:pub(?:\([^)]*\))? )?(?:const |unsafe )*(fn|struct|enum|trait|type|mod|const|static) (\w+)")
CLAUSE = re.compile(r"^ *(ensures|requires)\*? ?(\w*) ?\{")
GHOST = re.compile(r"^ *ghost (?!use\b)(\w+)")
DERIVED = {"Clone": ["clone", "clone_from"], "Default": ["default"], "PartialEq": ["eq", "ne"], "Ord": ["cmp", "max", "min"],
           "PartialOrd": ["partial_cmp", "lt", "le", "gt", "ge"], "Debug": ["fmt"], "Hash": ["hash"]}


class Function:
    """A function with the names and the text of its contract."""

    def __init__(self, crate, place, owner, trait, name):
        self.crate, self.place, self.owner, self.trait, self.name = crate, place, owner, trait, name
        self.clauses, self.parts = set(), []

    def contract(self):
        """The text of its clauses."""
        return " ".join(text for _, _, text in self.parts)


class Crate:
    """What the sources of a crate declare."""

    def __init__(self, name):
        self.name, self.functions, self.items, self.impls, self.ghosts = name, [], {}, set(), {}
        self.variants, self.laws = set(), {}

    def owned(self, owner):
        """The functions of a type, a trait or a module."""
        return [it for it in self.functions if owner in (it.owner, it.trait) or _module(it.place) == owner]


def _module(place):
    """The module of a file."""
    return os.path.basename(place.split(":")[0]).removesuffix(".rt")


def without_generics(text):
    """The text without what stands in angle brackets."""
    kept, depth = [], 0
    for at, it in enumerate(text):
        if it == "<":
            depth += 1
        elif it == ">" and text[at - 1:at] != "-":
            depth -= 1
        elif not depth:
            kept.append(it)
    return "".join(kept)


def owner_of(head):
    """The type of an impl's head, and its trait or none."""
    words = without_generics(head.removeprefix("impl")).split("{")[0].split(" where ")[0].strip()
    trait, _, kind = words.rpartition(" for ")
    return _last(kind), _last(trait) or None


def _last(path):
    """The last name of a path, without what borrows it."""
    found = re.findall(r"\w+", path.replace("&", " ").replace("mut ", " "))
    return found[-1] if found else ("slice" if "[" in path else "")


def block(lines, at):
    """The text from a line on up to where its braces are closed, as one line, and the line behind it."""
    text, depth = [], 0
    for end in range(at, len(lines)):
        line = lines[end].strip()
        text.append(line)
        depth += line.count("{") - line.count("}")
        if depth <= 0:
            return " ".join(text), end + 1
    return " ".join(text), len(lines)


def head_of(lines, at):
    """The head of an impl, which may have several lines."""
    text = []
    for line in lines[at:at + 20]:
        text.append(line.strip())
        if line.rstrip().endswith(("{", "{}", "}")):
            break
    return " ".join(text)


class _Reader:
    """Reads one file into its crate."""

    def __init__(self, crate, place, lines):
        self.crate, self.place, self.lines = crate, place, lines
        self.owners, self.function, self.derives = [], None, []

    def read(self):
        for at, line in enumerate(self.lines):
            if not line.strip().startswith("//"):
                self._line(at, line)

    def _line(self, at, line):
        indent = len(line) - len(line.lstrip())
        if line.strip() == "}" and self.owners and self.owners[-1][0] == indent:
            self.owners.pop()
        elif re.match(r"^ *impl\b", line):
            self._impl(at, indent)
        elif found := ITEM.match(line):
            self._item(at, line, indent, *found.groups()[1:])
        elif found := CLAUSE.match(line):
            self._clause(at, *found.groups())
        elif found := GHOST.match(line):
            self._ghost(at, found[1])
        elif found := re.match(r"^ *#\[derive\((.*)\)\]", line):
            self.derives = re.findall(r"\w+", found[1])
        elif found := re.match(r"^ +([A-Z]\w*)[,({ ]", line):
            self.crate.variants.add(found[1])

    def _ghost(self, at, name):
        """A law, or an invariant, of the type or the trait around it."""
        for owner in (self.owners[-1][1:] if self.owners else (None,)):
            self.crate.ghosts.setdefault(name, set()).add(owner)
            self.crate.laws.setdefault(owner, []).append(block(self.lines, at)[0])

    def _impl(self, at, indent):
        head = head_of(self.lines, at)
        kind, trait = owner_of(head)
        self.crate.impls.add((trait, kind))
        if not head.endswith("}"):
            self.owners.append((indent, kind, trait))

    def _item(self, at, line, indent, kind, name):
        self.crate.items.setdefault(name, set()).add(kind)
        _, owner, trait = self.owners[-1] if self.owners else (0, None, None)
        if kind == "fn":
            self.function = Function(self.crate.name, f"{self.place}:{at + 1}", owner, trait, name)
            self.crate.functions.append(self.function)
        if kind in ("struct", "enum"):
            for it in self.derives:
                self.crate.impls.add((it, name))
                for call in DERIVED.get(it, []):
                    self.crate.functions.append(Function(self.crate.name, f"{self.place}:{at + 1}", name, it, call))
            self.derives = []
        if kind == "trait" and not line.rstrip().endswith("}"):
            self.owners.append((indent, name, None))

    def _clause(self, at, kind, name):
        text, _ = block(self.lines, at)
        if self.function:
            self.function.parts.append((at + 1, name, text))
            if kind == "ensures":
                self.function.clauses.add(name)


def crates(top):
    """The crates of a tree by their names."""
    found = {}
    for folder in sorted(glob.glob(f"{top}/crates/*/")):
        crate = Crate(os.path.basename(folder.rstrip("/")))
        for path in sorted(glob.glob(f"{folder}src/**/*.rt", recursive=True)):
            with open(path, encoding="utf-8") as file:
                _Reader(crate, os.path.relpath(path, top), file.read().split("\n")).read()
        found[crate.name] = crate
    return found


def below(top):
    """For each crate of crates.txt itself and all that it stands on, near or far."""
    direct, found = {}, {}
    with open(f"{top}/crates.txt", encoding="utf-8") as file:
        for line in file:
            if ":" in line and not line.startswith("#"):
                name, rest = line.split(":")
                direct[name.split()[0]] = rest.split()
    for name, near in direct.items():
        found[name] = {name}.union(*(found.get(it, {it}) for it in near))
    return found
