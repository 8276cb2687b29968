"""Definitions (specs/) and lemmas (proofs/) of the crates: names, fields, statements; read by line."""
import glob
import os
import re

WORDS = r"(?:(?:abbrev|pub|unfoldable|unfolding|actor) )*"
HEAD = re.compile(rf"^( *){WORDS}(?:(record|data|variant) )?([^\s:(){{}}=]+)(?=[ (]|$)(.*)$")
NOT_NAMES = {"use", "module", "mod", "--", "let", "in", "where", "pub", "abbrev"}


class Statement:
    """A declaration: its file and line, the name, what it says, and whether it is a record or data."""

    def __init__(self, place, name, text, kind):
        self.place, self.name, self.text, self.kind = place, name, text, kind


def _head(line):
    """The indent, kind and name of a declaration, or none."""
    found = HEAD.match(line)
    if not found or found[3] in NOT_NAMES or line.lstrip().startswith("--"):
        return None
    if not found[2] and not re.match(r"^(?: [\w' ]+)?\s*:(?:\s|$)", found[4]):
        return None
    return len(found[1]), found[2], found[3]


def _end(lines, at, indent):
    """The line behind what is indented more than the head."""
    end = at + 1
    while end < len(lines) and lines[end].strip() and len(lines[end]) - len(lines[end].lstrip()) > indent:
        end += 1
    return end


def _joined(lines):
    """The lines as one, without comments."""
    return " ".join(it.strip() for it in lines if not it.lstrip().startswith("--"))


def statements(text, place, with_bodies):
    """The declarations of a file. With bodies, what a name stands for belongs to its statement."""
    lines, at = text.split("\n"), 0
    while at < len(lines):
        head = _head(lines[at])
        if not head:
            at += 1
            continue
        indent, kind, name = head
        end = _end(lines, at, indent)
        while with_bodies and end < len(lines) and lines[end].startswith(f"{' ' * indent}{name} "):
            end = _end(lines, end, indent)
        yield Statement(f"{place}:{at + 1}", name, _joined(lines[at:end]), kind)
        at = end


def files(top, folder):
    """The files of a folder of each crate, with their texts."""
    for path in sorted(glob.glob(f"{top}/crates/*/{folder}/**/*.antt", recursive=True)):
        with open(path, encoding="utf-8") as file:
            yield os.path.relpath(path, top), file.read()


def names(top):
    """The names that are defined in specs/, each with the crates that have it; fields count as names too."""
    found = {}
    for place, text in files(top, "specs"):
        crate = place.split("/")[1]
        for line in text.split("\n"):
            if name := _name(line):
                found.setdefault(name, set()).add(crate)
    return found


def words(top):
    """The words of each definition's statement and body, by its name; those of one name count together."""
    found = {}
    for place, text in files(top, "specs"):
        for it in statements(text, place, True):
            found.setdefault(it.name, set()).update(re.findall(r"[\w'-]+", it.text))
    return found


def _name(line):
    """The name that a line declares: a definition, a field, or a case of data."""
    head = _head(line)
    return head[2] if head else None
