"""Checks the tables of docs/ARCHITECTURE.md and docs/RULES.md that say what files define. The table of crates is scripts/map's."""
import re

from page import TICKS, expanded

PAGES = ("docs/ARCHITECTURE.md", "docs/RULES.md")


def check(tree, page):
    """Files of the tables of definitions that aren't there, and words that no specs/ has."""
    for row in page.rows():
        folder = _folder(row.heads[0])
        if folder is None:
            continue
        for path in _paths(folder, row.cells[0]):
            if not tree.is_specs(path):
                yield row.line, f"{path} isn't there"
        for name in TICKS.findall(row.cells[1]):
            if re.match(r"^\w+$", name) and name not in tree.names and name not in tree.crates and not tree.is_named(name):
                yield row.line, f"no definition {name}"


def _folder(head):
    """The folder that the first column's names stand in, none for other tables: `CRATE/specs` in the head, or in each cell."""
    if found := re.match(r"^File of `(\w+/specs)`$", head):
        return found[1]
    return "" if head in ("File", "File of the layers below") else None


def _paths(folder, cell):
    """The files of a cell: CRATE/specs/A, B, or A, B of the head's folder."""
    plain = re.sub(r"\([^)]*\)", "", cell)
    for part in plain.split(","):
        word = part.strip()
        if found := re.match(r"^(\w+/specs)(?:/(\w+))?$", word):
            folder, word = found[1], found[2] or ""
        if re.match(r"^\w*$", word):
            yield from expanded(f"{folder}/{word}".rstrip("/"))
