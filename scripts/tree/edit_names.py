"""Checks tables of wrong bodies and of what pins words: edits, worked rows and definitions that they name."""
import re

from page import CRATE, TICKS

NAME = re.compile(r"^\w+$")


def check(tree, page):
    """What is wrong in the page's tables with a column of edits, or of worked rows."""
    for row in page.rows():
        for head, cell in zip(row.heads, row.cells):
            if head.startswith("Edit"):
                yield from ((row.line, fault) for fault in _edits(tree, row, head, cell))
            elif head == "Pinned by" or row.heads == ["Function", "Pins"] and head == "Function":
                yield from ((row.line, fault) for fault in _rows(tree, cell))
            elif head in ("Definitions", "Word"):
                yield from ((row.line, fault) for fault in _words(tree, cell))


def _edits(tree, row, head, cell):
    """Edits of a cell that no crate has, or not the one that stands in parentheses behind."""
    pieces = re.split(r"(`[^`]+`)", cell)
    for at, piece in enumerate(pieces):
        name = piece.strip("`")
        if not piece.startswith("`") or not NAME.match(name) or "_" not in name:
            continue
        wanted = _crates_of(row, head, pieces[at + 1:])
        there = tree.edits.get(name, set())
        if not there or wanted and not there & wanted:
            yield f"no edit {name}{' of ' + ' or '.join(sorted(wanted)) if wanted else ''}"


def _crates_of(row, head, behind):
    """The crates of an edit: those in the next parentheses of its cell, else the column's; without any, those that row and heading name."""
    beside = next((it for it in behind if re.match(r"^ \(raft_", it)), "")
    near = set(CRATE.findall(beside)) or set(CRATE.findall(head))
    return near or set(CRATE.findall(" ".join([row.heading, *row.cells])))


def _rows(tree, cell):
    """Functions of a cell that no crate has."""
    for name in TICKS.findall(cell):
        if NAME.match(name) and not any(name in crate.items for crate in tree.crates.values()) and name not in tree.names:
            yield f"no function {name} in any crate"


def _words(tree, cell):
    """Definitions of a cell that no specs/ has."""
    for name in TICKS.findall(cell):
        if NAME.match(name) and name not in tree.names:
            yield f"no definition {name} in any specs/"
