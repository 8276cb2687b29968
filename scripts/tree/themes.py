"""Checks tables of wrong bodies by themes: each crate that has some stands in one row, and the row's number is about theirs.

The columns are `Crates` and `Wrong bodies`. A number that says "some" may be off by a tenth. A row of `all others` has the
wrong bodies of the crates that no row names.
"""
import re

from page import CRATE

SOME = re.compile(r"^some ([\d,]+)$")
REST = "all others"


def check(tree, page):
    """Crates that stand in two rows or in none, and numbers that are off by more than a tenth."""
    rows = [row for row in page.rows() if {"Crates", "Wrong bodies"} <= {*row.heads} and len(row.cells) == len(row.heads)]
    counts = _counts(tree)
    named = [it for row in rows for it in CRATE.findall(_cell(row, "Crates"))]
    rest = counts.keys() - {*named}
    for row in rows:
        its = rest if _cell(row, "Crates") == REST else CRATE.findall(_cell(row, "Crates"))
        yield from ((row.line, f"{it} stands in more than one row") for it in its if named.count(it) > 1)
        yield from ((row.line, fault) for fault in _number(_cell(row, "Wrong bodies"), sum(counts.get(it, 0) for it in its)))
    if rows and rest and not any(_cell(row, "Crates") == REST for row in rows):
        yield rows[-1].line, f"no row has the wrong bodies of {', '.join(sorted(rest))}"


def _cell(row, head):
    return row.cells[row.heads.index(head)]


def _counts(tree):
    """How many wrong bodies each crate has."""
    found = {}
    for crates in tree.edits.values():
        for it in crates:
            found[it] = found.get(it, 0) + 1
    return found


def _number(text, there):
    """A number that isn't told, or is off by more than a tenth."""
    said = SOME.match(text)
    if not said:
        yield "the row has no number as \"some 20\""
    elif abs(int(said[1].replace(",", "")) - there) > there / 10:
        yield f"there are {there:,} wrong bodies, not {text}"
