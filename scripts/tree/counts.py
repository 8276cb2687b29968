"""Checks the tables of docs/TESTED.md: each row has a program, a number and a date, and numbers of lines, rows and tests are so.

In the column Count, `12 lines` and `12 rows` count a program's `stdout`; rows are the lines that are neither empty nor a comment,
before or behind the mark where the cell says so. `12 tests` counts the functions that are tests. A number belongs to the crate
before it in its cell, else to the row's first program. A number of wrong bodies that says "some" may be off by a twentieth.
"""
import datetime
import glob
import os
import re

PAGE = "docs/TESTED.md"
HEADS = ["What", "Program", "Count", "Date"]
COUNT = re.compile(r"(?:(raft_\w+): )?(?<![\d,])(\d[\d,]*) (rows|lines|tests)\b(?: (before|behind) its mark)?")
CRATE = re.compile(r"\braft_\w+\b")
SOME = re.compile(r"some ([\d,]+) wrong bodies")
MARK = re.compile(r"^# From here on rows are written by scripts/\w+\.$")
DATE = re.compile(r"\d{4}-\d\d-\d\d")


def check(tree, page):
    """Rows that lack a program, a number or a date, and numbers that the tree hasn't."""
    yield from _edits(tree, page)
    tables = [row for row in page.rows() if "Program" in row.heads]
    if not tables:
        yield 1, f"there is no table with the columns {', '.join(HEADS)}"
    for row in tables:
        if row.heads[:4] != HEADS:
            yield row.line, f"the columns aren't {', '.join(HEADS)}"
        elif len(row.cells) != len(row.heads):
            yield row.line, f"the row has {len(row.cells)} cells, and the table {len(row.heads)}"
        else:
            yield from ((row.line, fault) for fault in _row(tree, *row.cells[1:4]))


def _row(tree, program, counts, date):
    """What is wrong in these cells of a row."""
    if not program:
        yield "the row names no program"
    if not re.search(r"\d", counts):
        yield "the row has no count"
    if not _is_date(date):
        yield f"{date or 'an empty cell'} is no date such as 2026-01-31"
    first = CRATE.search(program)
    for crate, number, what, side in COUNT.findall(counts):
        crate = crate or first and first[0]
        counted = count(tree.top, crate, what, side) if crate else None
        if counted is None:
            yield f"{crate or 'no crate'} has no {what} that can be counted"
        elif counted != int(number.replace(",", "")):
            yield f"{crate} has {counted:,} {what}{side and f' {side} its mark'}, not {number}"


def _is_date(text):
    """Whether the text is a day, as year, month and day."""
    if not DATE.fullmatch(text):
        return False
    try:
        datetime.date.fromisoformat(text)
    except ValueError:
        return False
    return True


def _edits(tree, page):
    """A number of wrong bodies that is off by more than a twentieth."""
    there = sum(map(len, tree.edits.values()))
    for line, text in page.lines:
        for number in SOME.findall(text):
            if abs(int(number.replace(",", "")) - there) > there / 20:
                yield line, f"there are {there:,} wrong bodies, not some {number}"


def count(top, crate, what, side=""):
    """A crate's tests, or the lines or rows of its stdout, before or behind its mark where that is asked for."""
    if what == "tests":
        return _tests(f"{top}/crates/{crate}") or None
    path = f"{top}/crates/{crate}/stdout"
    if not os.path.exists(path):
        return None
    with open(path, encoding="utf-8") as file:
        lines = file.read().removesuffix("\n").split("\n")
    if what == "lines":
        return len(lines)
    if side:
        mark = next((at for at, it in enumerate(lines) if MARK.match(it)), None)
        if mark is None:
            return None
        lines = lines[:mark] if side == "before" else lines[mark:]
    return sum(1 for it in lines if it and not it.startswith("#"))


def _tests(folder):
    """How many functions of a crate are tests."""
    found = 0
    for path in glob.glob(f"{folder}/src/**/*.rt", recursive=True):
        with open(path, encoding="utf-8") as file:
            found += len(re.findall(r"^\s*#\[test\]", file.read(), re.M))
    return found
