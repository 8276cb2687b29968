"""Checks what pages quote of the program that embeds nodes: its rows, and lines of its sources."""
import glob
import re

from page import TICKS

CRATE = "raft_embedding"
# The pages, and what blocks of code there are copies of the program's sources.
PAGES = {"docs/GUIDE.md": "rust|text", "README.md": "rust"}


def check(tree, page):
    """Rows that the program doesn't print, and lines that aren't in its sources."""
    printed = _text(f"{tree.top}/crates/{CRATE}/stdout")
    for line, text in page.lines:
        for quoted in TICKS.findall(text):
            if " -> " in quoted and quoted not in printed:
                yield line, f"{CRATE} prints no row {quoted}"
    sources = "".join(map(_text, _sources(tree.top)))
    for line, text in _in_blocks(page.text, PAGES[page.path]):
        if text.strip() not in sources:
            yield line, f"the sources of {CRATE} have no line {text.strip()}"


def _sources(top):
    """The program's sources and definitions."""
    return [it for kind in ("src/**/*.rt", "specs/**/*.antt") for it in glob.glob(f"{top}/crates/{CRATE}/{kind}", recursive=True)]


def _text(path):
    """The file's text; of one that isn't there none."""
    try:
        with open(path, encoding="utf-8") as file:
            return file.read()
    except FileNotFoundError:
        return ""


def _in_blocks(text, language):
    """The lines with their numbers of blocks of code in this language."""
    inside = None
    for line, it in enumerate(text.split("\n"), 1):
        if it.startswith("```"):
            inside = it[3:] if inside is None else None
        elif inside and re.fullmatch(language, inside) and it.strip():
            yield line, it
