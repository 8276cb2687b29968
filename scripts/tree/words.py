"""Checks that names in backticks still stand somewhere in the tree: in sources, definitions, proofs, or as an edit or a crate.
So do names of crates in the text."""
import glob
import os
import re

from page import CRATE, TICKS

NAME = re.compile(r"^[A-Za-z]\w*(?:(?:::|\.)[A-Za-z]\w*)*$")
# Pages that speak of other programs too, or of what is no longer there.
OTHERS = ("docs/BENCH.md", "docs/DIFFERENCES.md", "docs/DECISIONS.md", "docs/SCRIPT.md")
# Figures of a run, which may be older than a crate's end.
FIGURES, OF_RUN = "docs/GATE.md", re.compile(r"\| raft_\w+ \|")
KINDS = ("src/**/*.rt", "specs/**/*.antt", "proofs/**/*.antt")


def known(tree):
    """The words of the sources, and the names of files, crates and edits."""
    found = set(tree.edits) | set(tree.crates)
    for kind in KINDS:
        for path in glob.glob(f"{tree.top}/crates/*/{kind}", recursive=True):
            found.update(os.path.relpath(path, tree.top).removesuffix(".antt").removesuffix(".rt").split("/"))
            with open(path, encoding="utf-8") as file:
                found.update(re.findall(r"\w+", file.read()))
    return found


def check(tree, page):
    """Names with an underscore or a capital inside that no file has."""
    if page.path in OTHERS:
        return
    for line, text in page.lines:
        if page.path == FIGURES and OF_RUN.match(text):
            continue
        for name in TICKS.findall(text):
            parts = re.split(r"::|\.", name)
            if NAME.match(name) and re.search(r"\w_\w|[a-z][A-Z]", name) and parts[-1] not in ("rt", "antt", "md"):
                for it in parts:
                    if it not in tree.known_words():
                        yield line, f"nothing is named {it}"
        for name in CRATE.findall(TICKS.sub("", text)):
            if name not in tree.known_words():
                yield line, f"there is no crate {name}"
