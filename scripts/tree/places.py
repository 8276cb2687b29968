"""Checks that links, paths and sections that a page names are there."""
import os
import re

from page import CRATE, TICKS, anchor, expanded

LINK = re.compile(r"\[[^\]]*\]\(([^)\s]+)\)")
PATH = re.compile(r"^(crates|scripts|docs|src|specs|proofs)/")
PATTERN = re.compile(r"CRATE|NAME|RUN|\.\.|\*|<|…")
PLAIN = re.compile(r"(?<![\w/`.])((?:docs|scripts|crates)/\w[\w/]*(?:\.\w+)?)")
SECTION = re.compile(r"`?((?:docs|crates)/[\w/]+\.md|README\.md)`?, \"([^\"]+)\"")


def links(tree, page):
    """Links that lead nowhere, or to a heading that a page lacks."""
    for line, text in page.lines:
        for target in LINK.findall(text):
            if re.match(r"^[a-z]+:", target):
                continue
            path, _, wanted = target.partition("#")
            there = os.path.normpath(os.path.join(os.path.dirname(page.path), path)) if path else page.path
            if not os.path.exists(f"{tree.top}/{there}"):
                yield line, f"the link {target} leads nowhere"
            elif wanted and not _has_anchor(tree, there, wanted):
                yield line, f"the link {target} leads to no heading"


def _has_anchor(tree, path, wanted):
    """Whether a page has the heading of an anchor; of what is no page nothing is known."""
    page = tree.page(path)
    return page is None or wanted in [anchor(text) for _, text in page.headings]


def paths(tree, page):
    """Paths in backticks, and those of docs/, scripts/ and crates/ without, that aren't there."""
    for line, text in page.lines:
        plain = [it.rstrip(".") for it in PLAIN.findall(LINK.sub("", TICKS.sub("", text)))]
        for named in TICKS.findall(text) + plain:
            word = named.split()[0] if named.strip() else ""
            if not PATH.match(word) or PATTERN.search(word):
                continue
            for path in expanded(word):
                if not _is_there(tree, page, path, text):
                    yield line, f"the path {path} isn't there"


def _is_there(tree, page, path, line):
    """Whether a path is there. One of a crate's folders is so in the page's crate, in one that the line names, or in any."""
    roots = [""]
    if path.split("/")[0] in ("src", "specs", "proofs"):
        crates = [page.crate, *CRATE.findall(line)] if page.crate else tree.crates
        roots = [f"crates/{it}/" for it in crates]
    return any(os.path.exists(f"{tree.top}/{root}{path}{end}") for root in roots for end in ("", ".antt"))


def sections(tree, page):
    """Sections that a page names as docs/PAGE.md, "Heading", and that aren't there."""
    for line, text in page.lines:
        for path, wanted in SECTION.findall(text):
            other = tree.page(path)
            if other and wanted not in [heading for _, heading in other.headings]:
                yield line, f"{path} has no heading \"{wanted}\""
