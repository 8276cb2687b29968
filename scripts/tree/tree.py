"""A tree of the repository: pages, crates, sources, definitions."""
import functools
import glob
import os
import re

import definitions
import sources
import words
from page import Page


class Tree:
    """The repository at a folder."""

    def __init__(self, top):
        self.top = top
        self.crates = sources.crates(top)
        self.below = sources.below(top)
        self.names = definitions.names(top)
        self.words = definitions.words(top)
        self.edits = {}
        for path in glob.glob(f"{top}/scripts/edits/*/*.edit") + glob.glob(f"{top}/crates/*/must-fail/*.edit"):
            parts = os.path.relpath(path, top).split("/")
            crate = parts[2] if parts[0] == "scripts" else parts[1]
            self.edits.setdefault(parts[-1].removesuffix(".edit"), set()).add(crate)

    @functools.cache
    def known_words(self):
        """The words of the sources."""
        return words.known(self)

    @functools.cache
    def page(self, path):
        """The page at a path, or none."""
        if not path.endswith(".md") or not os.path.isfile(f"{self.top}/{path}"):
            return None
        with open(f"{self.top}/{path}", encoding="utf-8") as file:
            return Page(path, file.read())

    @functools.cache
    def calls(self):
        """The functions by their owner and name."""
        found = {}
        for crate in self.crates.values():
            for it in crate.functions:
                found.setdefault((it.owner, it.name), []).append(it)
        return found

    @functools.cache
    def reached(self, text):
        """The words of a text, and of the definitions that it leads to by their names, near or far."""
        found = set(re.findall(r"[\w'-]+", text))
        rest = found & self.words.keys()
        while rest:
            more = set().union(*(self.words[it] for it in rest)) - found
            found |= more
            rest = more & self.words.keys()
        return found

    def pages(self):
        """All pages that are checked."""
        paths = ["README.md", *sorted(glob.glob("docs/*.md", root_dir=self.top)),
                 *sorted(glob.glob("crates/*/README.md", root_dir=self.top))]
        return [it for it in map(self.page, paths) if it]

    def is_specs(self, path):
        """Whether CRATE/specs/NAME is a file or a folder."""
        return any(os.path.exists(f"{self.top}/crates/{path}{end}") for end in ("", ".antt"))

    def is_named(self, name):
        """Whether the sources declare a name."""
        return any(name in it.items or name in it.variants or name in it.ghosts for it in self.crates.values())
