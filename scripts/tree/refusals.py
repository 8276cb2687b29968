"""Which clause of which function refuses the wrong bodies (scripts/edits): read by line, by what each edit says.

An edit's first line ends with `refused by CLAUSE of FUNCTION`, in words that differ; or it names no clause. The functions
are those of its lines `only:`, else those whose bodies hold its `old:` texts.
"""
import bisect
import collections
import glob
import os
import re

import definitions

WHY = re.compile(r"^why: .*?\brefused by (?:the )?(.*)$", re.M)
# Where what is said of a clause ends, and words about it begin.
END = re.compile(r"[:;.,] |[;.]$| where | since | as | \(none\)")
NAME = re.compile(r"\b[A-Za-z_]\w*\b")
# What a contract is called where no clause of it has the name.
WHOLE = {"ensures": "its ensures", "contract": "its ensures", "invariant": "an invariant", "invariants": "an invariant"}
UNSAID = "not said"


class Refusal:
    """A wrong body: what it turns, and the functions and clauses that refuse it."""

    def __init__(self, edit, turned, functions, clauses):
        self.edit, self.turned, self.functions, self.clauses = edit, turned, functions, clauses


def of_crate(tree, crate):
    """The refusals of the crate's wrong bodies, by their names."""
    reader = _Reader(tree, crate)
    paths = sorted(glob.glob(f"{tree.top}/scripts/edits/{crate}/*.edit"))
    return [reader.read(os.path.basename(it).removesuffix(".edit"), _text(it)) for it in paths]


def table(refusals):
    """How many wrong bodies each clause of each function refuses, by function; one that names several clauses counts at each."""
    found = collections.defaultdict(collections.Counter)
    for it in refusals:
        for function in it.functions or [", ".join(it.turned)]:
            found[function].update(it.clauses)
    return {function: found[function] for function in sorted(found)}


def _text(path):
    with open(path, encoding="utf-8") as file:
        return file.read()


class _Reader:
    """Reads the edits of a crate."""

    def __init__(self, tree, crate):
        self.tree, self.crate = tree, crate
        self.places = {}
        for it in tree.crates[crate].functions:
            path, line = it.place.rsplit(":", 1)
            self.places.setdefault(path, []).append((int(line), it))
        for its in self.places.values():
            its.sort(key=lambda it: it[0])

    def read(self, name, text):
        """What a text of an edit says."""
        only = re.findall(r"^only: *(\S+)", text, re.M)
        turned = [*dict.fromkeys(self._turned(text))]
        functions = [it.rsplit("::", 1)[-1] for it in only] or [it for it in turned if "/" not in it]
        why = WHY.search(text)
        clauses = self._clauses(END.split(why[1])[0], functions) if why else [UNSAID]
        return Refusal(name, turned, functions, clauses)

    def _turned(self, text):
        """The functions and definitions whose texts an edit turns; a definition as its file and name."""
        path = None
        for kind, what in re.findall(r"^(file|old): (.*)$", text, re.M):
            if kind == "file":
                path = f"crates/{self.crate}/{what.strip()}"
            elif path and os.path.isfile(f"{self.tree.top}/{path}"):
                yield self._holder(path, what)

    def _holder(self, path, old):
        """The function or definition that holds a text of a file."""
        text = _text(f"{self.tree.top}/{path}")
        line = text[:max(text.find(old), 0)].count("\n") + 1
        if path.endswith(".antt"):
            its = [(int(it.place.rsplit(":", 1)[1]), it.name) for it in definitions.statements(text, path, True)]
            return f"{path.split('/', 2)[2].removesuffix('.antt')}: {_last(its, line) or '?'}"
        return _title(_last(self.places.get(path, []), line)) or path.split("/", 2)[2]

    def _clauses(self, said, functions):
        """The clauses that what is said names: those of the functions, of others that it names, or of the contract as a whole."""
        words = [it for it in NAME.findall(said)]
        its = [it for it in self._near() if _title(it) in functions or it.name in functions or it.name in words]
        known = set().union(*(it.clauses for it in its)) if its else set()
        known |= {ghost for ghost, owners in self.tree.crates[self.crate].ghosts.items() if owners & {it.trait or it.owner for it in its}}
        ticked = set(re.findall(r"`(\w+)`", said))
        found = [it for it in dict.fromkeys(words) if it in known and (not ticked or it in ticked)]
        return found or [*self._as_a_whole(words, {it.name for it in its})][:1] or [UNSAID]

    def _as_a_whole(self, words, functions):
        """What words say that name no clause: a definition that a clause leads to, or a contract as a whole."""
        yield from (it for it in words if it in self.tree.names and re.search(r"_|[a-z][A-Z]", it) and it not in functions)
        yield from (WHOLE.get(it, WHOLE["contract"]) for it in words if it in WHOLE or it in functions)

    def _near(self):
        """The functions of the crate, and those of the traits that its impls are of."""
        own = self.tree.crates[self.crate].functions
        calls = self.tree.calls()
        return [*own, *(call for it in own if it.trait for call in calls.get((it.trait, it.name), ()))]


def _last(its, line):
    """What begins last at or before a line, or none."""
    at = bisect.bisect_right([it for it, _ in its], line)
    return its[at - 1][1] if at else None


def _title(function):
    """A function's name, behind its type's."""
    return function and (f"{function.owner}::{function.name}" if function.owner else function.name)
