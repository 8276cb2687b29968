"""Checks tables of promises: the functions of the second column are in the sources, the clauses of the third are theirs.

A name of a clause stands for a clause of one of the row's functions, for a law of a trait or an invariant, or for a
definition that their contracts lead to. Where a row speaks of functions of rows before it, all of the crate count.
"""
import re

from page import CRATE, TICKS, expanded

# Names of the standard library, of which this tree has no source.
STD = {"Vec", "slice", "From", "from", "fmt", "Display", "Debug", "Clone", "clone", "Iterator", "Model"}


class Said:
    """What a cell of functions names: functions, traits or types as a whole, and faults."""

    def __init__(self):
        self.functions, self.wholes, self.faults = [], [], []


def is_promises(heads):
    """Whether a table is one of promises."""
    return re.match(r"^Function( \(\w+\))?$", heads[1] if len(heads) > 1 else "") is not None and heads[2:] in ([], ["Clause"])


def check(tree, page):
    """What is wrong in the page's tables of promises."""
    for row in page.rows():
        if not is_promises(row.heads):
            continue
        if len(row.cells) != len(row.heads):
            yield row.line, f"the row has {len(row.cells)} cells"
            continue
        said = named_functions(tree, page, row)
        yield from ((row.line, fault) for fault in said.faults)
        if len(row.cells) == 3 and (said.functions or said.wholes or not said.faults):
            yield from ((row.line, fault) for fault in clause_faults(tree, row.cells[2], said))


def _goes_on(cell):
    """Whether a cell speaks of functions that it doesn't name."""
    return ".." in cell or not TICKS.search(cell) or re.search(r"\b(same|above|before|each|all|those|these|calls|impls?|its)\b", TICKS.sub("", cell))


# ---- functions

def named_functions(tree, page, row):
    """What the second cell of a row names."""
    cell, said = row.cells[1], Said()
    pieces = re.split(r"(`[^`]+`)", cell)
    for at, piece in enumerate(pieces):
        if not piece.startswith("`"):
            continue
        scope = _scope(tree, page, row, pieces[at - 1], pieces[at + 1])
        for name in _names(piece.strip("`")):
            if name.split("::")[-1] not in STD:
                _look_up(tree, scope, name, said)
    if _goes_on(cell):
        near = [tree.crates[it] for it in _near(page, row) if it in tree.crates]
        said.functions += [it for crate in near for it in crate.functions]
        said.wholes += [(crate, owner) for crate in near for owners in crate.ghosts.values() for owner in owners]
    return said


def _near(page, row):
    """The crates that a row is of."""
    return {page.crate} if page.crate else set(CRATE.findall(row.heading + row.cells[1]))


def _scope(tree, page, row, before, behind):
    """Where a function may stand, nearest first: the crate that is named beside it, the page's, the heading's, any."""
    beside = re.match(r"^ \((raft_\w+)\)", behind) or re.search(r"\b(raft_\w+): $", before) or re.match(r"^ of (raft_\w+)", behind)
    if beside:
        return [{beside[1]}]
    if page.crate:
        return [{page.crate}, tree.below.get(page.crate, set())]
    first = re.match(r"^(raft_\w+): ", row.cells[1])
    near = {first[1]} if first else set(CRATE.findall(row.heads[1])) or set(CRATE.findall(row.heading))
    return [it for it in (near, set(tree.crates)) if it]


def _names(text):
    """The names that a text in backticks stands for; `..` stands for others."""
    if text.startswith(("impl ", "trait ")):
        return [text]
    return [it for it in expanded(text.replace(" ", "")) if not it.endswith("..")]


def _look_up(tree, scope, name, said):
    """Adds what a name stands for in the nearest crates that have it."""
    for crates in scope:
        functions, wholes = _in_crates([tree.crates[it] for it in sorted(crates) if it in tree.crates], name)
        if functions or wholes:
            said.functions += functions
            said.wholes += wholes
            return
    said.faults.append(f"no function {name} in {_where(scope)}")


def _where(scope):
    """The words for a scope."""
    return " or ".join(", ".join(sorted(it)) if len(it) < 4 else "those below it" if at else "these crates" for at, it in enumerate(scope))


def _in_crates(crates, name):
    """The functions of a name, and the types, traits and modules, as a crate and a name."""
    if name.endswith(".rt"):
        found = [it for crate in crates for it in crate.functions if f"/{it.place}".split(":")[0].endswith(f"/{name}")]
        return found, []
    if found := re.match(r"^impl (\w+) for (\w+)$", name):
        return _impl(crates, *found.groups())
    if "::" in name:
        owner, call = name.rsplit("::", 1)
        owner = owner.split("::")[-1]
        found = [it for crate in crates for it in crate.owned(owner) if it.name == call]
        return found, [(crate, owner) for crate in crates if owner in crate.ghosts.get(call, ())]
    functions = [it for crate in crates for it in crate.functions if it.name == name]
    whole = [(crate, name) for crate in crates if name in crate.items and crate.items[name] != {"fn"}]
    laws = [(crate, owner) for crate in crates for owner in crate.ghosts.get(name, ())]
    return functions + [it for crate, _ in whole for it in crate.owned(name)], whole + laws


def _impl(crates, trait, kind):
    """The functions of an impl."""
    found = [crate for crate in crates if (trait, kind) in crate.impls]
    return [it for crate in found for it in crate.functions if (it.trait, it.owner) == (trait, kind)], [(crate, kind) for crate in found]


# ---- clauses

def clause_faults(tree, cell, said):
    """What is wrong with the names of a cell of clauses."""
    functions = said.functions + _of_traits(tree, said.functions)
    wholes = said.wholes + [(tree.crates[it.crate], it.owner) for it in said.functions if it.trait]
    known = _clauses(functions, said.wholes)
    contracts = " ".join([*(it.contract() for it in functions), *_laws(wholes)])
    pieces = re.split(r"(`[^`]+`)", cell)
    for at, piece in enumerate(pieces):
        name = piece.strip("`")
        if not piece.startswith("`") or "/" in name or name in STD | {"ensures"} or _is_call(pieces[at - 1], name, pieces[at + 1], said):
            continue
        if name not in known and not _is_reached(tree, name, contracts, _is_clause(pieces, at)) and not _is_case(tree, name):
            yield f"no clause or definition {name} in the contracts of these functions"


def _is_clause(pieces, at):
    """Whether a name in small letters has to be that of a clause or of a definition: no field in brackets or of a record."""
    before = "".join(it for it in pieces[:at] if not it.startswith("`"))
    return pieces[at][1].islower() and before.count("(") == before.count(")") and not pieces[at + 1].startswith(" of")


def _is_reached(tree, name, contracts, is_clause):
    """Whether contracts lead to a name: to a definition, or, where it needn't be one, to a field or a word of one."""
    if is_clause and name not in tree.words:
        return False
    parts = set(name.split("."))
    # (most names stand in the contracts themselves; all that these lead to are thousands of words)
    return parts <= set(re.findall(r"[\w'-]+", contracts)) or parts <= tree.reached(contracts)


def _is_call(before, name, behind, said):
    """Whether a name in a cell of clauses is that of a function, as in "the one of `call`" and "`call`'s"."""
    return (before.endswith("the one of ") or behind.startswith("'s")) and name in {it.name for it in said.functions}


def _is_case(tree, name):
    """Whether a name is that of a case of an enum of the code."""
    return any(name in crate.variants for crate in tree.crates.values())


def _of_traits(tree, functions):
    """The calls of traits that functions are those of, in the crate's impls."""
    wanted = {(it.trait, it.name) for it in functions if it.trait}
    return [call for it in wanted for call in tree.calls().get(it, ())]


def _clauses(functions, wholes):
    """The names of the clauses of functions, of the laws of types and traits, and of invariants."""
    known = set().union(*(it.clauses for it in functions))
    for crate, owner in wholes:
        known.update(ghost for ghost, owners in crate.ghosts.items() if owner in owners)
    return known


def _laws(wholes):
    """The texts of the laws and invariants of types and traits."""
    return [text for crate, owner in wholes for text in crate.laws.get(owner, ())]
