"""The worked runs: the plain program does what was written by hand."""

from dataclasses import dataclass, field
from pathlib import Path
from typing import List, Tuple

from plain_rules.events import Event
from plain_rules.settled import list_of
from plain_rules.text import event_text, id_text, kind_of, logged_text, or_dash, read_event
from plain_rules.text import vote_text
from plain_rules.world import DONE, World

TABLE = Path(__file__).with_name("worked.txt")

IDS = (1, 2, 3, 4)


@dataclass
class Run:
    """A run: its rows, an event with its answer each, and what is so in the end. Its kind is the
    word that it begins with: nodes of a bare one don't have the group, and to those of a hostile
    one any message may come."""

    kind: str
    names: List[str]
    rows: List[Tuple[Event, str]]
    facts: List[str] = field(default_factory=list)


def read_row(line):
    """An event and its answer."""
    event, _, answer = line.partition(" = ")
    return (read_event(event), answer.strip())


def read_runs():
    """The runs in the table."""
    parts, runs, part = {}, [], None
    for line in TABLE.read_text().splitlines():
        words = line.split()
        if not words or words[0] == "#":
            continue
        if words[0] == "part":
            part = parts[words[1]] = []
        elif words[0] in ("run", "bare", "hostile"):
            part = None
            rows = [row for name in words[1:] for row in parts[name]]
            runs.append(Run(words[0], words[1:], rows))
        elif part is not None:
            part.append(read_row(line))
        else:
            runs[-1].facts.append(line.strip())
    return runs


# ---- what is so


def ids_text(entries):
    """The log ids of entries."""
    return " ".join(id_text(entry.id) for entry in entries)


def kinds_text(world, sent_before):
    """The kinds of the messages from a number on."""
    return " ".join(kind_of(message.body) for message in world.messages[int(sent_before) :])


# What the world says to each fact about a node.
FACTS = {
    "log": lambda member: ids_text(member.stored().log),
    "held": lambda member: ids_text(member.stored().held()),
    "applied": lambda member: or_dash(None if member.up is None else member.up.applied),
    "vote": lambda member: vote_text(member.stored().vote),
    "purged": lambda member: id_text(member.stored().purged),
    "members": lambda member: logged_text(member.stored().membership_in_force()),
    "leads": lambda member: "" if member.leads() else "no",
    "stands": lambda member: "" if member.up is not None and member.up.is_candidate() else "no",
}


def is_so(world, fact):
    """Whether the world is so."""
    verb, *words = fact.split()
    if verb == "list":
        return " ".join(words) == ids_text(list_of(world))
    if verb == "kinds":
        return " ".join(words[1:]) == kinds_text(world, words[0])
    return " ".join(words[1:]) == FACTS[verb](world.member(int(words[0])))


# ---- runs


def answer_to(world, event):
    """What came of an event: its mark, and who was sent something."""
    sent_before = len(world.messages)
    mark = world.happen(event)
    return " ".join([mark] + [str(it.addressee) for it in world.messages[sent_before:]])


def faults_of(run, adds_group):
    """What goes otherwise in a run; with adds_group the group is added at its nodes first."""
    world = World.new(IDS, run.kind != "bare" and not adds_group)
    world.is_hostile = run.kind == "hostile"
    begun = [(Event("add", node), DONE) for node in IDS] if adds_group else []
    faults = []
    for event, wanted in begun + run.rows:
        answer = answer_to(world, event)
        if answer != wanted:
            faults.append(f"{event_text(event)}: {answer}, where {wanted} was written")
    faults += [f"it isn't so: {fact}" for fact in run.facts if not is_so(world, fact)]
    return [f"{run.kind} {' '.join(run.names)}: {fault}" for fault in faults]


def all_faults(runs):
    """What goes otherwise in the runs. Where nodes have the group, it is tried with additions
    too."""
    faults = []
    for run in runs:
        for adds_group in (False,) if run.kind == "bare" else (False, True):
            faults += faults_of(run, adds_group)
    return faults
