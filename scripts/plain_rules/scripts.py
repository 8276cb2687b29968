"""A cluster that runs a script: for each group a world, with a machine and the tokens that wait. It answers lines as docs/SCRIPT.md says."""

from copy import deepcopy
from dataclasses import dataclass, field
from typing import Dict, List, Optional

from plain_rules.events import Change, Event
from plain_rules.machines import FULL, Adding, Keys, run
from plain_rules.membership import Membership
from plain_rules.state import State
from plain_rules.stored import Stored
from plain_rules.world import DONE, STOPPED, Member, World

# What nodes' refusals are called, by what the rules call them.
NAMES = {
    "not-leader": "1 NotLeader",
    "unknown-group": "2 UnknownGroup",
    "group-exists": "3 GroupExists",
    "not-allowed": "4 NotAllowed",
    "not-voter": "5 NotVoter",
    "membership-refused": "6 Membership",
    "voter-change": "7 VoterChange",
    "in-progress": "8 InProgress",
    "command-too-long": "9 CommandTooLong",
    "number-at-end": "10 NumberAtEnd",
    "wrong-party": "12 WrongParty",
    "breaks-condition": "14 BreaksCondition",
}

# Each frame is longer than this, and none is as long as the second number.
SHORTEST_FRAME = 48
PAST_FRAMES = 1 << 40

# A storing command is one batch, which is appended to a file and synced.
CALLS_OF_COMMAND = 2


@dataclass
class Untold:
    """A token that waits, and the place of its entry."""

    token: int
    place: int


@dataclass
class Group:
    """A group over all nodes, with the tokens that wait at each."""

    world: World
    waiting: Dict[int, List[Untold]] = field(default_factory=dict)


def told_text(machine, untold, held):
    """What is told of a token, at a node that holds this list."""
    _, said = run(machine, held[: untold.place + 1])
    at = f"{untold.token}@{untold.place}"
    return f" full {at}" if said is FULL else f" told {at}={said}"


def refused_text(mark):
    """A refusal by the rules, as a script names it."""
    _, name, *rest = mark.split()
    return " ".join(["refused", NAMES[name]] + rest)


class Script:
    """A script: its cluster, and what was counted."""

    def __init__(self):
        self.ids = ()
        self.machine = Adding
        self.down = set()
        self.groups: Dict[int, Group] = {}
        self.tokens = 0
        self.now = 0
        # After how many storing commands the event that happens stops, if it does.
        self.stop = None

    @property
    def others(self):
        """The first words of lines that nodes of this machine don't take."""
        return (Keys if self.machine is Adding else Adding).verbs

    # ---- groups

    def group(self, group):
        """The group, as far as it is known: none of its nodes may have it yet."""
        if group not in self.groups:
            members = [
                Member(node, None, Stored(False))
                if node in self.down
                else Member(node, State(Stored(False)))
                for node in self.ids
            ]
            self.groups[group] = Group(World(members))
        return self.groups[group]

    def standing(self, node, is_reopening=False):
        """Why nothing comes to the node, if nothing does."""
        if node not in self.ids:
            return "refused C1 NoNode"
        if node in self.down and not is_reopening:
            return "refused C2 NodeDown"
        if node not in self.down and is_reopening:
            return "refused C3 NodeUp"
        return None

    # ---- events

    def came_of(self, group, node, happen):
        """What was sent, told and stays unknown by what happens at the group's node; or why it is
        refused."""
        world, waiting = group.world, group.waiting
        sent_before = len(world.messages)
        lead_before = self.lead_of(world, node)
        mark = happen()
        if mark != DONE:
            return mark, "", "", ""
        sent = "".join(
            f" >{message.addressee}#{sent_before + at}"
            for at, message in enumerate(world.messages[sent_before:])
        )
        told, unknown, left = "", "", []
        member = world.member(node)
        held = member.stored().held()
        for untold in waiting.get(node, []):
            if self.lead_of(world, node) != lead_before and lead_before is not None:
                unknown += f" unknown {untold.token}"
            elif member.up.applied is not None and untold.place <= member.up.applied:
                told += told_text(self.machine, untold, held)
            else:
                left.append(untold)
        waiting[node] = left
        return mark, sent, told, unknown

    @staticmethod
    def lead_of(world, node):
        """The vote under which the node leads, if it does."""
        member = world.member(node)
        return member.stored().vote if member.leads() else None

    def call(self, node, number, verb, what=None, token=None):
        """A node is asked for something of a group."""
        why = self.standing(node)
        if why is not None:
            return why
        group = self.group(number)
        event = Event(verb, node, self.now, self.stop, what)
        if verb == "setup" and group.world.setup not in (None, what):
            return "refused C5 SetupDiffers"
        if token is not None:
            place = group.world.member(node).stored().end_place()
            group.waiting.setdefault(node, []).append(Untold(token, place))
        mark, sent, told, unknown = self.came_of(group, node, lambda: group.world.happen(event))
        if mark == STOPPED:
            return self.fall(node)
        if mark != DONE:
            if token is not None:
                group.waiting[node].pop()
            return refused_text(mark)
        return f"ok{sent}{told}{unknown}"

    def add(self, node, number):
        """The node gets the group."""
        return self.call(node, number, "add")

    def init(self, node, number, *words):
        """The group is set up."""
        lists = " ".join(words).split(" / ")
        voters = tuple(map(int, lists[0].split()))
        learners = tuple(map(int, lists[1].split())) if len(lists) > 1 else ()
        nodes = tuple((node, f"n{node}") for node in sorted(set(voters + learners)))
        membership = Membership((tuple(sorted(voters)),), nodes)
        return self.call(node, number, "setup", membership)

    def next_token(self):
        """One more line has a token."""
        self.tokens += 1
        return self.tokens

    def propose(self, node, number, *words):
        """The group's leader is to take the command of these words."""
        data = self.machine.command(*words)
        return self.call(node, number, "propose", data, self.next_token())

    def addr(self, node, number, named, address):
        """The group's leader is to change a node's address."""
        change = Change("set-nodes", ((int(named), address),))
        return self.call(node, number, "change", change, self.next_token())

    def voters(self, node, number, *ids):
        """The group's leader is to change the voters."""
        change = Change("add-voter-ids", tuple(sorted(map(int, ids))))
        return self.call(node, number, "change", change, self.next_token())

    def deliver(self, number, frame, cut=None):
        """The frame comes to its node."""
        number, frame = int(number), int(frame)
        messages = self.groups[number].world.messages if number in self.groups else []
        if frame >= len(messages):
            return "refused C4 NoFrame"
        message = messages[frame]
        why = self.standing(message.addressee)
        if why is not None:
            return why
        if cut is not None and not 0 < int(cut) < PAST_FRAMES:
            return "refused C9 BadCut"
        group = self.groups[number]
        event = Event("deliver", frame, self.now, self.stop)
        mark, sent, told, unknown = self.came_of(
            group, message.addressee, lambda: group.world.happen(event)
        )
        if mark == STOPPED:
            return self.fall(message.addressee)
        return f"ok{sent}{told}{unknown}" if mark == DONE else refused_text(mark)

    def go_down(self, node):
        """The node is down, with what it has stored of each group."""
        self.down.add(node)
        for group in self.groups.values():
            group.world.happen(Event("crash", node))
            group.waiting[node] = []

    def fall(self, node):
        """The node stopped inside an event."""
        self.go_down(node)
        return "stopped"

    def clean(self, node):
        """The node's log is cleaned, which changes no group. It isn't large here, so no group holds back
        anything."""
        return self.standing(int(node)) or "ok"

    def crash(self, node, _):
        """The node stops. All that it stored was synced, so each choice leaves the same."""
        node = int(node)
        why = self.standing(node)
        if why is not None:
            return why
        self.go_down(node)
        return "ok"

    def stored_by(self, line):
        """How many storing commands the event of this line would have."""
        tried = deepcopy(self)
        for group in tried.groups.values():
            group.world.stored_last = 0
        tried.answer(line)
        return sum(group.world.stored_last for group in tried.groups.values())

    def fuse(self, first_refused, line):
        """The event of the line, whose node's files refuse a changing call and each one behind it. What
        was synced before that stays. An opening isn't tried so here."""
        kept = (int(first_refused) - 1) // CALLS_OF_COMMAND
        self.stop = kept if kept < self.stored_by(line) else None
        said = self.answer(line)
        self.stop = None
        return said

    def reopen(self, node, _):
        """The node is opened with all its groups, by rising id."""
        node = int(node)
        why = self.standing(node, True)
        if why is not None:
            return why
        self.down.remove(node)
        event = Event("restart", node)
        parts = ["", "", ""]
        for _, group in sorted(self.groups.items()):
            world = group.world
            said = self.came_of(group, node, lambda world=world: world.happen(event))
            parts = [part + more for part, more in zip(parts, said[1:])]
        return "ok" + "".join(parts)

    def total(self, node, number):
        """What the group's machine has added up at the node."""
        node, number = int(node), int(number)
        member = self.group(number).world.member(node)
        if member is None or member.up is None or not member.up.stored.present:
            return "none"
        applied = member.up.applied
        held = member.stored().held()
        total, _ = run(Adding, held[: 0 if applied is None else applied + 1])
        return f"total {total} at {'-' if applied is None else applied}"

    # ---- lines

    def answer(self, line):
        """The answer to a line."""
        verb, *words = line.split(" ")
        if verb in ("nodes", "kv"):
            self.ids = tuple(range(1, int(words[0]) + 1))
            self.machine = Keys if verb == "kv" else Adding
            return "ok"
        if verb == "now":
            self.now = int(words[0])
            return "ok"
        if verb == "fuse":
            return self.fuse(words[0], " ".join(words[1:]))
        if verb in ("deliver", "clean", "crash", "reopen", "total"):
            return getattr(self, verb)(*words)
        if verb in Keys.verbs:
            return self.propose(int(words[0]), int(words[1]), verb, *words[2:])
        calls = {
            "elect": lambda node, number: self.call(node, number, "elect"),
            "heartbeat": lambda node, number: self.call(node, number, "beat"),
            "snapshot": lambda node, number: self.call(node, number, "snapshot"),
            "lost": lambda node, number, peer: self.call(node, number, "lost", int(peer)),
            "purge": lambda node, number, place: self.call(node, number, "purge", int(place)),
        }
        happen = calls.get(verb) or getattr(self, verb)
        return happen(int(words[0]), int(words[1]), *words[2:])


def is_skipped(line):
    """Whether the line is empty or a comment, which is counted and has no answer."""
    return line == "" or line[0] == "#"


def answers_to(lines):
    """The answers to a script's lines."""
    script = Script()
    return [script.answer(line) for line in lines if not is_skipped(line)]
