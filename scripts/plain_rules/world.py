"""The group step, and all nodes of one group, what they sent, and what happens to them."""

from dataclasses import dataclass, field
from typing import List, Optional, Tuple

from plain_rules import elections, following, keeping, leading, refusal
from plain_rules import stored as storing
from plain_rules.membership import Membership
from plain_rules.messages import Append, AppendReply, Message, Offer
from plain_rules.messages import SnapshotReply, VoteReply, VoteRequest
from plain_rules.state import State
from plain_rules.step import Step
from plain_rules.stored import Stored
from plain_rules.values import Entry, Vote

DONE = "done"
STOPPED = "stopped"
SKIPPED = "skipped"

# What each call does.
CALL_STEPS = {
    "setup": elections.initialize,
    "elect": lambda step, _: elections.elect(step),
    "propose": leading.propose,
    "change": leading.change_membership,
    "beat": lambda step, _: leading.heartbeat(step),
    "lost": leading.lost,
    "snapshot": lambda step, _: keeping.trigger_snapshot(step),
    "purge": keeping.trigger_purge,
}

# What each kind of message does.
MESSAGE_STEPS = {
    VoteRequest: elections.vote_request,
    VoteReply: elections.vote_reply,
    Append: following.append_request,
    AppendReply: leading.reply,
    Offer: following.snapshot_request,
    SnapshotReply: leading.reply,
}


# ---- the group step


def refusal_of(own, state, event, message):
    """Why the event is refused, if it is."""
    if event.verb == "add":
        return refusal.GROUP_EXISTS if state.stored.present else None
    if event.verb == "restart":
        return None
    if message is not None:
        return refusal.refusal_of_message(own, state, event.now, message)
    return refusal.refusal_of_call(own, state, event)


def event_step(step, event, message):
    """What the event itself does. A moment before the last one counts as the last one."""
    if event.verb == "add":
        step.store(storing.make_group)
    elif event.verb == "restart":
        keeping.open_group(step)
    else:
        step.state.now = max(step.state.now, event.now)
        if message is None:
            CALL_STEPS[event.verb](step, event.what)
        else:
            MESSAGE_STEPS[type(message.body)](step, message.sender, message.body)


def group_step(step, event, message):
    """The step, or why the event is refused. In the end a leader commits, purges as wished, and
    sends."""
    refused = refusal_of(step.own, step.state, event, message)
    if refused is None:
        before = step.state.committed
        event_step(step, event, message)
        leading.commit_as_leader(step)
        leading.purge_as_wished(step)
        leading.with_frames(step, before)
    return refused


# ---- the world


@dataclass
class Member:
    """A node: up with its state, or down with what it has stored."""

    id: int
    up: Optional[State]
    down: Optional[Stored] = None

    def stored(self):
        """What the node has stored."""
        return self.down if self.up is None else self.up.stored

    def leads(self):
        """Whether the node is up and leads."""
        return self.up is not None and self.up.is_leader()


@dataclass(frozen=True)
class Led:
    """A node led under a vote at the end of an event that didn't stop, and had this list."""

    node: int
    vote: Vote
    list: Tuple[Entry, ...]


def stopped_after(count, before, commands):
    """The stored part after the first so many storing commands of a step. Nothing else is left."""
    stored = before
    for command, named in commands[:count]:
        stored = command(stored, *named)
    return stored


@dataclass
class World:
    """The nodes, the messages, numbered from 0 in the order of sending, what the group was set up
    with, and the notes of those that led. To nodes of a hostile world any message may come, and
    any set-up."""

    members: List[Member]
    messages: List[Message] = field(default_factory=list)
    setup: Optional[Membership] = None
    is_hostile: bool = False
    led: List[Led] = field(default_factory=list)
    # How many storing commands the last step had.
    stored_last: int = 0

    @staticmethod
    def new(ids, has_group):
        """Nodes that are up and have nothing of the group, or the group with nothing in it."""
        return World([Member(node, State(Stored(has_group))) for node in ids])

    def member(self, node):
        """The node with the id, if there is one."""
        return next((member for member in self.members if member.id == node), None)

    def leaders(self):
        """Those that lead."""
        return [member.id for member in self.members if member.leads()]

    def note_led(self, member):
        """The note of the node, if it leads. A note like the last one says nothing more."""
        if member.leads():
            led = Led(member.id, member.stored().vote, member.stored().held())
            if self.led[-1:] != [led]:
                self.led.append(led)

    def run_step(self, member, state, event, message):
        """A step that is refused or runs to its end, after which the node is up; or it stops after
        its first so many storing commands, and the node is down."""
        before = state.stored
        step = Step(member.id, state)
        refused = group_step(step, event, message)
        self.stored_last = 0 if refused is not None else len(step.commands)
        if refused is None and event.stop is not None:
            member.up, member.down = None, stopped_after(event.stop, before, step.commands)
            return STOPPED
        member.up, member.down = step.state, None
        self.messages.extend(step.messages)
        self.note_led(member)
        return DONE if refused is None else f"refused {refused}"

    def happen_at(self, node, event, message=None):
        """What becomes of the event at its node."""
        member = self.member(node)
        if member is None or (member.up is None) != (event.verb == "restart"):
            return SKIPPED
        if event.verb == "restart":
            return self.run_step(member, State(member.down), event, message)
        if event.verb in ("crash", "halt"):
            member.up, member.down = None, member.up.stored
            return DONE if event.verb == "crash" else STOPPED
        return self.run_step(member, member.up, event, message)

    def happen(self, event):
        """What becomes of an event. The first set-up that was neither refused nor skipped is kept;
        one that stopped counts, and one that names another membership is skipped."""
        if event.verb == "deliver":
            if event.target >= len(self.messages):
                return SKIPPED
            message = self.messages[event.target]
            return self.happen_at(message.addressee, event, message)
        is_free = self.is_hostile or event.verb != "setup" or self.setup in (None, event.what)
        if not is_free:
            return SKIPPED
        message = event.what if event.verb == "receive" else None
        mark = self.happen_at(event.target, event, message)
        if event.verb == "setup" and self.setup is None and mark in (DONE, STOPPED):
            self.setup = event.what
        return mark
