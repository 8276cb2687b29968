"""What came about in random worlds, so that it shows that they go through what they should."""

from collections import Counter
from copy import deepcopy
from dataclasses import replace

from plain_rules.messages import Append, PartialSuccess, Reply, SnapshotReply, VoteReply
from plain_rules.messages import CONFLICT, SUCCESS
from plain_rules.refusal import known_membership
from plain_rules.stored import last_membership

# More often than these has to come about in the five worlds of each course.
LEAST = {
    "done": 1000,
    "refused": 100,
    "stopped": 20,
    "halt stopped": 4,
    "stop refused": 4,
    "skipped": 100,
    "leads": 10,
    "settled": 60,
    "granted": 10,
    "denied": 10,
    SUCCESS: 100,
    CONFLICT: 0,
    "higher vote": 10,
    "snapshot taken": 0,
    "not-leader": 10,
    "not-voter": 0,
    "not-allowed": 0,
    "in-progress": 0,
    "number-at-end": 0,
    "group-exists": 0,
}

# What else has to come about at all, by course: a request with as many entries as can be.
ALSO = {"busy": {"full request": 0}}

# More often than these a lie has to be taken, refused or stopped at in all hostile worlds, worked
# ones too, or to change more of its node than the moment; a node has to halt, and an event that was
# to stop to be refused; and a leader has to purge its log's last membership while its snapshot has
# another, also with a node more.
LEAST_LIES = {
    "done": 1000,
    "refused": 100,
    "stopped": 40,
    "PartialSuccess done": 80,
    "Offer done": 15,
    "Offer refused": 20,
    "Append done": 200,
    "Append refused": 80,
    "AppendReply done": 200,
    "VoteReply done": 100,
    "VoteRequest done": 100,
    "PartialSuccess changed": 5,
    "Offer stopped": 4,
    "halt stopped": 15,
    "stop refused": 30,
    "members purged": 2,
    "node purged in": 0,
}


def lie_of(event, mark):
    """What a lie says, and what became of it; of another event nothing."""
    if event.verb != "receive":
        return []
    body = event.what.body
    said = [f"{type(body).__name__} {mark}", mark]
    if is_partial_success(event):
        said.append(f"PartialSuccess {mark}")
    return said


def is_partial_success(event):
    """A lie that is a partial success."""
    body = event.what.body if event.verb == "receive" else None
    return isinstance(body, Reply) and isinstance(body.outcome, PartialSuccess)


def state_of(world, event):
    """What the node has to which the event comes, if it is up; a copy, since a step changes it."""
    target = event.target
    if event.verb == "deliver":
        messages = world.messages[target : target + 1]
        target = messages[0].addressee if messages else None
    member = world.member(target)
    state = None if member is None else member.up
    return None if state is None else replace(state, role=deepcopy(state.role))


def leads(state):
    """The node is up and leads."""
    return state is not None and state.is_leader()


def purge_seen(before, after):
    """A leader purged its log's last membership, and the snapshot's, then in force, is another; it
    may have other nodes."""
    if not leads(before) or not leads(after) or before.stored.purged == after.stored.purged:
        return []
    old, new = known_membership(before.stored), known_membership(after.stored)
    if last_membership(None, after.stored.log) is not None or None in (old, new) or old == new:
        return []
    came = set(new.member_ids()) - set(old.member_ids())
    return ["members purged"] + (["node purged in"] if came else [])


def change_of(event, mark, before, after):
    """What seldom comes about: a halt, a stop that is refused, a purge that changes the membership
    in force, a partial success that changes more than the moment."""
    seen = []
    if event.verb == "halt" and mark == "stopped":
        seen.append("halt stopped")
    if event.stop is not None and mark == "refused":
        seen.append("stop refused")
    seen += purge_seen(before, after)
    if is_partial_success(event) and mark == "done" and replace(before, now=after.now) != after:
        seen.append("PartialSuccess changed")
    return seen


def lies_missed(seen):
    """Which lies came about too seldom."""
    rare = [what for what, least in LEAST_LIES.items() if seen[what] <= least]
    return [f"hostile worlds: {what}: {seen[what]} times alone" for what in rare]


def count_message(seen, body):
    """Counts what a message is."""
    if isinstance(body, VoteReply):
        seen["granted" if body.granted else "denied"] += 1
    elif isinstance(body, Append):
        seen["full request"] += len(body.entries) == 64
    elif isinstance(body, SnapshotReply):
        seen["snapshot taken"] += 1
    elif isinstance(body, Reply):
        seen[body.outcome if isinstance(body.outcome, str) else "higher vote"] += 1


def count_world(marks, world, settled):
    """What came about in a world after events with these marks, with so many entries that the group
    agreed on."""
    seen = Counter(settled=settled)
    for mark in marks:
        seen.update(mark.split()[:2])
    for message in world.messages:
        count_message(seen, message.body)
    votes = [led.vote for led in world.led]
    seen["leads"] = sum(vote != before for vote, before in zip(votes, [None] + votes))
    return seen


def faults_of(name, seen):
    """What came about too seldom in the worlds of a course."""
    wanted = {**LEAST, **ALSO.get(name, {})}
    rare = [what for what, least in wanted.items() if seen[what] <= least]
    return [f"{name}: {what}: {seen[what]} times alone" for what in rare]
