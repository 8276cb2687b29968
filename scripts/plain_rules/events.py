"""What may happen to a group's nodes."""

from dataclasses import dataclass
from typing import Optional


@dataclass(frozen=True)
class Change:
    """A change of a membership, with the ids or nodes that it names."""

    kind: str
    named: tuple


@dataclass(frozen=True)
class Event:
    """What happens, after how many storing commands it stops, if it does, and to what: a node, or
    the message that is delivered. A call comes with what it asks for: a membership, a command, a
    change, a peer or a place."""

    verb: str
    target: int
    now: int = 0
    stop: Optional[int] = None
    what: object = None


# The calls, by what they ask for.
CALLS = ("setup", "elect", "propose", "change", "beat", "lost", "snapshot", "purge")

# What else may happen.
OTHERS = ("add", "deliver", "receive", "crash", "halt", "restart")
