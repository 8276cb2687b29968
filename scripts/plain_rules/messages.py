"""What nodes of a group send to one another."""

from dataclasses import dataclass
from typing import Optional, Tuple

from plain_rules.stored import Snapshot
from plain_rules.values import Entry, Id, Vote

SUCCESS = "success"
CONFLICT = "conflict"


@dataclass(frozen=True)
class HigherVote:
    """The node has this vote, which is greater than the request's."""

    vote: Vote


@dataclass(frozen=True)
class PartialSuccess:
    """The node has accepted the request up to this log id. No node says so."""

    last: Optional[Id]


@dataclass(frozen=True)
class VoteRequest:
    """A candidate asks for a vote, with its last log id."""

    vote: Vote
    last: Optional[Id]


@dataclass(frozen=True)
class VoteReply:
    """The vote that the node has then, and whether it granted the other one."""

    vote: Vote
    granted: bool
    last: Optional[Id]


@dataclass(frozen=True)
class Append:
    """Entries to be appended after the previous one, and how far the sender has committed. A notice
    or heartbeat has no number."""

    vote: Vote
    number: Optional[int]
    previous: Optional[Id]
    committed: Optional[Id]
    entries: Tuple[Entry, ...]


@dataclass(frozen=True)
class Reply:
    """A reply repeats what the request was, and says what came of it: success, in whole or in part,
    conflict or a higher vote."""

    vote: Vote
    number: Optional[int]
    previous: Optional[Id]
    last: Optional[Id]
    outcome: object


@dataclass(frozen=True)
class AppendReply(Reply):
    """The reply to entries."""


@dataclass(frozen=True)
class SnapshotReply(Reply):
    """The reply to a snapshot."""


@dataclass(frozen=True)
class Offer:
    """A leader's snapshot, whole."""

    vote: Vote
    number: int
    snapshot: Snapshot


@dataclass(frozen=True)
class Message:
    """What a node sends to another one."""

    sender: int
    addressee: int
    body: object


def last_sent(previous, entries):
    """The log id of the last of these entries, or the one before them."""
    return entries[-1].id if entries else previous
