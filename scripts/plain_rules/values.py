"""Votes, log ids, places and entries. A log id or place that there may be none of is None, which is
below all."""

from dataclasses import dataclass
from typing import NamedTuple, Optional

from plain_rules.membership import Membership


class Vote(NamedTuple):
    """A vote: by term, then by node, and the granted one last."""

    term: int
    node: int
    granted: bool

    @property
    def leader(self):
        """The leader of the vote."""
        return (self.term, self.node)


class Id(NamedTuple):
    """A log id: by leader, then by place."""

    term: int
    node: int
    place: int

    @property
    def leader(self):
        """The leader that wrote the entry."""
        return (self.term, self.node)


@dataclass(frozen=True)
class Blank:
    """An entry that asks for nothing."""


@dataclass(frozen=True)
class Command:
    """An entry for the state machine."""

    data: bytes


@dataclass(frozen=True)
class Members:
    """An entry with a membership."""

    membership: Membership


@dataclass(frozen=True)
class Entry:
    """What stands at one place of a list."""

    id: Id
    payload: object


NO_VOTE = Vote(0, 0, False)


def is_last_id_below(a: Optional[Id], b: Optional[Id]) -> bool:
    """Whether the first log id is below the second."""
    if b is None:
        return False
    return a is None or a < b


# ---- places


def place_of(log_id):
    """The place of a log id."""
    return None if log_id is None else log_id.place


def next_place(log_id):
    """The place after that of a log id, 0 where there is none."""
    return 0 if log_id is None else log_id.place + 1


def is_within(place, bound):
    """Whether the place is at or below the second one."""
    return bound is not None and place <= bound


def later_place(a, b):
    """The greater of two places."""
    if a is None or b is None:
        return b if a is None else a
    return max(a, b)


def lesser_place(a, b):
    """The lesser of two places, none where there is none."""
    return None if a is None or b is None else min(a, b)
