"""What a node keeps of a group, and the storing commands that change it."""

from dataclasses import dataclass, replace
from typing import Optional, Tuple

from plain_rules.values import NO_VOTE, Entry, Id, Members, Vote, next_place


def last_membership(before, entries):
    """The last membership of a list with the log id of its entry, or else the one before it."""
    last = before
    for entry in entries:
        if isinstance(entry.payload, Members):
            last = (entry.id, entry.payload.membership)
    return last


@dataclass(frozen=True)
class Snapshot:
    """The list up to and with the entry of a log id, and the last membership in it with its log
    id."""

    last: Id
    membership: Optional[tuple]
    prefix: Tuple[Entry, ...]


@dataclass(frozen=True)
class Stored:
    """The stored part of a group. The log is what lies above the purge point."""

    present: bool
    vote: Vote = NO_VOTE
    snapshot: Optional[Snapshot] = None
    purged: Optional[Id] = None
    log: Tuple[Entry, ...] = ()

    def first_place(self):
        """The place of the log's first entry."""
        return next_place(self.purged)

    def end_place(self):
        """The place after the log's last entry."""
        return self.first_place() + len(self.log)

    def entry_at(self, place):
        """The entry in the log at a place."""
        if self.first_place() <= place < self.end_place():
            return self.log[place - self.first_place()]
        return None

    def entry_id_at(self, place):
        """The log id of the entry in the log at a place."""
        entry = self.entry_at(place)
        return None if entry is None else entry.id

    def id_at(self, place):
        """The log id at a place in the log, or at the purge point."""
        return self.purged if place + 1 == self.first_place() else self.entry_id_at(place)

    def id_before(self, place):
        """The log id before a place."""
        return None if place == 0 else self.id_at(place - 1)

    def last_id(self):
        """The last log id of the log: that of the purge point where the log is empty."""
        return self.id_before(self.end_place())

    def has_id_in_log(self, log_id):
        """Whether the log has the entry of this log id."""
        return self.entry_id_at(log_id.place) == log_id

    def snapshot_last(self):
        """The last log id of the snapshot."""
        return None if self.snapshot is None else self.snapshot.last

    def held(self):
        """The list that the node has: the snapshot's, then what the log has above it."""
        prefix = () if self.snapshot is None else self.snapshot.prefix
        return prefix + self.log[max(0, len(prefix) - self.first_place()) :]

    def membership_in_force(self):
        """The membership in force with its log id: the log's last one, or else the snapshot's."""
        before = None if self.snapshot is None else self.snapshot.membership
        return last_membership(before, self.log)

    def groups_in_force(self):
        """The voter groups in force."""
        membership = self.membership_in_force()
        return () if membership is None else membership[1].groups

    def log_below(self, place):
        """The log below a place."""
        return self.log[: max(0, place - self.first_place())]

    def log_above(self, place):
        """The log above a place."""
        return self.log[max(0, place + 1 - self.first_place()) :]


# ---- storing commands, each kept whole or not at all: what is stored after it


def make_group(stored):
    """The group is there."""
    return replace(stored, present=True)


def set_vote(stored, vote):
    """The vote is this one."""
    return replace(stored, vote=vote)


def put_entries(stored, place, entries):
    """Entries stand from a place on."""
    return replace(stored, log=stored.log_below(place) + tuple(entries))


def cut_from(stored, place):
    """The log ends before the place."""
    return replace(stored, log=stored.log_below(place))


def remove_up_to(stored, log_id):
    """The log begins after the log id."""
    return replace(stored, log=stored.log_above(log_id.place), purged=log_id)


def set_snapshot(stored, snapshot):
    """The snapshot is this one."""
    return replace(stored, snapshot=snapshot)


def start_after(stored, log_id):
    """What an opening does with a log that doesn't belong to the snapshot."""
    return replace(stored, log=(), purged=log_id)
