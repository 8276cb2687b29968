"""A group at a node that is up: what it has stored, and what a stop takes away."""

from dataclasses import dataclass, field, replace
from typing import Dict, Optional, Set

from plain_rules.stored import Stored
from plain_rules.values import Id, next_place


@dataclass(frozen=True)
class Outstanding:
    """The request that a leader waits for: its number, and the log ids before and at its end."""

    number: int
    previous: Optional[Id]
    last: Optional[Id]
    has_snapshot: bool


@dataclass(frozen=True)
class Peer:
    """What the peer has accepted, where the search for its log's end stands, the number of the next
    request, and the one that is outstanding."""

    id: int
    matched: Optional[Id]
    search: int
    next_number: int
    outstanding: Optional[Outstanding]

    def next(self):
        """The place after the one that the peer has accepted."""
        return next_place(self.matched)

    def needs_below(self, place):
        """Whether an append request is outstanding whose previous place is below this one, or
        none."""
        request = self.outstanding
        if request is None or request.has_snapshot:
            return False
        return next_place(request.previous) <= place

    def is_answered_by(self, reply):
        """Whether the reply repeats the number and both log ids of the outstanding request."""
        request = self.outstanding
        if request is None:
            return False
        wanted = (request.number, request.previous, request.last)
        return (reply.number, reply.previous, reply.last) == wanted

    def ended(self):
        """The peer without an outstanding request."""
        return replace(self, outstanding=None)


@dataclass
class Candidate:
    """A candidate has the ids of those that granted its vote."""

    granters: Set[int] = field(default_factory=set)


@dataclass
class Lead:
    """A lead: its next place when it began, and its peers by their ids."""

    began: int
    peers: Dict[int, Peer] = field(default_factory=dict)

    def peer_of(self, node):
        """What is known of the peer; of a new one nothing is."""
        return self.peers.get(node, Peer(node, None, self.began, 1, None))

    def is_kept_for_peers(self, place):
        """Whether some peer's outstanding request keeps the log from being purged up to the
        place."""
        return any(peer.needs_below(place) for peer in self.peers.values())


@dataclass
class State:
    """A group at a node that is up. A follower has no role. At an opening the stored part alone is
    left."""

    stored: Stored
    now: int = 0
    role: object = None
    committed: Optional[int] = None
    applied: Optional[int] = None
    renewed: Optional[int] = None
    wish: Optional[int] = None

    def lead(self):
        """The lead, where the node leads."""
        return self.role if isinstance(self.role, Lead) else None

    def is_leader(self):
        """Whether the node leads."""
        return isinstance(self.role, Lead)

    def is_candidate(self):
        """Whether the node stands for election."""
        return isinstance(self.role, Candidate)
