"""What happens next in a hostile world: now and then a peer sends what no node sends."""

from dataclasses import replace

from plain_rules.choices import Chooser
from plain_rules.membership import Membership
from plain_rules.messages import CONFLICT, SUCCESS, Append, HigherVote, Message, Offer
from plain_rules.messages import PartialSuccess, Reply, VoteReply, VoteRequest
from plain_rules.refusal import NUMBER_LIMIT
from plain_rules.stored import Snapshot
from plain_rules.values import Blank, Command, Entry, Id, Members, Vote

# A lie is told of one of the last messages so far back.
FAR_BACK = 24


class Liar(Chooser):
    """The choice of events for a hostile world. A lie is a message that was sent, otherwise in one
    part or two."""

    # ---- other numbers, votes and log ids

    def other_number(self, number):
        """A number near this one, and seldom one at the limit."""
        if self.chance.is_met(1):
            return NUMBER_LIMIT - 1 + self.chance.below(3)
        return max(0, number + self.chance.below(5) - 2)

    def other_vote(self, vote):
        """A vote near this one."""
        roll = self.chance.below(3)
        if roll == 0:
            return vote._replace(term=self.other_number(vote.term))
        if roll == 1:
            return vote._replace(node=self.any_node())
        return vote._replace(granted=not vote.granted)

    def other_id(self, log_id):
        """A log id near this one, or none."""
        if log_id is None or self.chance.is_met(100):
            return None if self.chance.is_met(500) else Id(1, self.any_node(), self.chance.below(6))
        roll = self.chance.below(4)
        if roll == 0:
            return log_id._replace(term=self.other_number(log_id.term))
        if roll == 1:
            return log_id._replace(node=self.any_node())
        return log_id._replace(place=self.other_number(log_id.place))

    # ---- other entries and memberships

    def other_membership(self):
        """A membership with the first voters most often, and with other nodes."""
        groups = self.course.groups
        if self.chance.is_met(100):
            groups = groups[:1]
        nodes = tuple((node, self.address()) for node in self.course.ids if node < 9)
        return Membership(groups, nodes[: len(nodes) - self.chance.below(2)])

    def other_payload(self):
        """What an entry may ask for."""
        roll = self.chance.below(3)
        if roll == 0:
            return Blank()
        return Command(b"\xee") if roll == 1 else Members(self.other_membership())

    def other_entry(self, entry):
        """An entry that asks for something else, or has another log id."""
        if self.chance.is_met(500):
            return replace(entry, payload=self.other_payload())
        return replace(entry, id=self.other_id(entry.id) or entry.id)

    def other_entries(self, previous, entries):
        """Entries of which one is left out, otherwise, or too many."""
        if not entries or self.chance.is_met(300):
            last = entries[-1].id if entries else previous
            following = Id(1, 1, 0) if last is None else last._replace(place=last.place + 1)
            return entries + (Entry(following, self.other_payload()),)
        at = self.chance.below(len(entries))
        if self.chance.is_met(300):
            return entries[:at] + entries[at + 1 :]
        return entries[:at] + (self.other_entry(entries[at]),) + entries[at + 1 :]

    def other_snapshot(self, snapshot):
        """A snapshot whose last membership, last log id or entries are others."""
        roll = self.chance.below(4)
        if roll == 0:
            return replace(snapshot, last=self.other_id(snapshot.last) or snapshot.last)
        if roll == 1:
            return replace(snapshot, prefix=snapshot.prefix[: self.chance.below(5)])
        if roll == 2 and self.chance.is_met(200):
            return replace(snapshot, membership=None)
        log_id = Id(1, 1, 0) if snapshot.membership is None else snapshot.membership[0]
        return replace(snapshot, membership=(log_id, self.other_membership()))

    # ---- other messages

    def other_outcome(self, body):
        """Another answer to the request."""
        roll = self.chance.below(6)
        if roll == 0:
            return CONFLICT
        if roll == 1:
            return HigherVote(self.other_vote(body.vote))
        if roll == 2:
            return SUCCESS
        return PartialSuccess(self.other_id(body.last))

    def other_reply(self, body):
        """A reply of which one part is otherwise."""
        roll = self.chance.below(8)
        if roll == 0:
            return replace(body, number=None if body.number is None else body.number + 1)
        if roll == 1:
            return replace(body, previous=self.other_id(body.previous))
        if roll == 2:
            return replace(body, last=self.other_id(body.last))
        return replace(body, outcome=self.other_outcome(body))

    def other_append(self, body):
        """A request of which one part is otherwise."""
        roll = self.chance.below(4)
        if roll == 0:
            return replace(body, previous=self.other_id(body.previous))
        if roll == 1:
            return replace(body, committed=self.other_id(body.committed))
        return replace(body, entries=self.other_entries(body.previous, body.entries))

    def other_body(self, body):
        """What a message says, otherwise in one part."""
        if self.chance.is_met(80):
            return replace(body, vote=self.other_vote(body.vote))
        if isinstance(body, Append):
            return self.other_append(body)
        if isinstance(body, Offer):
            return replace(body, snapshot=self.other_snapshot(body.snapshot))
        if isinstance(body, Reply):
            return self.other_reply(body)
        if isinstance(body, VoteReply) and self.chance.is_met(500):
            return replace(body, granted=not body.granted)
        return replace(body, last=self.other_id(body.last))

    def offer_of(self, node):
        """A snapshot of a node that leads, though nobody asked for it."""
        stored = self.world.member(node).stored()
        last = self.other_id(stored.last_id()) or Id(1, 1, 3)
        prefix = stored.held()[: self.chance.below(4)]
        snapshot = Snapshot(last, (Id(1, 1, 0), self.other_membership()), prefix)
        return Offer(stored.vote, self.chance.below(5), snapshot)

    def invented(self):
        """A message that nobody sent."""
        sender = self.leader()
        addressee = self.any_node()
        if self.chance.is_met(500):
            return Message(sender, addressee, self.offer_of(sender))
        vote = self.other_vote(self.world.member(sender).stored().vote)
        asks = VoteRequest(vote._replace(granted=False, node=sender), Id(vote.term, sender, 9))
        return Message(sender, addressee, asks)

    def lie(self):
        """A message that was sent, otherwise, or one that nobody sent."""
        count = len(self.world.messages)
        if count == 0 or self.chance.is_met(60):
            return self.invented()
        message = self.world.messages[max(0, count - 1 - self.chance.below(FAR_BACK))]
        body = self.other_body(message.body)
        if self.chance.is_met(200):
            body = self.other_body(body)
        if self.chance.is_met(20):
            return Message(self.any_node(), self.any_node(), body)
        return replace(message, body=body)

    # ---- the next event

    def receive(self):
        """A lie comes."""
        message = self.lie()
        return self.ask("receive", message.addressee, message)

    def event_of(self, kind):
        """An event of this kind, or a lie in its place."""
        return self.receive() if self.chance.is_met(200) else super().event_of(kind)
