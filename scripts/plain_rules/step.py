"""What a step gives, and the words by which steps are put together."""

from plain_rules import stored as storing
from plain_rules.messages import Message
from plain_rules.values import Entry, Id, later_place


class Step:
    """A step of the node `own`: its state, the storing commands so far, and what it sent. Storing
    commands are functions of the stored part with what else they take."""

    def __init__(self, own, state):
        self.own = own
        self.state = state
        self.commands = []
        self.messages = []

    @property
    def stored(self):
        """What is stored after the commands so far."""
        return self.state.stored

    def store(self, command, *named):
        """The command is stored next."""
        self.state.stored = command(self.state.stored, *named)
        self.commands.append((command, named))

    def send(self, peer, body):
        """The message is sent next."""
        self.messages.append(Message(self.own, peer, body))

    def renew(self):
        """The vote counts as heard of at this moment."""
        self.state.renewed = self.state.now

    def store_vote(self, vote):
        """The vote is stored next."""
        self.store(storing.set_vote, vote)
        self.renew()

    def put_one(self, log_id, payload):
        """One entry is stored next."""
        self.store(storing.put_entries, log_id.place, (Entry(log_id, payload),))

    def append(self, payload):
        """An entry is stored at the next place, under the vote's leader."""
        self.put_one(Id(*self.stored.vote.leader, self.stored.end_place()), payload)

    def step_down(self):
        """A candidate or leader stops: its wish ends."""
        self.state.role = None
        self.state.wish = None

    def take_over_greater(self, vote):
        """A greater vote is taken over, and nothing else changes anything."""
        if self.stored.vote < vote:
            self.step_down()
            self.store_vote(vote)

    def take_over(self, vote):
        """A greater vote is taken over, and an equal one is renewed."""
        self.take_over_greater(vote)
        self.renew()

    def apply_up_to(self, place):
        """All up to the place is committed and applied."""
        self.state.committed = later_place(self.state.committed, place)
        self.state.applied = self.state.committed
