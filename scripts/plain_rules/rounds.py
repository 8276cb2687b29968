"""Random rounds: lines of a random script that come to their nodes at once, and what they are answered. A
round has at most one event for a node, and delivers frames that were sent before it."""

from plain_rules.random_scripts import Chooser
from plain_rules.scripts import Script
from plain_rules.settled import list_of

REFUSED = "C8 SameNode"
# The groups whose lists are counted.
LISTED = (7, 8, 9)
# In a thousand rounds so many are followed by one that is refused.
REFUSALS = 30
MOST_EVENTS = 3


class Rounds:
    """The rounds of a script so far, each a line with its answer."""

    def __init__(self, nodes):
        self.script = Script()
        self.script.answer(f"nodes {nodes}")
        self.entries = 0
        self.rounds = []
        self.begin()

    def begin(self):
        """The next round has no events."""
        self.events, self.answers, self.nodes = [], [], set()
        self.sent = {number: len(group.world.messages) for number, group in self.script.groups.items()}

    def node_of(self, line):
        """The node that an event is for; None where it delivers a frame that wasn't sent before the
        round."""
        verb, first, *words = line.split(" ")
        if verb != "deliver":
            return int(first)
        group, number = int(first), int(words[0])
        if number >= self.sent.get(group, 0):
            return None
        return self.script.groups[group].world.messages[number].addressee

    def counted(self):
        """How many entries the lists have, where that is another number than before."""
        there = [self.script.groups[it].world for it in LISTED if it in self.script.groups]
        entries = sum(len(list_of(world)) for world in there)
        is_other, self.entries = entries != self.entries, entries
        return f", {entries} entries" if is_other else ""

    def end(self):
        """The round is over, if it has begun."""
        if self.events:
            self.rounds.append(("; ".join(self.events), "; ".join(self.answers) + self.counted()))
        self.begin()

    def refuse(self, line):
        """A round that is refused."""
        self.end()
        self.rounds.append((line, REFUSED))

    def set_now(self, line):
        """A round without an event, behind which it is another moment."""
        self.end()
        self.script.answer(line)
        self.rounds.append((line, ""))

    def take(self, line):
        """An event, in this round or the next one."""
        node = self.node_of(line)
        if node is None or node in self.nodes or len(self.events) == MOST_EVENTS:
            self.end()
            node = self.node_of(line)
        if node is None:
            self.refuse(line)
        else:
            self.nodes.add(node)
            self.events.append(line)
            self.answers.append(self.script.answer(line))


def random_rounds(seed, nodes, groups, count):
    """So many random rounds, each with its answer."""
    chooser, rounds = Chooser(seed, nodes, groups), Rounds(nodes)
    while len(rounds.rounds) < count:
        for line in chooser.choose():
            verb = line.split(" ")[0]
            if verb == "now":
                rounds.set_now(line)
            elif verb not in ("nodes", "total", "fuse"):
                rounds.take(line)
        if chooser.cleaning.is_met(REFUSALS):
            rounds.refuse("elect 1 7; heartbeat 1 7")
    return rounds.rounds[:count]
