"""The plain program as a filter: it reads lines of events, and prints what each left, as the
program of the engines does."""

from dataclasses import replace

from plain_rules.settled import list_of
from plain_rules.text import entries_text, kind_of, payload_text, read_event, sum_text, world_text
from plain_rules.world import World


class Answering:
    """A world that answers lines. It keeps the text of its last answer, of which the answer has the
    checksum alone."""

    def __init__(self):
        self.begin(())

    def begin(self, ids, kind="world"):
        """Another world of these nodes, which have the group. Events of a patient one have no
        answer, and to nodes of a hostile one any message may come."""
        self.world = World.new(ids, True)
        self.world.is_hostile = kind == "hostile"
        self.is_patient = kind == "patient"
        self.number = 0
        self.next = 0
        self.settled = ()
        self.text = world_text(self.world, 0)

    def happen(self, event):
        """The number of the event, what became of it, the kinds of the messages that were sent with
        their addressees, and the checksum of these messages and of all nodes."""
        self.number += 1
        sent_before = len(self.world.messages)
        mark = self.world.happen(event)
        self.text = world_text(self.world, sent_before)
        messages = self.world.messages[sent_before:]
        sent = "".join(f" {kind_of(it.body)}>{it.addressee}" for it in messages)
        return "" if self.is_patient else f"{self.number} {mark}{sent} {sum_text(self.text)}\n"

    def deliver(self, event):
        """The next message is delivered, if there is one."""
        end = len(self.world.messages)
        answer = self.happen(replace(event, verb="deliver", target=self.next))
        self.next = min(self.next + 1, end)
        return answer

    def lead(self, event):
        """A node stands for election, unless it leads."""
        if event.target in self.world.leaders():
            return ""
        return self.happen(replace(event, verb="elect"))

    def list(self):
        """How many entries the list of the group has, and their checksum."""
        self.settled = list_of(self.world)
        self.text = entries_text(self.settled) + "\n"
        return f"list {len(self.settled)} {sum_text(self.text)}\n"

    def last(self):
        """What the last entry of the group's list asks for."""
        entries = list_of(self.world)
        return f"last {payload_text(entries[-1].payload) if entries else '-'}\n"

    def answer(self, line):
        """The answer to a line, with its newline: an empty line and a comment have none."""
        words = line.split()
        if not words or words[0] == "#":
            return ""
        if words[0] in ("world", "patient", "hostile"):
            self.begin(tuple(map(int, words[1:])), words[0])
            return " ".join(words) + "\n"
        asked = {"show": lambda: self.text, "list": self.list, "last": self.last}
        if words[0] in asked:
            return asked[words[0]]()
        comes = {"next": self.deliver, "lead": self.lead}
        return comes.get(words[0], self.happen)(read_event(line))


def answers_to(lines):
    """The answers to the lines."""
    answering = Answering()
    return "".join(map(answering.answer, lines))
