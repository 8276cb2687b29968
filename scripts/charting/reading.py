"""What a script and its answers say: each line with its answer, and each frame with the lines at which it came."""

import importlib.machinery
import importlib.util
import re
from dataclasses import dataclass, field
from pathlib import Path
from typing import List, Optional, Tuple

TOP = Path(__file__).resolve().parent.parent.parent

# At most so many lines are drawn.
MOST_LINES = 500

NUMBER = "(?:0|[1-9][0-9]{0,19})"
FORMS = {
    "ok": (
        rf"ok(?: >{NUMBER}#{NUMBER})*(?: told {NUMBER}@{NUMBER}=[^ ]+| full {NUMBER}@{NUMBER})*"
        rf"(?: unknown {NUMBER})*(?: compact {NUMBER})*"
    ),
    "refused": rf"refused (?P<why>C?{NUMBER} [A-Za-z]+)(?P<leader> {NUMBER}| -)?(?: unknown {NUMBER})*",
    "stopped": "stopped",
    "total": rf"total {NUMBER} at (?:{NUMBER}|-)",
    "none": "none",
}
# The names of refusals, as docs/SCRIPT.md and the page of raft_node have them.
REFUSALS = (
    "1 NotLeader,2 UnknownGroup,3 GroupExists,4 NotAllowed,5 NotVoter,6 Membership,7 VoterChange,8 InProgress,"
    "9 CommandTooLong,10 NumberAtEnd,11 Failed,12 WrongParty,13 TooMuchForBatch,14 BreaksCondition,15 Frame,"
    "16 Stopped,C1 NoNode,C2 NodeDown,C3 NodeUp,C4 NoFrame,C5 SetupDiffers,C6 ByChance,C7 NotAnImage,C9 BadCut"
).split(",")
# Each of these lines has a token, whatever it is answered.
WITH_TOKEN = ("propose", "put", "get", "drop", "addr", "voters")
BEGINNINGS = ("nodes", "kv")
# What nodes of each machine don't take.
NOT_TAKEN = {"nodes": ("put", "get", "drop"), "kv": ("propose", "total")}


class Unreadable(Exception):
    """A text can't be read, and why, in characters that can be shown."""

    def __init__(self, why):
        super().__init__("".join(it if it.isprintable() else "\ufffd" for it in why))


@dataclass
class Frame:
    """A frame, the rows that sent it and to which it came, and its kind where that is known."""

    sender: int
    peer: int
    number: int
    sent: int
    group: Optional[int] = None
    kind: str = ""
    comes: List[int] = field(default_factory=list)

    @property
    def way(self):
        """1 for a frame to the right, and -1 for one to the left."""
        return 1 if self.peer > self.sender else -1


@dataclass
class Row:
    """A line of the script, its words without a fuse, and its answer; where it happened, and what it left."""

    text: str
    words: Tuple[str, ...] = ()
    fuse: Optional[int] = None
    answer: Optional[str] = None
    token: Optional[int] = None
    node: Optional[int] = None
    group: Optional[int] = None
    sent: List[Frame] = field(default_factory=list)
    down: frozenset = frozenset()

    @property
    def verb(self):
        """The first word of the event; of a comment there is none."""
        return self.words[0] if self.words else ""

    @property
    def is_comment(self):
        """Whether the line is skipped."""
        return self.answer is None

    def is_refused(self, *names):
        """Whether it is refused, by one of these names."""
        return self.answer is not None and self.answer.startswith(tuple(f"refused {it}" for it in names or ("",)))

    @property
    def frame(self):
        """The group and the number of the frame that the line names."""
        return int(self.words[1]), int(self.words[2])

    @property
    def has_come(self):
        """Whether the row's frame came to a node."""
        return self.verb == "deliver" and not self.is_refused("C")


def table_of_lines():
    """The table of lines in scripts/script_line_rows."""
    path = str(TOP / "scripts" / "script_line_rows")
    loader = importlib.machinery.SourceFileLoader("script_line_rows", path)
    module = importlib.util.module_from_spec(importlib.util.spec_from_loader(loader.name, loader))
    loader.exec_module(module)
    return module


def lines_of(data):
    """The lines of a text: each ends at a newline or at the end of the text."""
    lines = data.split(b"\n")
    return lines if lines[-1] else lines[:-1]


class Run:
    """A script's rows with their answers, as far as they are drawn, and how many there are; its nodes, and all frames,
    by group and number, and whether their kinds are known. Where a line was no event, `end` says so."""

    def __init__(self, names):
        self.names = names
        self.count = 0
        self.has_kinds = False
        self.rows: List[Row] = []
        self.nodes: Tuple[int, ...] = ()
        self.frames = {}
        self.end: Optional[str] = None

    def wrong(self, at, why):
        """The error that a row's answer, or what it would say, can't be so."""
        return Unreadable(f"{self.names[0]}, line {at + 1}: {why}")

    def connect(self):
        """Says to which rows each frame came, and where these happened, once it is known which frame is which
        group's; then who is down behind each row."""
        down = set()
        for at, row in enumerate(self.rows):
            if row.verb == "deliver":
                self.come(at, row)
            is_there, is_none = row.node in self.nodes, row.is_refused("C1")
            if row.node is not None and is_there == is_none and (is_there or row.answer != "none"):
                raise self.wrong(at, f"there is {'a' if is_there else 'no'} node {row.node}: '{row.answer[:60]}'")
            for frame in row.sent:
                frame.sender = row.node
                self.frames[frame.group, frame.number] = frame
                if frame.peer == row.node:
                    raise self.wrong(at, f"node {row.node} sends a frame to itself")
            if row.answer == "stopped" or row.verb == "crash" and row.answer.startswith("ok"):
                down.add(row.node)
            elif row.verb == "reopen" and row.answer.startswith("ok"):
                down.discard(row.node)
            row.down = frozenset(down)

    def come(self, at, row):
        """A row's frame comes, or is refused."""
        frame = self.frames.get(row.frame)
        group, number = row.frame
        if (frame is None) != row.is_refused("C4"):
            said = "wasn't sent before" if frame is None else "was sent"
            raise self.wrong(at, f"frame #{number} of group {group} {said}, and the answer is '{row.answer[:60]}'")
        if frame is not None:
            row.node = frame.peer
            if row.has_come:
                frame.comes.append(at)


class Reader:
    """Reads a script and its answers, line by line."""

    def __init__(self, script, answers, names):
        self.run, self.lines, self.answers = Run(names), lines_of(script), lines_of(answers)
        self.table = table_of_lines()
        self.next, self.tokens, self.machine = 0, 0, None

    def read(self):
        """The run."""
        for at, line in enumerate(self.lines):
            why = self.why_none(line)
            row = Row(line[:2000].decode("utf-8", "replace"))
            self.run.rows.append(row)
            if why is not None:
                self.end(at, row, why)
                break
            row.text = line.decode("utf-8")
            if row.text and row.text[0] != "#":
                self.event(at, row)
        if self.next < len(self.answers):
            raise Unreadable(f"{self.run.names[1]}, line {self.next + 1}: {self.run.names[0]} has no line for it")
        return self.run

    def why_none(self, line):
        """Why the line is no event, if it is none."""
        said = self.table.read(line)
        if said == "skipped":
            return None
        if said.startswith("no event"):
            return said.split(": ")[1]
        words = line.decode("utf-8").split(" ")
        if (words[0] in BEGINNINGS) == (self.machine is not None):
            return "nodes or kv comes once, first"
        verb = words[2] if words[0] == "fuse" else words[0]
        return f"these nodes take no {verb}" if verb in NOT_TAKEN.get(self.machine, ()) else None

    def end(self, at, row, why):
        """A line is no event: so the last answer has to say."""
        said = self.answers[self.next] if self.next < len(self.answers) else b""
        if said != b"line %d" % (at + 1):
            raise self.run.wrong(at, f"no event ({why}), and its answer isn't 'line {at + 1}'")
        self.next += 1
        row.answer = said.decode()
        self.run.end = f"line {at + 1}: no event ({why}), and the run ends there"

    def event(self, at, row):
        """A row's event, with its answer."""
        row.words = tuple(row.text.split(" "))
        if row.verb == "fuse":
            row.fuse, row.words = int(row.words[1]), row.words[2:]
        if row.verb in BEGINNINGS:
            self.machine, self.run.nodes = row.verb, tuple(range(1, int(row.words[1]) + 1))
        elif row.verb == "deliver":
            row.group = int(row.words[1])
        elif row.verb != "now":
            row.node = int(row.words[1])
            row.group = None if row.verb in ("clean", "crash", "reopen") else int(row.words[2])
        if row.verb in WITH_TOKEN:
            self.tokens += 1
            row.token = self.tokens
        row.answer = self.answer(at, row)
        for peer, number in re.findall(" >([0-9]+)#([0-9]+)", row.answer.split(" told ")[0]):
            row.sent.append(Frame(0, int(peer), int(number), at, row.group))

    def answer(self, at, row):
        """The row's answer, if it can be read."""
        if self.next == len(self.answers):
            raise self.run.wrong(at, f"it has no answer: {self.run.names[1]} ends before it")
        said = self.answers[self.next].decode("utf-8", "replace")
        why = self.why_unreadable(row, said)
        if said.encode("utf-8") != self.answers[self.next]:
            why = "not UTF-8"
        self.next += 1
        if why is not None:
            asked = f"(line {at + 1} of {self.run.names[0]} is '{row.text[:40]}')"
            raise Unreadable(f"{self.run.names[1]}, line {self.next}: {why}: '{said[:60]}' {asked}")
        return said

    def why_unreadable(self, row, said):
        """Why this is no answer of the row, if it isn't one."""
        if said == f"line {len(self.run.rows)}":
            return "the line is an event"
        form = said.split(" ")[0]
        found = re.fullmatch(FORMS[form], said) if form in FORMS else None
        if found is None:
            return "no answer has this form"
        if form == "refused":
            is_led = found["leader"] is not None
            if found["why"] not in REFUSALS or is_led != (found["why"] == "1 NotLeader"):
                return "there is no such refusal"
        if not self.may_be(row, form, said):
            return "no such line is answered so"
        tokens = re.findall(r" (?:told|full|unknown) ([0-9]+)", said)
        late = [it for it in tokens if not 1 <= int(it) <= self.tokens]
        return f"token {late[0]} isn't given yet" if late else None

    @staticmethod
    def may_be(row, form, said):
        """Whether such a line is answered in this form."""
        if row.verb in (*BEGINNINGS, "now"):
            return said == "ok"
        if (row.verb == "total") != (form in ("total", "none")):
            return False
        if form == "ok" and " compact " in said and row.verb != "clean":
            return False
        return form != "stopped" or row.fuse is not None


def read_run(script, answers, names):
    """The run that a script and its answers tell."""
    run = Reader(script, answers, names).read()
    if not run.nodes and run.end is None:
        raise Unreadable(f"{names[0]}, line {len(run.rows) + 1}: it ends before a line nodes or kv")
    run.count = len(run.rows)
    del run.rows[MOST_LINES:]
    return run
