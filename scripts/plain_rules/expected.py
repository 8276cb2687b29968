"""The lines that the program of the engines reads, and what it is to print."""

from collections import Counter
from dataclasses import dataclass, field
from typing import List

from plain_rules import seen, worked
from plain_rules.answers import Answering
from plain_rules.choices import COURSES, Chooser
from plain_rules.hostile import Liar
from plain_rules.text import event_text

HEAD = """\
# Events of worlds, which scripts/expected_worlds writes. An event reads: verb, node (`deliver`:
# number of the message), moment, after how many storing commands it stops, and what is asked for.
# `receive` hands a node of a hostile world a message, which may be a lie.
# `list` asks for the group's list, and `show` for the text that the last answer has the checksum
# of.
"""

# A run that goes on after want of memory: node 1 sets the group up, leads, and takes four commands,
# about a crash of another node, a snapshot and a purge. Where it no longer leads, it is elected
# again, and requests that were lost are sent again.
PATIENT = """\
setup 1 0 - 1,2,3;1@node,2@node,3@node
next 0
lead 1 1000 -
next 1000
propose 1 1000 - 05
crash 3 0 -
propose 1 1000 - 06
snapshot 1 0 -
purge 1 0 - 9
restart 3 0 -
propose 1 1000 - 07
lead 1 2000 -
next 2000
propose 1 2000 - 08
"""

# The group's list is asked for after so many events.
EVENTS_TO_LIST = 100


@dataclass
class Expected:
    """Lines, their answers, and what goes otherwise than it should."""

    lines: List[str] = field(default_factory=lambda: [HEAD])
    answers: List[str] = field(default_factory=list)
    faults: List[str] = field(default_factory=list)
    answering: Answering = field(default_factory=Answering)

    def put(self, line):
        """One more line; its answer."""
        self.lines.append(line + "\n")
        self.answers.append(self.answering.answer(line))
        return self.answers[-1]

    def put_world(self, title, ids, kind="world"):
        """Another world."""
        self.put(f"# {title}")
        self.put(f"{kind} " + " ".join(map(str, ids)))

    def put_run(self, run):
        """A worked run, with all that is there in the end."""
        self.put_world("run " + " ".join(run.names), worked.IDS)
        for event, _ in run.rows:
            self.put(event_text(event))
        for line in ("show", "list", "show"):
            self.put(line)

    def put_hostile_run(self, run):
        """A worked run in which a peer lies, with all that is there after each event, and what came
        about in it."""
        self.put_world("hostile run " + " ".join(run.names), worked.IDS, "hostile")
        came = Counter()
        for event, _ in run.rows:
            came.update(self.put_lie(event))
            self.put("show")
        return came

    def put_event(self, event):
        """One more event; what became of it, and what it changed."""
        before = seen.state_of(self.answering.world, event)
        mark = self.put(event_text(event)).split(" ", 1)[1]
        after = seen.state_of(self.answering.world, event)
        return mark, seen.change_of(event, mark.split()[0], before, after)

    def put_lie(self, event):
        """One more event of a hostile world; what came about by it."""
        mark, changed = self.put_event(event)
        return seen.lie_of(event, mark.split()[0]) + changed

    def put_random(self, name, course, seed):
        """A random world, and what came about in it."""
        self.put_world(f"{name}, seed {seed}", course.ids)
        world = self.answering.world
        chooser = Chooser(course, seed, world)
        marks, came = [], Counter()
        for number in range(1, course.events + 1):
            mark, changed = self.put_event(chooser.choose())
            marks.append(mark)
            came.update(changed)
            if number % EVENTS_TO_LIST == 0 or number == course.events:
                self.put_list(f"{name}, seed {seed}, event {number}")
        self.put("show")
        return came + seen.count_world(marks, world, int(self.answers[-2].split()[1]))

    def put_hostile(self, name, course, seed):
        """A random world in which peers lie, and what came about in it."""
        self.put_world(f"hostile {name}, seed {seed}", course.ids, "hostile")
        liar = Liar(course, seed, self.answering.world)
        came = Counter()
        for _ in range(course.events):
            came.update(self.put_lie(liar.choose()))
        self.put("show")
        return came

    def put_list(self, title):
        """The group's list, which each node that is up has to have as far as it knows it to be
        committed."""
        self.put("list")
        for member in self.answering.world.members:
            committed = None if member.up is None else member.up.committed
            count = 0 if committed is None else committed + 1
            held = member.stored().held()[:count]
            if len(held) != count or held != self.answering.settled[:count]:
                self.faults.append(f"{title}: node {member.id} has something else than the list")


def patient_lines():
    """The lines of the run that goes on after want of memory. Messages are delivered in their turn,
    at most 30 of them, and after each command the list's last entry is asked for."""
    for line in PATIENT.splitlines():
        verb, number, *rest = line.split()
        if verb == "next":
            yield from [f"next 0 {number} -"] * 30
            continue
        yield line
        if verb == "propose":
            yield from ["lost 1 0 - 2", "lost 1 0 - 3"]
            yield from [f"next 0 {rest[0]} -"] * 30 + ["last"]


def expected():
    """The worked runs, the random worlds, honest and hostile ones, worked hostile ones, and a run
    that goes on after want of memory."""
    made = Expected()
    runs = worked.read_runs()
    made.faults += worked.all_faults(runs)
    for run in runs:
        if run.kind == "run":
            made.put_run(run)
    for name, course in COURSES.items():
        came = Counter()
        for seed in range(course.seed, course.seed + 5):
            came.update(made.put_random(name, course, seed))
        made.faults += seen.faults_of(name, came)
    lies = Counter()
    for name, course in COURSES.items():
        for seed in range(course.seed, course.seed + 5):
            lies.update(made.put_hostile(name, course, seed))
    for run in runs:
        if run.kind == "hostile":
            lies.update(made.put_hostile_run(run))
    made.faults += seen.lies_missed(lies)
    made.put("# want of memory")
    made.put("patient 1 2 3")
    for line in patient_lines():
        made.put(line)
    return made
