"""Which frame is which group's, and of which kind. An answer prints neither: the group is that of its line, but an
opening may send frames of several."""

from plain_rules.messages import CONFLICT, HigherVote, Reply
from plain_rules.scripts import Script
from plain_rules.text import kind_of

# What kinds of messages are called in the chart, by what the plain program calls them.
KINDS = {"ask": "vote request", "grant": "vote", "deny": "no vote", "reply": "answer"}

# So many groups are tried for the frames of openings before that is given up.
MOST_TRIED = 100_000


# ---- by the plain program


def kind_in_chart(body):
    """What a message is called."""
    if isinstance(body, Reply) and body.outcome == CONFLICT:
        return "conflict"
    if isinstance(body, Reply) and isinstance(body.outcome, HigherVote):
        return "higher vote"
    return KINDS.get(kind_of(body), kind_of(body))


def by_plain_rules(run):
    """Says of which group and kind each frame is by the plain program of the rules, which has to answer each line as
    was printed."""
    run.has_kinds = True
    script, counts = Script(), {}
    for at, row in enumerate(run.rows):
        if not row.words:
            continue
        said = plainly(script, row)
        if said != row.answer:
            shown = "nothing" if said is None else f"'{said[:80]}'"
            why = f"the answer is '{row.answer[:80]}', and by the plain rules {shown} (--numbers doesn't ask them)"
            raise run.wrong(at, why)
        new = []
        for group, it in sorted(script.groups.items()):
            messages = it.world.messages
            new += [(group, message.body) for message in messages[counts.get(group, 0) :]]
            counts[group] = len(messages)
        for frame, (group, body) in zip(row.sent, new):
            frame.group, frame.kind = group, kind_in_chart(body)


def plainly(script, row):
    """The plain program's answer to a row, if it has one."""
    try:
        return script.answer(row.text)
    except Exception:  # pylint: disable=broad-except
        # It was written for scripts that it is asked in the gate. What it can't run is no error of this script.
        return None


# ---- by the numbers alone


class Openings:
    """Tries groups for the frames of openings. Each group's frames are numbered from 0 in the order of sending, and an
    opening's come by rising group; so what comes later tells most often which group a frame is of."""

    def __init__(self, run):
        self.run = run
        self.steps = list(self.steps_of(run))
        # The last one of these is what the step before left: counts of frames, and the group and peers of this opening.
        self.states = [({}, -1, ())]
        self.choices, self.furthest, self.tried = [], 0, 0

    @staticmethod
    def steps_of(run):
        """The frames that are sent and named, in order, each with its row."""
        for at, row in enumerate(run.rows):
            if row.group is not None and row.verb != "deliver":
                yield at, "named", row.group
            if row.verb == "deliver":
                yield at, "comes", row
            if row.verb == "reopen":
                yield at, "opens", None
            for frame in row.sent:
                yield at, "sends", frame

    def behind(self, step):
        """The states that may be behind a step, the likeliest first, each with the group of its frame."""
        _, kind, what = step
        counts, last, peers = self.states[-1]
        if kind == "named":
            return [(({**counts, what: counts.get(what, 0)}, last, peers), None)]
        if kind == "opens":
            return [((counts, -1, ()), None)]
        if kind == "comes":
            group, number = what.frame
            is_there = number < counts.get(group, 0)
            return [] if is_there == what.is_refused("C4") else [(self.states[-1], None)]
        if what.group is not None:
            groups = [what.group] if counts.get(what.group, 0) == what.number else []
        else:
            groups = sorted(it for it, count in counts.items() if it >= last and count == what.number)
            # An opening sends each peer one frame of a group, as far as the rules go.
            groups.sort(key=lambda it: it == last and what.peer in peers)
        return [
            (({**counts, it: counts[it] + 1}, it, (peers if it == last else ()) + (what.peer,)), it) for it in groups
        ]

    def choose(self):
        """The group of each frame, by its step."""
        self.choices.append(iter(self.behind(self.steps[0])))
        found = []
        while self.choices:
            self.tried += 1
            state, group = next(self.choices[-1], (None, None))
            if self.tried > MOST_TRIED:
                break
            if state is None:
                self.choices.pop()
                if not found:
                    break
                self.states.pop()
                found.pop()
                continue
            self.states.append(state)
            found.append(group)
            if len(found) == len(self.steps):
                return found
            self.furthest = max(self.furthest, len(found))
            self.choices.append(iter(self.behind(self.steps[len(found)])))
        raise self.wrong()

    def wrong(self):
        """The error that no groups fit."""
        at, kind, what = self.steps[self.furthest]
        if self.tried > MOST_TRIED:
            return self.run.wrong(at, "which groups the frames of openings are of takes too long to find out")
        if kind == "comes":
            group, number = what.frame
            said = "was sent" if what.is_refused("C4") else "wasn't sent before"
            return self.run.wrong(at, f"frame #{number} of group {group} {said}: '{what.answer[:60]}'")
        said = self.run.rows[at].answer[:60]
        return self.run.wrong(at, f"#{what.number} isn't the next frame of its group: '{said}'")


def by_numbers(run):
    """Says of which group each frame is, as both texts allow it: where they allow several groups, one of these."""
    openings = Openings(run)
    if openings.steps:
        for (_, kind, what), group in zip(openings.steps, openings.choose()):
            if kind == "sends":
                what.group = group
