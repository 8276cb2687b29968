"""Tries a crate's edits in rounds.

In a round edits of different functions are made at once, in a copy of the crate, and one check of
just these functions has to say of each that it isn't proved, by a goal of its own. A function's
goals go by its own body and by the contracts of what it calls, and edits of other bodies leave
these as they are: so each edit is refused as it would be alone. An edit of a definition stands
beside others whose laws don't reach it (reach.py).
"""
import os
import re
import shutil
import subprocess
import tempfile
import threading
import time

from clock import Clock
from kit import rt, rtlib

GOAL = re.compile(r"note: src/\S+:\d+:\d+: it is not proved that ")
ERROR = re.compile(r"(?:\./)?(\S+?):(\d+):\d+: error: ")
# Errors that say no more than that a proof names what an edit took away.
NAMES = r"has no field|is not in scope|has no `|was not admitted|was rejected, was not checked"


class Ran:
    """A check that has ended, and what it said of each function."""

    def __init__(self, status, said, seconds):
        self.status, self.seconds = status, seconds
        self.lines = said.rstrip("\n").split("\n")
        # What is said of each function, and its goals that search left, which stand above that.
        self.functions, self.goals, goals = {}, {}, []
        for line in self.lines:
            found = re.match(r"fn (\S+): (.*)", line)
            if found:
                self.functions[found[1]], self.goals[found[1]] = found[2], goals
                goals = []
            elif GOAL.match(line):
                goals.append(line)
        # With this last line the check went over each function that it was asked for.
        self.has_ended = bool(re.match(r"only=\d+ proved=\d+\Z", self.lines[-1]))
        self.is_stale = bool(rtlib.STALE.search(said))

    def of(self, name):
        """Returns what the check says of the function and of the closures in its body, by name."""
        parts, found = name.split("::"), {}
        for it, said in self.functions.items():
            words = [word for word in it.split("::") if word != "fn"]
            if it == name or f"::fn::" in it and words[: len(parts)] == parts:
                found[it] = said
        return found

    def refuses(self, name, is_own):
        """Returns whether the function isn't proved by a goal of its own, and else why not. Of an
        error's file and line is_own says whether it can be of the function's own proof."""
        said = self.of(name)
        if name not in said:
            return False, "the check says nothing of it"
        whys = [self._why_not(*it, is_own) for it in said.items()]
        return None in whys, next((it for it in whys if it), "")

    def _why_not(self, name, said, is_own):
        """Returns None where the function isn't proved by a goal of its own, and else what is."""
        if said.startswith(("no proof", "not proved")):
            # (a goal that stands at no place of the source, as a type's invariant, is told at its end)
            if self.goals[name] or "`search` did not prove" in said:
                return None
            found = [(ERROR.match(it), it) for it in self.lines]
            errors = [it for at, it in found if at and is_own(name, at[1], int(at[2]))]
            if any(not re.search(NAMES, it) for it in errors):
                return None
            if errors:
                return f"only names are missed in its proof: {errors[0][:150]}"
        return f"{name} is {said[:150]}"

    def unread(self, texts):
        """Returns the first line that says that an edited text can't be read, or None."""
        told = [it for it in self.lines if rt.unread(it, texts)]
        if not told and not self.has_ended:
            told = [it for it in self.lines if re.search(r"\berror\b", it)]
            told = told or [f"the check ended early, with status {self.status}"]
        return told[0][:300] if told else None

    def was_killed(self):
        return self.status < 0 or self.status == 137

    def lost(self):
        """Returns the function that was asked for and that the check doesn't know, or None."""
        why = r"has no function `([^`]*)`|several functions are named `([^`]*)`"
        found = re.search(why, self.lines[-1])
        return found and (found[1] or found[2])


def check(crate, texts, only, as_source=False, seconds=None):
    """Checks these functions of a copy of the crate that has these texts in place of its own, for so
    many seconds at most. As source the libraries below needn't be built."""
    with tempfile.TemporaryDirectory(prefix="try-edits-") as room:
        for part in rtlib.PARTS:
            if os.path.isdir(f"{crate.folder}/{part}"):
                shutil.copytree(f"{crate.folder}/{part}", f"{room}/{part}")
        for path, text in texts.items():
            with open(f"{room}/{path}", "w", encoding="utf-8") as it:
                it.write(text)
        over = {"as_source": True} if as_source else {"keeps": False}
        words = [rtlib.RATTLE, "check", *crate.words(["--jobs", "1"], **over)]
        words += [it for name in only for it in ("--only", name)]
        with tempfile.TemporaryFile("w+", errors="replace") as said:
            how = {"stdin": subprocess.DEVNULL, "stdout": said, "stderr": subprocess.STDOUT}
            ran = subprocess.Popen([*rtlib.guarded(), *words], cwd=room, **how)
            ender = threading.Timer(seconds or threading.TIMEOUT_MAX, ran.kill)
            ender.daemon = True
            ender.start()
            _, status, used = os.wait4(ran.pid, 0)
            ender.cancel()
            ran.returncode = os.waitstatus_to_exitcode(status)
            said.seek(0)
            return Ran(ran.returncode, said.read(), used.ru_utime + used.ru_stime)


class Tries:
    """The edits of one crate, and what became of each."""

    def __init__(self, crate, edits, check=check, reach=None, clock=None):
        self.crate, self.edits, self._check, self.clock = crate, edits, check, clock or Clock()
        # Of an edit of definitions that can stand beside others: what its laws reach, what it turns.
        self.reaches = {}
        for it in edits if reach else ():
            reached, turned = reach.of(it), reach.touched(it)
            if not it.bodies and not it.fault and reached and turned:
                self.reaches[it] = reached, turned
        # Those that the clock left no time for are neither refused nor failed.
        self.refused, self.failed, self.left = [], {}, []
        self.seconds, self.checks = 0.0, 0
        self._counting = threading.Lock()

    def run(self):
        """Tries all edits, one round after the other."""
        for it in self.rounds():
            self.round(it)

    def rounds(self, later=()):
        """Returns the edits in as few rounds as their functions allow, which may be tried side by
        side, behind them those of the later ones. Those that can't be made are noted as failed."""
        for it in self.edits:
            if it.fault:
                self.failed[it] = f"can't be made: {it.fault}"
            elif not it.functions:
                self.failed[it] = "turns no body: name what must be refused by a line only:"
        found, later = [], {*later}
        for is_later in (False, True):
            left = [it for it in self.edits if it not in self.failed and (it in later) == is_later]
            while left:
                found.append(first_round(left, self.reaches))
                left = [it for it in left if it not in found[-1]]
        if self.crate:
            shutil.rmtree(f"{self.crate.folder}/out/edits", ignore_errors=True)
        return found

    def round(self, edits):
        """Tries these edits at once, where the clock lets a round begin."""
        if self.clock.is_past():
            self.left += edits
        else:
            self.part(edits)

    def part(self, edits):
        """Tries these edits at once, and in smaller parts where the check doesn't end."""
        if not self.clock.has_room(number_of(edits)):
            self.left += edits
            return
        ran, texts = self.checked(edits)
        if ran.was_killed() and self.clock.is_over():
            self.left += edits
        elif ran.is_stale:
            why = "was not tried: a library below isn't built as it stands"
            self.failed.update(dict.fromkeys(edits, why))
        elif ran.unread(texts):
            self.parts(edits, ran, texts)
        else:
            self.judge(edits, ran)

    def judge(self, edits, ran):
        """Notes which edits the check refused. The others are tried alone, if they weren't."""
        for it in edits:
            is_own = self.own(it, len(edits) == 1)
            said = [ran.refuses(name, is_own) for name in it.functions]
            refused = [well for well, _ in said]
            if any(refused) if it.takes_any else all(refused):
                self.refused.append(it)
            elif len(edits) > 1:
                self.part([it])
            else:
                whys = [why for well, why in said if not well][:3]
                self.failed[it] = f"is NOT REFUSED: {'; '.join(whys)}"

    def own(self, edit, is_alone):
        """Returns which errors can be of the edit: alone each in a proof, also in the lemmas that it
        cites, else those in what its laws reach, or in the function's own folder."""
        if is_alone:
            return lambda name, path, line: path.startswith("proofs/")
        if edit in self.reaches:
            reached = self.reaches[edit][0]
            here = lambda it, path, line: it.path == path and it.first <= line <= it.last
            return lambda name, path, line: any(here(it, path, line) for it in reached)
        folder = lambda name: "/".join(["proofs", *name.split("::")[1:], ""])
        return lambda name, path, line: path.startswith(folder(name))

    def parts(self, edits, ran, texts):
        """Goes on after a check that didn't end, or that couldn't read what was edited."""
        lost = [it for it in edits if ran.lost() in it.functions]
        why = f"names a function that isn't found: {ran.lines[-1][:300]}"
        self.failed.update(dict.fromkeys(lost, why))
        rest = [it for it in edits if it not in lost]
        if len(edits) == 1 and rest:
            self.failed[rest[0]] = self.why_not_tried(ran, texts)
            return
        half = 0 if lost else len(rest) // 2
        for some in filter(None, (rest[:half], rest[half:])):
            self.part(some)

    def why_not_tried(self, ran, texts):
        if ran.was_killed():
            return f"was not tried: its check was killed ({ran.status})"
        return f"doesn't read, so no contract was tried: {ran.unread(texts)}"

    def checked(self, edits):
        texts = {}
        for it in edits:
            texts, _ = it.made(texts)
        only = dict.fromkeys(name for it in edits for name in it.functions)
        began = time.monotonic()
        ran = self._check(self.crate, texts, only, seconds=self.clock.left())
        self.clock.took(number_of(edits), time.monotonic() - began)
        with self._counting:
            self.seconds, self.checks = self.seconds + ran.seconds, self.checks + 1
            number = self.checks
        self.keep(edits, ran, number)
        return ran, texts

    def keep(self, edits, ran, number):
        """Keeps what the check said, for whoever wants to know which goal refused an edit."""
        if self.crate:
            folder = f"{self.crate.folder}/out/edits"
            os.makedirs(folder, exist_ok=True)
            with open(f"{folder}/{number}.txt", "w", encoding="utf-8") as it:
                it.write("\n".join(["edits: " + " ".join(e.name for e in edits), *ran.lines, ""]))


def number_of(edits):
    """Returns how many functions a check of these edits goes over."""
    return len({name for it in edits for name in it.functions})


def first_round(edits, reaches):
    """Returns edits that can be tried at once: no two of them turn one function or name it, and
    each can be made beside the others. Of definitions no law may reach what another edit turns.
    One that turns something else is tried alone."""
    first = edits[0]
    if not first.bodies and first not in reaches:
        return edits[:1]
    now, texts = [], {}
    for it in edits:
        is_like = it.bodies if first.bodies else it in reaches
        made = it.made(texts)[0] if is_like and all(are_apart(it, x, reaches) for x in now) else None
        if made:
            texts = made
            now.append(it)
    return now


def are_apart(one, other, reaches):
    """Returns whether neither edit can change what is said of the other's functions."""
    if {*one.functions, *one.bodies} & {*other.functions, *other.bodies}:
        return False
    if one.bodies:
        return True
    (reached, turned), (others, other_turned) = reaches[one], reaches[other]
    return not reached & other_turned and not others & turned
