"""Core minutes of each crate, from what runs of the gate wrote or from the table of docs/GATE.md,
and one run beside another."""
import hashlib
import os
import re
import statistics
import subprocess

TOP = os.path.dirname(os.path.dirname(os.path.dirname(os.path.realpath(__file__))))
TASKS = ("proof", "tests", "edits", "batches")
# Those of rt ci: the prover's time for proofs, tests and must-fail edits.
OF_CI = TASKS[:3]
HEAD = re.compile(
    r"core minutes of (.*), (\S+): (\d+) minutes by the clock, (\d+) processors(?:, at (\w+)\+?)?\Z"
)
ROW = re.compile(r"(\S.{23})((?: +\d+\.\d\d){1,3})\Z")
TRIED = re.compile(r"(\w+): \d+ of \d+ edits refused, (\d+) checks, ([\d.]+) core minutes\b")
NOT_PROVED = re.compile(r"rt: (\w+) NOT PROVED\b")
WRITTEN = re.compile(r"`(.*)` of (\S+) took (\d+) minutes on (\d+) processors")
# Rows of the page's table that are no crate.
REST, SELF_TEST, ALL = "formats, links, runs", "scripts/try_edits' test of itself", "all"
# A crate rose by more than this share, and by more than these minutes. Shorter ones don't tell how
# fast a machine is.
SHARE, LEAST, JUDGED = 1.1, 0.2, 0.5


class Run:
    """Core minutes by crate and task, numbers of functions, and of which command and commit."""

    def __init__(self):
        self.minutes, self.functions, self.checks = {}, {}, {}
        self.heads, self.rest, self.self_test, self.commit = [], 0.0, 0.0, None

    def note(self, crate, task, number):
        # (a crate that is kept from an earlier run took no time, and that is no figure)
        if number:
            self.minutes.setdefault(crate, {})[task] = number

    def proved(self):
        """Returns the minutes of each crate's proof, of those that have a figure."""
        return {name: its["proof"] for name, its in self.minutes.items() if "proof" in its}

    def of(self, crate):
        """Returns what rt ci took for the crate."""
        return sum(self.minutes[crate].get(task, 0) for task in OF_CI)

    def sum(self, crates=None):
        """Returns what rt ci took for these crates, or for all and the rest."""
        if crates is not None:
            return sum(map(self.of, crates))
        return sum(map(self.of, self.minutes)) + self.rest

    def take(self, other):
        """Takes the figures of another run too. Where both have one, the other's counts."""
        for name, its in other.minutes.items():
            for task, number in its.items():
                self.note(name, task, number)
        self.functions.update(other.functions)
        self.checks.update(other.checks)
        self.heads += [it for it in other.heads if it not in self.heads]
        # (each run starts programs and checks formats anew: the longest stands for a whole one)
        self.rest = max(other.rest, self.rest)
        self.self_test = other.self_test or self.self_test
        self.commit = other.commit or self.commit

    def named(self):
        """Returns the commands with their days."""
        return ", ".join(f"`{command}` of {day}" for command, day, _, _ in self.heads)


def of_output(text):
    """Returns what an output of .ci/run, scripts/with_times or scripts/try_edits tells."""
    run, section, is_table, failed = Run(), "", False, set()
    for line in text.split("\n"):
        head, row, tried = HEAD.match(line), ROW.match(line), TRIED.match(line)
        functions = re.match(r"logic=proved functions=(\d+)", line)
        if line.startswith("== "):
            section = line[3:]
        if functions and section:
            run.functions[section] = int(functions[1])
        if tried:
            run.note(tried[1], "batches", float(tried[3]))
            run.checks[tried[1]] = int(tried[2])
        if line.startswith("self-test: ") and line.endswith(" core minutes"):
            run.self_test = float(line.split()[1])
        if head:
            run.heads.append(head.groups()[:4])
            run.commit = head[5] or run.commit
        failed |= set(NOT_PROVED.findall(line))
        is_table = bool(head) or is_table and (bool(row) or line.startswith("crate "))
        if is_table and row:
            _note_row(run, row[1].strip(), [float(it) for it in row[2].split()])
    # (what was cut off has no whole figure)
    for name in failed & {*run.minutes}:
        del run.minutes[name]
    return run


def _note_row(run, name, numbers):
    if name == "the rest":
        run.rest = numbers[0]
    elif name != "all":
        for task, number in zip(TASKS, numbers):
            run.note(name, task, number)


def of_page(text):
    """Returns what the first table of docs/GATE.md tells."""
    run = Run()
    run.heads = WRITTEN.findall(text)
    rows = re.search(r"(?m)^\| Crate \| proof .*\n((?:\|.*\n)*)", text)
    for row in rows[1].splitlines() if rows else []:
        name, *cells = [it.strip() for it in row.strip("|").split("|")]
        numbers = [float(it.replace(",", "") or 0) for it in cells if not it.startswith("-")]
        if name == REST:
            run.rest = numbers[-1]
        elif name == SELF_TEST:
            run.self_test = numbers[-1]
        elif name != ALL and numbers:
            for task, number in zip(TASKS, numbers):
                run.note(name, task, number)
    return run


def read(file):
    """Returns the figures of a file, or of several with commas between them, each giving what those
    before lack. Behind an @ stands the commit that they are of, where the file doesn't tell it."""
    files, _, commit = file.partition("@")
    run = Run()
    for it in files.split(","):
        with open(it, encoding="utf-8", errors="replace") as opened:
            text = opened.read()
        run.take(of_page(text) if it.endswith(".md") else of_output(text))
        if it.endswith(".md") and not commit:
            run.commit = _writer_of(text) or run.commit
    run.commit = commit or run.commit
    return run


def _git(*words):
    ran = subprocess.run(["git", "-C", TOP, *words], capture_output=True, text=True, check=False)
    return ran.stdout if ran.returncode == 0 else ""


def _writer_of(text):
    """Returns the commit that brought the page's figures."""
    found = WRITTEN.search(text)
    return found and _git("log", "-1", "--format=%h", f"-S{found[0]}", "--", "docs/GATE.md").strip()


def crates_of(text):
    """Returns the crates that each crate of a crates.txt uses, in its order."""
    lines = [it for it in text.split("\n") if it.strip() and it[0] != "#"]
    rows = [it.partition(":") for it in lines]
    found = {head.split()[0]: tail.split() for head, _, tail in rows}
    return {name: [it for it in uses if it in found] for name, uses in found.items()}


def crates(commit=None):
    """Returns crates.txt as it stood at the commit, or as it stands."""
    text = commit and _git("show", f"{commit}:crates.txt")
    if not text:
        with open(f"{TOP}/crates.txt", encoding="utf-8") as it:
            text = it.read()
    return crates_of(text)


def sources(commit=None):
    """Returns the files of each crate's code, definitions and proofs with the names of their texts,
    at the commit or as they stand. Nothing where git doesn't know the commit."""
    found = {}
    for head, path in _at(commit) if commit else _here():
        parts = path.split("/")
        if parts[2:] and parts[2] in ("src", "specs", "proofs"):
            found.setdefault(parts[1], []).append((path, head.split()[-1]))
    return {name: sorted(its) for name, its in found.items()}


def _at(commit):
    """Yields files below crates/ as they were at the commit, each behind git's name of its text."""
    for line in _git("ls-tree", "-r", commit, "crates").splitlines():
        yield line.split("\t")


def _here():
    """Yields them as they stand."""
    for folder, _, names in os.walk(f"{TOP}/crates"):
        for it in names if "/out" not in folder else ():
            with open(f"{folder}/{it}", "rb") as opened:
                text = opened.read()
            made = hashlib.sha1(b"blob %d\0" % len(text) + text).hexdigest()
            yield made, os.path.relpath(f"{folder}/{it}", TOP)


def chain(run):
    """Returns the longest chain of crates, each used by the next, and its minutes of proof. A crate
    with no figure counts for nothing."""
    uses, minutes, best = crates(run.commit), run.proved(), {}

    def longest(name):
        if name not in best:
            below = max(map(longest, uses[name]), default=(0.0, ()))
            best[name] = below[0] + minutes.get(name, 0.0), (*below[1], name)
        return best[name]

    return max(map(longest, uses), default=(0.0, ()))[::-1]


class Beside:
    """One run beside an older one."""

    def __init__(self, old, new):
        self.old, self.new = old, new
        self.before, self.now = crates(old.commit), crates(new.commit)
        was, stands = old.proved(), new.proved()
        self.both = [it for it in stands if it in was]
        self.gone = [it for it in was if it not in self.now]
        self.came = [it for it in stands if it not in self.before and it not in was]
        # Crates that are there and of which a run says nothing, as rt ci had kept them.
        self.unknown_before = [it for it in self.before if it not in was]
        self.unknown_now = [it for it in self.now if it not in stands]
        self.is_whole = not self.unknown_before and not self.unknown_now
        written = old.commit and sources(old.commit)
        # Whether crates whose sources are others can be left out.
        self.is_known = bool(written)
        here = sources(new.commit) or sources()
        alike = [it for it in self.both if not written or written.get(it) == here.get(it)]
        told = [stands[it] / was[it] for it in alike if was[it] >= JUDGED]
        self.alike, self.ratio = len(told), statistics.median(told) if told else 1.0

    def rose(self):
        """Returns the crates that take longer than the machine explains, the dearest first."""
        scaled = {it: self.old.of(it) * self.ratio for it in self.both}
        by = {it: self.new.of(it) - scaled[it] for it in self.both}
        is_more = lambda it: by[it] > LEAST and self.new.of(it) > SHARE * scaled[it]
        return sorted(filter(is_more, self.both), key=lambda it: -by[it])
