"""The file scripts/edits/TRIED: the sum of what each edit's refusal rests on, and the turn."""
import hashlib
import os
import re
import subprocess

HEAD = (
    "# A line for each edit that was refused, with the sum of what that rests on, or a dash where it\n"
    "# has to be tried (scripts/try_edits writes it). The turn says which twentieth is tried again.\n"
)
TURNS = 20
TURN = re.compile(r"(?m)^turn (\d+)$")
REFUSED = re.compile(r"(?m)^(\w+) refused: (.*)$")
LEFT = re.compile(r"(?m)^(\w+) left: (.*)$")


def turn_of(name):
    """Returns the turn in which an edit is tried again though nothing that it rests on changed."""
    return int.from_bytes(hashlib.sha256(name.encode()).digest()[:4], "big") % TURNS


def next_turn(file):
    """Returns the turn of what is to land: the one behind that of the last landing, by git."""
    folder, name = os.path.split(file)
    for commit in ("origin/main", "HEAD"):
        words = ["git", "-C", folder, "show", f"{commit}:./{name}"]
        said = subprocess.run(words, capture_output=True, text=True)
        if said.returncode == 0:
            found = TURN.search(said.stdout)
            return (int(found[1]) + 1) % TURNS if found else 0
    return 0


class Tried:
    """The recorded sums by the edits' names, which are written as they change."""

    def __init__(self, file):
        self.file, self.sums, self.turn = file, {}, next_turn(file)
        if os.path.isfile(file):
            with open(file, encoding="utf-8") as it:
                rows = [line.split() for line in it if "/" in line and line[0] != "#"]
            self.sums = {row[0]: row[1] for row in rows if len(row) == 2}

    def stands(self, name, made):
        """Returns whether the edit was refused as it stands."""
        return made is not None and self.sums.get(name) == made

    def is_first(self, name):
        """Returns whether the edit was left, or not refused, or never tried: such come first."""
        return self.sums.get(name, "-") == "-"

    def place(self, name):
        """Returns the edit's place among those that are tried in this turn. The last quarter of one turn is
        the first of the next, since a clock may have left it and nobody noted that."""
        return not self.is_first(name), (turn_of(name) + self.turn * TURNS // 4) % TURNS, name

    def note(self, sums, names=None):
        """Notes these edits' sums, or dashes. names: all edits that there are, so that others go."""
        self.sums |= {name: made or "-" for name, made in sums.items()}
        if names is not None:
            self.sums = {name: made for name, made in self.sums.items() if name in names}
        draft = f"{self.file}.new"
        with open(draft, "w", encoding="utf-8") as it:
            it.write(f"{HEAD}turn {self.turn}\n")
            it.writelines(f"{name} {self.sums[name]}\n" for name in sorted(self.sums))
        os.replace(draft, self.file)


def lines_of(crate, refused, left):
    """Returns what a run says of a crate's edits, so that another one can note it. refused: their sums."""
    said = " ".join(f"{name.partition('/')[2]}={made}" for name, made in refused.items())
    rest = " ".join(name.partition("/")[2] for name in left)
    lines = {f"{crate} refused: {said}": said, f"{crate} left: {rest}": rest}
    return [line for line, names in lines.items() if names]


def said_in(text):
    """Returns the sums of the edits that a run has refused, and the names of those that it left."""
    said = [(crate, it.split("=")) for crate, its in REFUSED.findall(text) for it in its.split()]
    refused = {f"{crate}/{it[0]}": it[1] for crate, it in said if len(it) == 2}
    return refused, [f"{crate}/{name}" for crate, its in LEFT.findall(text) for name in its.split()]
