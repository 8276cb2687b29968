"""A page: its lines without blocks of code, headings, tables, names in backticks."""
import re

RULE = re.compile(r"^\|[\s:|-]+\|$")
TICKS = re.compile(r"`([^`\n]+)`")
CRATE = re.compile(r"\braft_\w+\b")


class Row:
    """A row of a table: the line's number, its cells, the heads of the columns, the heading above it."""

    def __init__(self, line, cells, heads, heading):
        self.line, self.cells, self.heads, self.heading = line, cells, heads, heading


class Page:
    """A page of the repository, by its path."""

    def __init__(self, path, text):
        self.path, self.text = path, text
        parts = path.split("/")
        self.crate = parts[1] if parts[0] == "crates" else None
        self.lines = list(_outside_blocks(text))
        self.headings = [(line, text.lstrip("#").strip()) for line, text in self.lines if re.match(r"^#+ ", text)]

    def rows(self):
        """The rows of its tables."""
        heads, heading, before = None, "", (0, "")
        for line, text in self.lines:
            if re.match(r"^#+ ", text):
                heading = text
            if not text.startswith("|"):
                heads = None
            elif RULE.match(text):
                heads = cells(before[1])
            elif heads:
                yield Row(line, cells(text), heads, heading)
            before = (line, text)


def _outside_blocks(text):
    """The lines with their numbers, but those of blocks of code."""
    inside = False
    for line, it in enumerate(text.split("\n"), 1):
        if it.lstrip().startswith("```"):
            inside = not inside
        elif not inside:
            yield line, it


def cells(text):
    """The cells of a row; a bar in backticks or behind a backslash parts none."""
    hidden = TICKS.sub(lambda it: it[0].replace("|", "\0"), text.replace("\\|", "\0"))
    return [it.strip().replace("\0", "|") for it in hidden.strip().strip("|").split("|")]


def expanded(text):
    """The names that a text with {a,b} stands for."""
    found = re.match(r"^(.*?)\{([^{}]*)\}(.*)$", text)
    if not found:
        return [text]
    return [it for part in found[2].split(",") for it in expanded(found[1] + part.strip() + found[3])]


def anchor(heading):
    """The anchor of a heading, as it is shown by what shows pages."""
    return re.sub(r"[^\w\- ]", "", heading.replace("`", "").lower()).replace(" ", "-")
