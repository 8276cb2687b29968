"""Pieces of a picture as text of SVG."""

from html import escape
from unicodedata import east_asian_width

# How wide a character of text of this size is at most, about, and one of a script's line.
WIDE, SIZE, WIDE_MONO = 6.2, 11, 7.3
# At most so many characters of a mark.
MOST_IN_MARK = 26

SANS, MONO = "Helvetica, Arial, sans-serif", "Menlo, Consolas, monospace"
GROUP_COLOURS = ("#1f5fa8", "#c2570c", "#7b3fa0", "#0b7a75", "#8a5a00", "#b0307a", "#444444", "#4a6b00")
GREY, RED, GREEN, AMBER, TEXT = "#57606a", "#c1121f", "#1a7f37", "#9a6700", "#1f2328"
# The line and the ground of each kind of mark.
MARK_COLOURS = {
    "told": (GREEN, "#dff5e3"),
    "opened": (GREEN, "#ffffff"),
    "unknown": (AMBER, "#fff3c4"),
    "fuse": (AMBER, "#ffffff"),
    "refused": (RED, "#fde3e3"),
    "total": (GREY, "#f3f4f6"),
    "open": (GREY, "#ffffff"),
}


def plain(text, most):
    """The text with at most so many characters, and without those that can't be shown."""
    shown = "".join(it if it.isprintable() else "\ufffd" for it in text[: most + 1])
    return shown if len(shown) <= most else shown[: most - 1] + "\u2026"


def width_of(text):
    """How wide a text is."""
    return WIDE * sum(2 if east_asian_width(it) in "WF" else 1 for it in text)


def number_text(value):
    """A number with one decimal at most, or the text."""
    return f"{value:.1f}".removesuffix(".0") if isinstance(value, float) else str(value)


def tag(name, text=None, **attributes):
    """An element. Its text is escaped."""
    said = "".join(
        f' {key.rstrip("_").replace("_", "-")}="{escape(number_text(value))}"' for key, value in attributes.items()
    )
    return f"<{name}{said}/>" if text is None else f"<{name}{said}>{escape(text)}</{name}>"


def straight(x1, y1, x2, y2, colour, **others):
    """A line."""
    return tag("line", x1=x1, y1=y1, x2=x2, y2=y2, stroke=colour, **others)


def text_at(x, y, text, way=1, **others):
    """Text that begins there (way 1), ends there (-1), or has its middle there (0)."""
    anchor = {1: "start", 0: "middle", -1: "end"}[way]
    kind = {"font_family": SANS, "font_size": SIZE, "text_anchor": anchor, "fill": TEXT, **others}
    return tag("text", text, x=x, y=y, **kind)


def half_of(text):
    """Half of a mark's width."""
    return width_of(plain(text, MOST_IN_MARK)) / 2 + 7


def mark(x, y, kind, text):
    """A mark in the middle of x."""
    colour, ground = MARK_COLOURS[kind]
    half = half_of(text)
    box = tag("rect", x=x - half, y=y - 8.0, width=2 * half, height=15, rx=7, fill=ground, stroke=colour)
    return box + text_at(x, y + 3.5, plain(text, MOST_IN_MARK), 0, fill=colour)


# How far from a node's line an arrow ends, and how round its corners are.
SHORT, ROUND = 7.0, 6.0


def head(x, y, way, colour):
    """An arrow's head that ends at x."""
    points = ((x, y), (x - 8 * way, y - 4), (x - 8 * way, y + 4))
    return tag("polygon", points=" ".join(f"{number_text(a)},{number_text(b)}" for a, b in points), fill=colour)


def arrow(start, lane, end, colour, again=None):
    """An arrow that goes level to its lane, down in it, and level on. One that comes again is dashed, and leaves the
    lane below the height `again`."""
    (x1, y1), (x2, y2) = start, end
    way = 1 if x2 > x1 else -1
    tip = x2 - SHORT * way
    bend = min(ROUND, abs(y2 - y1) / 2)
    words = [f"M {number_text(x1)} {number_text(y1)} H {number_text(lane - bend * way)}"]
    words.append(f"Q {number_text(lane)} {number_text(y1)} {number_text(lane)} {number_text(y1 + bend)}")
    if again is not None:
        words = [f"M {number_text(lane)} {number_text(again)}"]
    words.append(f"V {number_text(y2 - bend)} Q {number_text(lane)} {number_text(y2)}")
    words.append(f"{number_text(lane + bend * way)} {number_text(y2)} H {number_text(tip - 7 * way)}")
    dashes = {} if again is None else {"stroke_dasharray": "5 3"}
    shaft = tag("path", d=" ".join(words), fill="none", stroke=colour, stroke_width="1.4", **dashes)
    return shaft + head(tip, y2, way, colour)


def level(x1, x2, y, colour, **others):
    """A level arrow, for the legend."""
    return straight(x1, y, x2 - 7, y, colour, stroke_width="1.4", **others) + head(x2, y, 1, colour)


def cross(x, y, half, colour, **others):
    """A cross."""
    return straight(x - half, y - half, x + half, y + half, colour, **others) + straight(
        x - half, y + half, x + half, y - half, colour, **others
    )


def stub(x, y, way, colour):
    """A short line to the right (way 1) or left (-1) that ends in a cross: a frame that never comes."""
    end = x + way * 20.0
    return straight(x, y, end, y, colour, stroke_dasharray="3 2") + cross(end, y, 3.0, colour)


def event(x, y, colour):
    """An event at a node."""
    return tag("circle", cx=x, cy=y, r=3.5, fill=colour)


def crash(x, y):
    """A machine that stops."""
    return tag("circle", cx=x, cy=y, r=5, fill="#ffffff") + cross(x, y, 4.5, RED, stroke_width=2)


def stop(x, y):
    """A machine that stops inside an event."""
    return tag("circle", cx=x, cy=y, r=6, fill="#ffffff", stroke=RED, stroke_width="1.4") + cross(
        x, y, 3.0, RED, stroke_width="1.6"
    )


def fuse(x, y, colour):
    """An event that ends before its fuse is met."""
    ring = tag("circle", cx=x, cy=y, r=6, fill="#ffffff", stroke=AMBER, stroke_width="1.4", stroke_dasharray="2 2")
    return ring + event(x, y, colour)


def opened(x, y):
    """A node that is opened."""
    return tag("circle", cx=x, cy=y, r=5, fill="#ffffff", stroke=GREEN, stroke_width=2)


def down(x, y1, x2, y2):
    """The line of a node that is down."""
    return straight(x, y1, x2, y2, RED, stroke_dasharray="2 5")
