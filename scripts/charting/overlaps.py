"""What in a chart lies over something else: texts on one another, lines through texts, and arrows on one another. It
reads the picture alone, by the kinds of elements that `pieces` writes."""

import re
import xml.etree.ElementTree as ET

# How wide a character is, against its size; it is more in a script's line.
WIDE, WIDE_MONO = 0.53, 0.605
# What is nearer than this touches, and doesn't overlap.
NEAR = 0.5
# Arrows that run beside one another so near lie on one another, if they do so for the second length.
BESIDE, ALONG = 3.0, 4.0


def number(element, name):
    """A number of an element."""
    return float(element.get(name))


def box_of_text(it):
    """Where a text stands: left, top, right and bottom."""
    size = number(it, "font-size")
    wide = size * (WIDE_MONO if it.get("font-family").startswith("Menlo") else WIDE) * len(it.text)
    x, y = number(it, "x"), number(it, "y")
    left = {"start": x, "middle": x - wide / 2, "end": x - wide}[it.get("text-anchor")]
    return left, y - 0.75 * size, left + wide, y + 0.2 * size


def box_of_ground(it):
    """Where a box stands."""
    x, y = number(it, "x"), number(it, "y")
    return x, y, x + number(it, "width"), y + number(it, "height")


def pieces_of(it):
    """The straight pieces of a line or a path: each a start and an end. A round corner is one of them."""
    if it.tag.endswith("line"):
        return [((number(it, "x1"), number(it, "y1")), (number(it, "x2"), number(it, "y2")))]
    found, at = [], None
    for verb, said in re.findall("([MHVQ]) ([0-9. -]+)", it.get("d")):
        words = [float(word) for word in said.split()]
        ends = {"M": words, "H": [words[0], at and at[1]], "V": [at and at[0], words[0]], "Q": words[2:]}[verb]
        if verb != "M":
            found.append((at, tuple(ends)))
        at = tuple(ends)
    return found


def overlap(one, other):
    """Whether two boxes have more than an edge in common."""
    return (
        one[0] + NEAR < other[2]
        and other[0] + NEAR < one[2]
        and one[1] + NEAR < other[3]
        and other[1] + NEAR < one[3]
    )


def covers(one, other):
    """Whether a box has all of the other one."""
    return one[0] <= other[0] and one[1] <= other[1] and other[2] <= one[2] and other[3] <= one[3]


def goes_through(piece, box):
    """Whether a piece of a line goes through a box. Pieces are level, upright, or those of small crosses."""
    (x1, y1), (x2, y2) = piece
    return overlap((min(x1, x2) - NEAR, min(y1, y2) - NEAR, max(x1, x2) + NEAR, max(y1, y2) + NEAR), box)


def lie_on(one, other):
    """Whether two pieces of arrows run on one another."""
    for level in (0, 1):
        upright = 1 - level
        places = [end[upright] for piece in (one, other) for end in piece]
        if max(places) - min(places) < BESIDE:
            ends = [sorted(end[level] for end in piece) for piece in (one, other)]
            if min(ends[0][1], ends[1][1]) - max(ends[0][0], ends[1][0]) > ALONG:
                return True
    return False


def faults(svg):
    """What lies over something else in a picture, each as a text."""
    texts, grounds, lines = [], [], []
    for at, it in enumerate(ET.fromstring(svg).iter()):
        kind = it.tag.rpartition("}")[2]
        if kind == "text":
            texts.append((at, it.text, box_of_text(it)))
        elif kind == "rect" and it.get("x") is not None:
            grounds.append((at, box_of_ground(it)))
        elif kind in ("line", "path"):
            lines.append((at, kind, it.get("stroke-dasharray"), pieces_of(it)))
    texts.sort(key=lambda it: it[2][1])
    for at, (_, text, box) in enumerate(texts):
        for _, other, its in texts[at + 1 :]:
            if its[1] > box[3]:
                break
            if overlap(box, its):
                yield f"'{text}' and '{other}' overlap"
    for order, text, box in texts:
        behind = [its for its, ground in grounds if its < order and covers(ground, box)]
        for its, _, _, pieces in lines:
            if not any(its < ground for ground in behind) and any(goes_through(it, box) for it in pieces):
                yield f"a line goes through '{text}'"
    # A node's line is down in a part, and the line of a tick is no arrow: neither lies on an arrow's lane or level.
    arrows = [pieces for _, kind, dashes, pieces in lines if kind == "path" or dashes == "3 2"]
    for at, one in enumerate(arrows):
        for other in arrows[at + 1 :]:
            if any(lie_on(piece, its) for piece in one for its in other):
                yield f"arrows lie on one another at {one[0][0]} and {other[0][0]}"
