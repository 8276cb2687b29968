"""The picture of a run: what is drawn, the lower first."""

from charting import pieces
from charting.pieces import GREY, MONO, RED, WIDE_MONO, half_of, plain, straight, tag, text_at, width_of
from charting.places import MOST_CHARACTERS, Places, label_of, stubs_texts

# Where the legend begins, how high a line of it is, and how wide a picture is at least.
LEGEND_LEFT, LEGEND_ROOM, LEAST_WIDTH = 16.0, 20.0, 700.0
MOST_IN_LEGEND = 8
# A comment with no more characters than this is drawn whole.
MOST_IN_COMMENT = 120


class Legend:
    """What the glyphs, lines and colours say, in lines of this width."""

    def __init__(self, groups, colour_of, has_kinds, width):
        self.drawn, self.width = [], width
        self.x, self.y = LEGEND_LEFT, 18.0
        for group in groups[:MOST_IN_LEGEND]:
            colour = colour_of(group)
            self.add(38, f"group {group}", lambda x, y, colour=colour: pieces.level(x, x + 38, y, colour))
        if len(groups) > MOST_IN_LEGEND:
            self.add(0, f"and {len(groups) - MOST_IN_LEGEND} more groups", lambda x, y: "")
        self.add(38, "comes again", lambda x, y: pieces.level(x, x + 38, y, GREY, stroke_dasharray="5 3"))
        self.add(24, "never comes", lambda x, y: pieces.stub(x, y, 1, GREY))
        if has_kinds:
            self.add(24, "kind of frame, by the plain rules", lambda x, y: text_at(x, y + 4, "vote", fill=GREY))
        self.turn()
        self.add(10, "event", lambda x, y: pieces.event(x + 5, y, GREY))
        self.add(10, "crash: the machine stops", lambda x, y: pieces.crash(x + 5, y))
        self.add(12, "fuse met: stops inside", lambda x, y: pieces.stop(x + 6, y))
        self.add(12, "fuse isn't met", lambda x, y: pieces.fuse(x + 6, y, GREY))
        self.add(26, "down", lambda x, y: pieces.down(x, y, x + 26, y))
        self.add(10, "opened again", lambda x, y: pieces.opened(x + 5, y))
        self.end = self.y + LEGEND_ROOM

    def turn(self):
        """The next piece begins a line."""
        if self.x > LEGEND_LEFT:
            self.x, self.y = LEGEND_LEFT, self.y + LEGEND_ROOM

    def add(self, wide, text, piece):
        """A piece of this width, and what it says."""
        room = wide + 6 + 0.9 * width_of(text)
        if self.x + room > self.width - LEGEND_LEFT:
            self.turn()
        self.drawn.append(piece(self.x, self.y))
        self.drawn.append(text_at(self.x + wide + 6, self.y + 4, text))
        self.x += room + 16


class Picture:
    """The picture of a run."""

    def __init__(self, run):
        self.run = run
        named = {row.group for row in run.rows if row.group is not None}
        self.groups = sorted(named | {frame.group for frame in run.frames.values()})
        longest = max((len(plain(row.text, MOST_IN_COMMENT)) for row in run.rows if row.is_comment), default=0)
        # How wide the picture is doesn't depend on where its rows begin.
        self.width = max(LEAST_WIDTH, Places(run, 0.0).right, 52 + pieces.WIDE * longest)
        self.legend = Legend(self.groups, self.colour_of, run.has_kinds, self.width)
        self.head = self.legend.end + 24
        self.places = Places(run, self.head + 8)
        self.lower, self.upper = [], []

    def colour_of(self, group):
        """The colour of a group; grey where there is none."""
        if group not in self.groups:
            return GREY
        return pieces.GROUP_COLOURS[self.groups.index(group) % len(pieces.GROUP_COLOURS)]

    # ---- nodes

    def draw_node(self, node):
        """The node's line, and where it is down."""
        x, heights = self.places.nodes[node], self.places.heights
        self.lower.append(straight(x, self.head, x, heights.end, "#8c959f"))
        began = None
        for y, row in [*zip(heights.events, self.run.rows), (heights.end, None)]:
            is_down = row is not None and node in row.down
            if is_down and began is None:
                began = y
            elif began is not None and not is_down:
                self.lower.append(straight(x, began, x, y, "#ffffff", stroke_width=3))
                self.lower.append(pieces.down(x, began, x, y))
                began = None
        sizes = {"x": x - 32, "y": self.head - 22, "width": 64, "height": 22, "rx": 4}
        self.lower.append(tag("rect", fill="#eaeef2", stroke="#8c959f", **sizes))
        self.upper.append(text_at(x, self.head - 7, f"node {node}", 0, font_size=13))

    # ---- rows

    def draw_row(self, at, row):
        """The line's text, and what happened at its node."""
        y = self.places.heights.events[at]
        if row.is_comment:
            self.draw_comment(at, row, y)
            return
        self.upper.append(self.number(at, y))
        said = plain(row.text, MOST_CHARACTERS)
        self.upper.append(text_at(36, y + 4, said, font_family=MONO, font_size=12))
        if row.node in self.run.nodes:
            self.upper.append(self.glyph(row, self.places.nodes[row.node], y))
        elif row.verb == "now":
            behind = 46 + WIDE_MONO * len(said)
            self.lower.append(straight(behind, y, self.width - 10, y, "#d0d7de", stroke_dasharray="1 4"))
        self.draw_marks(at, row, said)

    @staticmethod
    def number(at, y):
        """The number of a line."""
        return text_at(26, y + 4, str(at + 1), -1, fill="#8c959f", font_family=MONO)

    def draw_comment(self, at, row, y):
        """A comment: the lines of nodes and frames run behind it."""
        ground = {"x": 8, "y": y - 9, "width": self.width - 16, "height": 18}
        self.upper.append(tag("rect", fill="#f6f8fa", **ground))
        self.upper.append(self.number(at, y))
        most = int((self.width - 52) / pieces.WIDE)
        if row.text:
            self.upper.append(text_at(36, y + 4, plain(row.text, most), fill=GREY, font_style="italic"))

    def glyph(self, row, x, y):
        """What happened at a node."""
        colour = self.colour_of(row.group)
        if row.answer == "stopped":
            return pieces.stop(x, y)
        if row.fuse is not None:
            return pieces.fuse(x, y, colour)
        if row.answer.startswith("ok") and row.verb in ("crash", "reopen"):
            return {"crash": pieces.crash, "reopen": pieces.opened}[row.verb](x, y)
        return pieces.event(x, y, colour)

    def draw_marks(self, at, row, said):
        """A row's marks: below its node, or behind the line's text where there is no such node."""
        x, is_there = 52 + WIDE_MONO * len(said), row.node in self.run.nodes
        for y, kind, text in self.places.heights.marks[at]:
            half = half_of(text)
            middle = self.places.nodes[row.node] if is_there else x + half
            self.upper.append(pieces.mark(middle, y, kind, text))
            x += 2 * half + 6

    # ---- frames

    def draw_frame(self, frame):
        """The arrows of a frame, each with its text above its end."""
        heights, colour = self.places.heights, self.colour_of(frame.group)
        key = frame.group, frame.number
        lane, x = self.places.lanes[key], self.places.nodes[frame.peer]
        start, again = (self.places.nodes[frame.sender], heights.outs[key]), None
        for nth, at in enumerate(frame.comes):
            end = x, heights.events[at]
            self.lower.append(pieces.arrow(start, lane, end, colour, again))
            self.upper.append(text_at(x - 14 * frame.way, end[1] - 5, label_of(frame, nth), -frame.way, fill=colour))
            again = end[1] - pieces.ROUND

    def draw_stubs(self, at, way, heights):
        """What a row sent to one side and never comes."""
        frames = [it for it in self.run.rows[at].sent if it.way == way and not it.comes]
        x = self.places.nodes[self.run.rows[at].node]
        for frame, y, text in zip(frames, heights, stubs_texts(frames)):
            colour = self.colour_of(frame.group)
            self.lower.append(pieces.stub(x, y, way, colour))
            self.upper.append(text_at(x + 27 * way, y + 4, text, way, fill=colour))

    # ---- all of it

    def ends(self):
        """Why the picture ends before the script, if it does."""
        texts = [] if self.run.end is None else [self.run.end]
        if len(self.run.rows) < self.run.count:
            texts = [f"only the first {len(self.run.rows)} of {self.run.count} lines are shown"]
        return texts

    def svg(self):
        """The picture as text."""
        for node in self.run.nodes:
            self.draw_node(node)
        for (at, way), heights in self.places.heights.stubs.items():
            self.draw_stubs(at, way, heights)
        for frame in self.run.frames.values():
            if frame.comes:
                self.draw_frame(frame)
        for at, row in enumerate(self.run.rows):
            self.draw_row(at, row)
        height = self.places.heights.end + 8
        for text in self.ends():
            height += 20
            self.upper.append(text_at(16, height - 10, text, fill=RED, font_size=13))
        size = f"{number_of(self.width)} {number_of(height)}"
        opening = f'<svg xmlns="http://www.w3.org/2000/svg" viewBox="0 0 {size}" width="{number_of(self.width)}">'
        ground = tag("rect", width="100%", height="100%", fill="#ffffff")
        title = tag("title", "The run of a script")
        return "\n".join([opening, title, ground, *self.legend.drawn, *self.lower, *self.upper, "</svg>"]) + "\n"


def number_of(value):
    """A size as text."""
    return pieces.number_text(float(value))
