"""Where everything in a chart of a run stands: the heights of rows, the columns of nodes, and the lanes between."""

from charting.pieces import WIDE_MONO, half_of, plain, width_of

# At most so many characters of a line are drawn, and so many marks or stubs of a row.
MOST_CHARACTERS = 34
MOST_IN_ROW = 8

# Rooms: of a row at least, above its event where a label stands there, of a mark, a stub, a frame that is sent, and of
# a comment; between two lanes, and beside a node's line.
ROW, LABEL_ROOM, MARK_ROOM, STUB_ROOM, SEND_ROOM, COMMENT_ROOM = 25.0, 17.0, 17.0, 14.0, 9.0, 18.0
LANE, BESIDE, LEAST_GAP = 9.0, 14.0, 110.0
# Two frames of one lane are so far from one another.
APART = 12.0


def label_of(frame, nth=0):
    """The number of a frame, its kind if it is known, and whether it came before."""
    return f"#{frame.number} {frame.kind}".rstrip() + (" again" if nth else "")


def marks_of(row):
    """A row's marks: of each the kind and the text."""
    verb, marks = row.verb, []
    if row.answer == "stopped":
        return [("refused", f"stopped by fuse {row.fuse}")] + token_of(row)
    if row.fuse is not None:
        marks.append(("fuse", f"fuse {row.fuse} isn't met"))
    if row.answer.startswith(("refused", "total", "none", "line ")):
        kind = "total" if row.answer.startswith(("none", "total")) else "refused"
        shown = "no event" if row.answer.startswith("line ") else row.answer.split(" unknown ")[0]
        marks.append((kind, shown))
    elif verb in ("clean", "crash", "reopen"):
        kind, said = {"clean": ("open", "cleaned"), "crash": ("refused", "crash"), "reopen": ("opened", "opened")}[verb]
        marks.append((kind, said))
    if not row.answer.startswith("refused"):
        marks += token_of(row)
    words = row.answer.split(" ")
    for word, said in zip(words, words[1:]):
        if word in ("told", "full", "unknown", "compact"):
            kind = {"told": "told", "full": "refused"}.get(word, "unknown")
            marks.append((kind, f"{word} {said}"))
    return marks


def token_of(row):
    """The mark of a row's token, if it has one."""
    return [] if row.token is None else [("open", f"token {row.token}")]


def stubs_texts(frames):
    """What is written behind the stubs of a row to one side."""
    texts = [f"{label_of(it)} to {it.peer}" for it in frames[:MOST_IN_ROW]]
    return texts + ([f"and {len(frames) - len(texts)} more"] if len(texts) < len(frames) else [])


class Heights:
    """The height of each row's event, marks, stubs and frames, and the one of the end."""

    def __init__(self, rows, nodes, top):
        self.nodes = nodes
        self.events, self.marks, self.stubs, self.outs = [], [], {}, {}
        y = top
        for at, row in enumerate(rows):
            y = self.comment(at, rows, y) if row.is_comment else self.row(at, row, y)
        self.end = y + 6

    def comment(self, at, rows, y):
        """A comment; answers where the next row begins. They are close to one another, and apart from others."""
        y += 5 if at > 0 and not rows[at - 1].is_comment else 0
        self.events.append(y + COMMENT_ROOM / 2)
        self.marks.append([])
        is_last = at + 1 < len(rows) and not rows[at + 1].is_comment
        return y + COMMENT_ROOM + (5 if is_last else 0)

    def row(self, at, row, y):
        """A row; answers where the next one begins."""
        top, y = y, y + (LABEL_ROOM if row.has_come else 11)
        self.events.append(y)
        marks = marks_of(row)
        if len(marks) > MOST_IN_ROW:
            marks = marks[:MOST_IN_ROW] + [("open", f"and {len(marks) - MOST_IN_ROW} more")]
        # Those of no node stand beside one another, behind the line's text.
        below = MARK_ROOM if row.node in self.nodes else 0
        self.marks.append([(y + (16 if below else 0) + below * nth, *it) for nth, it in enumerate(marks)])
        y += 10 + below * len(marks)
        lows = [self.side(at, [it for it in row.sent if it.way == way], way, y) for way in (1, -1)]
        return max([top + ROW, y + 2, *lows])

    def side(self, at, frames, way, y):
        """What a row sends to one side: first the frames that come, then those that never do."""
        for frame in frames:
            if frame.comes:
                self.outs[frame.group, frame.number] = y
                y += SEND_ROOM
        stubs = [it for it in frames if not it.comes]
        if stubs:
            count = len(stubs_texts(stubs))
            self.stubs[at, way] = [y + 4 + STUB_ROOM * nth for nth in range(count)]
            y += 4 + STUB_ROOM * count
        return y + 4 if frames else y


class Lane:
    """The way of a frame between two columns: from which height to which, and where it leaves."""

    def __init__(self, frame, out, comes):
        self.frame, self.out, self.comes, self.lane = frame, out, comes, 0

    def is_at(self, y):
        """Whether it runs at this height."""
        return self.out <= y <= self.comes[-1]

    def meets(self, other):
        """Whether both can't have one lane."""
        return self.out - APART < other.comes[-1] and other.out - APART < self.comes[-1]

    def crossings(self, other):
        """How often both cross one another where this one runs in its lane and the other in its own."""
        way, other_way = self.frame.way, other.frame.way
        beyond = (other.lane - self.lane) * way
        count = other.is_at(self.out) and beyond < 0
        count += sum(other.is_at(y) for y in self.comes) if beyond > 0 else 0
        if (self.lane - other.lane) * other_way > 0:
            count += sum(self.is_at(y) for y in other.comes)
        elif self.lane != other.lane:
            count += self.is_at(other.out)
        return count


def shared_out(ways):
    """Gives each frame between two columns a lane of its own while it runs; answers how many lanes there are. Among
    the free ones it takes the one with the fewest crossings, and of these the furthest one from its sender."""
    ways = sorted(ways, key=lambda it: it.out)
    count = max((sum(it.out <= one.out < it.comes[-1] + APART for it in ways) for one in ways), default=0)
    for at, one in enumerate(ways):
        near = [it for it in ways[:at] if one.meets(it)]
        used = {it.lane for it in near}
        free = [it for it in range(count) if it not in used]
        costs = []
        for lane in free:
            one.lane = lane
            costs.append((sum(one.crossings(it) for it in near), -lane * one.frame.way, lane))
        one.lane = min(costs)[2]
    return count


class Places:
    """Where the rows, nodes and lanes of a run stand."""

    def __init__(self, run, top):
        self.run = run
        self.heights = Heights(run.rows, run.nodes, top)
        self.rooms = {(node, way): 36.0 for node in run.nodes for way in (1, -1)}
        self.widen()
        self.ways = {node: [] for node in run.nodes}
        for frame in run.frames.values():
            if frame.comes:
                comes = [self.heights.events[it] for it in frame.comes]
                one = Lane(frame, self.heights.outs[frame.group, frame.number], comes)
                self.ways[frame.sender if frame.way > 0 else frame.sender - 1].append(one)
        self.lanes, self.nodes, self.right = {}, {}, 0.0
        self.place_nodes(self.left_room())

    def widen(self):
        """Finds how much room is wanted at each side of a node's line."""
        for at, row in enumerate(self.run.rows):
            for _, _, text in self.heights.marks[at]:
                self.want(row.node, 1, half_of(text))
                self.want(row.node, -1, half_of(text))
            for way in (1, -1):
                for text in stubs_texts([it for it in row.sent if it.way == way and not it.comes]):
                    self.want(row.node, way, 28 + width_of(text))
        for frame in self.run.frames.values():
            for nth, _ in enumerate(frame.comes):
                self.want(frame.peer, -frame.way, 18 + width_of(label_of(frame, nth)))

    def want(self, node, way, room):
        """So much room is wanted at a side of the node's line, if there is such a node."""
        if (node, way) in self.rooms:
            self.rooms[node, way] = max(self.rooms[node, way], room)

    def left_room(self):
        """Where the columns begin: behind the lines' texts, and the marks of those that happened at no node."""
        ends = [46 + WIDE_MONO * 12]
        for at, row in enumerate(self.run.rows):
            if not row.is_comment:
                end = 46 + WIDE_MONO * len(plain(row.text, MOST_CHARACTERS))
                marks = [] if row.node in self.run.nodes else self.heights.marks[at]
                ends.append(end + sum(2 * half_of(text) + 6 for _, _, text in marks))
        return max(ends)

    def place_nodes(self, x):
        """Places the nodes and the lanes between them, from x on."""
        for node in self.run.nodes:
            x += self.rooms[node, -1] + (BESIDE if node == 1 else 0)
            self.nodes[node] = x
            x += self.rooms[node, 1]
            if node < len(self.run.nodes):
                count = shared_out(self.ways[node])
                room = max(LANE * (count + 1), LEAST_GAP - self.rooms[node, 1] - self.rooms[node + 1, -1])
                first = x + (room - LANE * (count - 1)) / 2
                for one in self.ways[node]:
                    self.lanes[one.frame.group, one.frame.number] = first + LANE * one.lane
                x += room
        self.right = x + BESIDE
