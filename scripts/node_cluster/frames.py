"""What a frame says, as docs/FORMAT.md lays it out under "Values and frames"."""
import dataclasses

VOTE, VOTE_REPLY, APPEND, APPEND_REPLY, SNAPSHOT, SNAPSHOT_REPLY = range(1, 7)
REPLIES = APPEND_REPLY, SNAPSHOT_REPLY
COMMAND, MEMBERSHIP = 1, 2


@dataclasses.dataclass
class Frame:
    kind: int
    group: int
    sender: int
    addressee: int
    vote: tuple                # term, node, whether a quorum granted it
    previous: tuple = None     # the log id before the entries
    committed: tuple = None    # a log id
    entries: tuple = ()        # of each its log id, and the bytes of its command or none
    last: tuple = None         # the last log id of a snapshot
    state: bytes = b""         # the machine's bytes in it


class _Bytes:
    def __init__(self, data):
        self.data, self.at = data, 0

    def take(self, count):
        self.at += count
        return self.data[self.at - count:self.at]

    def number(self, size=8):
        return int.from_bytes(self.take(size), "big")

    def log_id(self):
        return self.number(), self.number(), self.number()

    def optional(self, read):
        return read() if self.number(1) else None

    def pass_membership(self):
        for _ in range(self.number(4)):
            self.take(8 * self.number(4))
        for _ in range(self.number(4)):
            self.take(8)
            self.take(self.number(1))

    def entry(self):
        log_id, kind = self.log_id(), self.number(1)
        if kind == MEMBERSHIP:
            self.pass_membership()
        return log_id, self.take(self.number(4)) if kind == COMMAND else None


def read_frame(data):
    of = _Bytes(data[4:])
    kind, ids = of.number(1), [of.number() for _ in range(3)]
    frame = Frame(kind, *ids, vote=(of.number(), of.number(), of.number(1) == 1))
    if frame.kind in (APPEND, SNAPSHOT):
        of.optional(of.number)    # the request's
    if frame.kind == APPEND:
        frame.previous, frame.committed = of.optional(of.log_id), of.optional(of.log_id)
        frame.entries = tuple(of.entry() for _ in range(of.number(4)))
    elif frame.kind == SNAPSHOT:
        frame.last, _, _ = of.log_id(), of.optional(of.log_id), of.pass_membership()
        frame.state = of.take(of.number(4))
    return frame
