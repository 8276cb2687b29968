"""Events and worlds as text, in the words that the program of the engines reads and prints."""

import zlib

from plain_rules.events import Change, Event
from plain_rules.membership import CHANGES_OF_IDS, Membership
from plain_rules.messages import Append, AppendReply, HigherVote, Message, Offer, PartialSuccess
from plain_rules.messages import SnapshotReply, VoteReply, VoteRequest
from plain_rules.stored import Snapshot
from plain_rules.values import Blank, Command, Entry, Id, Members, Vote


def or_dash(value, text=str):
    """The text of a value, `-` where there is none."""
    return "-" if value is None else text(value)


# ---- values


def vote_text(vote):
    """Term and node, and a plus behind a granted one."""
    return f"{vote.term}.{vote.node}{'+' if vote.granted else ''}"


def id_text(log_id):
    """Term, node and place."""
    return or_dash(log_id, lambda it: f"{it.term}.{it.node}.{it.place}")


def groups_text(groups):
    """The voters of each group."""
    return "/".join(",".join(map(str, group)) for group in groups)


def nodes_text(nodes):
    """Each node with its address."""
    return ",".join(f"{node}@{address}" for node, address in nodes)


def membership_text(membership):
    """The voter groups, then the nodes."""
    return f"{groups_text(membership.groups)};{nodes_text(membership.nodes)}"


def payload_text(payload):
    """`blank`, the bytes of a command, or a membership."""
    if isinstance(payload, Blank):
        return "blank"
    if isinstance(payload, Command):
        return payload.data.hex()
    return membership_text(payload.membership)


def entries_text(entries):
    """How many there are, and each."""
    texts = [f" [{id_text(it.id)} {payload_text(it.payload)}]" for it in entries]
    return f"{len(entries)}{''.join(texts)}"


def logged_text(logged):
    """A membership behind the log id of its entry."""
    return or_dash(logged, lambda it: f"{id_text(it[0])} {membership_text(it[1])}")


def snapshot_text(snapshot):
    """Its last log id, its last membership and its entries."""
    if snapshot is None:
        return "-"
    membership = logged_text(snapshot.membership)
    return f"{id_text(snapshot.last)} with {membership} of {entries_text(snapshot.prefix)}"


# ---- messages

# What each kind of message is called.
KINDS = {
    VoteRequest: "ask",
    Append: "append",
    AppendReply: "reply",
    Offer: "snapshot",
    SnapshotReply: "answer",
}


def kind_of(body):
    """What the message is called: a notice is a request without a number."""
    if isinstance(body, VoteReply):
        return "grant" if body.granted else "deny"
    return "notice" if isinstance(body, Append) and body.number is None else KINDS[type(body)]


def outcome_text(outcome):
    """`success`, `conflict`, the part, or the higher vote."""
    if isinstance(outcome, PartialSuccess):
        return f"part {id_text(outcome.last)}"
    return f"higher {vote_text(outcome.vote)}" if isinstance(outcome, HigherVote) else outcome


def said_text(body):
    """What the message says besides its vote."""
    if isinstance(body, (VoteRequest, VoteReply)):
        return f"last {id_text(body.last)}"
    if isinstance(body, Append):
        ids = f"after {id_text(body.previous)} committed {id_text(body.committed)}"
        return f"number {or_dash(body.number)} {ids} entries {entries_text(body.entries)}"
    if isinstance(body, Offer):
        return f"number {body.number} snapshot {snapshot_text(body.snapshot)}"
    ids = f"after {id_text(body.previous)} last {id_text(body.last)}"
    return f"number {or_dash(body.number)} {ids} {outcome_text(body.outcome)}"


def message_text(message):
    """Sender and addressee, and what it says, on a line."""
    body = message.body
    said = f"{kind_of(body)} {vote_text(body.vote)} {said_text(body)}"
    return f"{message.sender}>{message.addressee} {said}\n"


# ---- worlds


def role_text(member):
    """The part that a node plays."""
    if member.up is None:
        return "down"
    if member.up.is_leader():
        return "leads"
    return "stands" if member.up.is_candidate() else "follows"


def member_text(member):
    """A node with all that it has stored, on a line."""
    stored, state = member.stored(), member.up
    known = f"{role_text(member)} committed {or_dash(None if state is None else state.committed)}"
    group = "group" if stored.present else "none"
    kept = f"{group} vote {vote_text(stored.vote)} purged {id_text(stored.purged)}"
    entries = f"snapshot {snapshot_text(stored.snapshot)} log {entries_text(stored.log)}"
    return f"{member.id} {known} {kept} {entries}\n"


def world_text(world, sent_before):
    """What was sent since there were so many messages, and all nodes."""
    sent = map(message_text, world.messages[sent_before:])
    return "".join(sent) + "".join(map(member_text, world.members))


def sum_text(text):
    """The checksum of a text."""
    return f"{zlib.crc32(text.encode()):08x}"


# ---- events


def data_text(data):
    """The bytes of a command, or one byte and how often it stands."""
    if len(data) > 64 and len(set(data)) == 1:
        return f"{data[:1].hex()}*{len(data)}"
    return data.hex() or "-"


def change_text(change):
    """A change with the ids or nodes that it names."""
    if change.kind in CHANGES_OF_IDS:
        return f"{change.kind} {','.join(map(str, change.named))}"
    return f"{change.kind} {nodes_text(change.named)}"


def what_text(what):
    """What a call asks for."""
    if isinstance(what, Membership):
        return membership_text(what)
    if isinstance(what, Change):
        return change_text(what)
    if isinstance(what, Message):
        return message_text(what).strip()
    return data_text(what) if isinstance(what, bytes) else str(what)


def event_text(event):
    """An event on a line."""
    what = "" if event.what is None else f" {what_text(event.what)}"
    return f"{event.verb} {event.target} {event.now} {or_dash(event.stop)}{what}"


# ---- events that are read


def read_ids(text):
    """Ids with commas between them."""
    return tuple(int(word) for word in text.split(",") if word)


def read_nodes(text):
    """Nodes with their addresses."""
    parts = [word.partition("@") for word in text.split(",") if word]
    return tuple((int(node), address) for node, _, address in parts)


def read_membership(text):
    """Voter groups and nodes."""
    groups, _, nodes = text.partition(";")
    return Membership(tuple(read_ids(group) for group in groups.split("/")), read_nodes(nodes))


def read_change(kind, text):
    """A change of the membership."""
    return Change(kind, read_ids(text) if kind in CHANGES_OF_IDS else read_nodes(text))


def read_data(text):
    """The bytes of a command."""
    byte, _, count = text.partition("*")
    return bytes.fromhex(byte.strip("-")) * int(count or 1)


# ---- messages that are read


def read_vote(word):
    """A vote."""
    term, node = word.rstrip("+").split(".")
    return Vote(int(term), int(node), word.endswith("+"))


def read_id(word):
    """A log id, if there is one."""
    return None if word == "-" else Id(*map(int, word.split(".")))


def read_number(word):
    """The number of a request, if it has one."""
    return None if word == "-" else int(word)


def read_payload(word):
    """What an entry asks for."""
    if word == "blank":
        return Blank()
    return Members(read_membership(word)) if ";" in word else Command(bytes.fromhex(word))


def read_entries(words):
    """How many there are, then each in brackets."""
    count = int(next(words))
    return tuple(
        Entry(read_id(next(words)[1:]), read_payload(next(words)[:-1])) for _ in range(count)
    )


def read_snapshot(words):
    """A snapshot: its last log id, its last membership and its entries."""
    last, of_membership = read_id(next(words)), read_id(skip(words, 1))
    membership = None
    if of_membership is not None:
        membership = (of_membership, read_membership(next(words)))
    next(words)
    return Snapshot(last, membership, read_entries(words))


def skip(words, count):
    """The word behind so many."""
    for _ in range(count):
        next(words)
    return next(words)


def read_outcome(words):
    """What came of a request."""
    kind = next(words)
    if kind == "part":
        return PartialSuccess(read_id(next(words)))
    return HigherVote(read_vote(next(words))) if kind == "higher" else kind


def read_reply(reply, vote, words):
    """A reply: what the request was, and what came of it."""
    ids = (read_number(skip(words, 1)), read_id(skip(words, 1)), read_id(skip(words, 1)))
    return reply(vote, *ids, read_outcome(words))


def read_append(vote, words):
    """Entries behind a log id, and how far the sender has committed."""
    ids = (read_number(skip(words, 1)), read_id(skip(words, 1)), read_id(skip(words, 1)))
    next(words)
    return Append(vote, *ids, read_entries(words))


# How what a message says behind its kind and vote is read.
BODY_READERS = {
    "ask": lambda vote, words: VoteRequest(vote, read_id(skip(words, 1))),
    "grant": lambda vote, words: VoteReply(vote, True, read_id(skip(words, 1))),
    "deny": lambda vote, words: VoteReply(vote, False, read_id(skip(words, 1))),
    "append": read_append,
    "notice": read_append,
    "reply": lambda vote, words: read_reply(AppendReply, vote, words),
    "snapshot": lambda vote, words: Offer(vote, int(skip(words, 1)), read_snapshot(after(words))),
    "answer": lambda vote, words: read_reply(SnapshotReply, vote, words),
}


def after(words):
    """The words behind the next one."""
    next(words)
    return words


def read_message(*words):
    """The message on a line."""
    rest = iter(words)
    sender, _, addressee = next(rest).partition(">")
    kind, vote = next(rest), read_vote(next(rest))
    return Message(int(sender), int(addressee), BODY_READERS[kind](vote, rest))


# How what a call asks for is read.
READERS = {
    "setup": read_membership,
    "propose": read_data,
    "change": read_change,
    "lost": int,
    "purge": int,
    "receive": read_message,
}


def read_event(line):
    """The event on a line."""
    verb, target, now, stop, *rest = line.split()
    what = READERS[verb](*rest) if verb in READERS else None
    return Event(verb, int(target), int(now), None if stop == "-" else int(stop), what)
