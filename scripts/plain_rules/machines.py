"""The machines of scripts: what a command makes of a state, and how its answer is printed."""

from plain_rules.values import Command

BASE = 1 << 64

# A map has so many keys at most. The most bytes of a key and of a value.
MOST_KEYS = 4096
LONGEST_KEY = 255
LONGEST_VALUE = 199

# What is printed where there is no value, and where a map had no room.
NONE = "-"
FULL = None


class Adding:
    """Commands of 8 bytes are added up."""

    first = 0
    verbs = ("propose", "total")

    @staticmethod
    def command(amount):
        """The command that adds the amount."""
        return int(amount).to_bytes(8, "big")

    @staticmethod
    def step(total, data):
        """The total behind a command, and the answer as it is printed."""
        if len(data) != 8:
            return total, NONE
        total = (total + int.from_bytes(data, "big")) % BASE
        return total, str(total)


class Refused(Exception):
    """Bytes are no command."""


def filled(data, limit):
    """A text behind its length in four bytes, and what is behind it."""
    size = int.from_bytes(data[:4], "big")
    text, rest = data[4 : 4 + size], data[4 + size :]
    if len(data) < 4 or not 1 <= size <= limit or len(text) < size:
        raise Refused
    return text, rest


def kv_read(data):
    """The tag, the key and the value of a command; a get and a drop have no value."""
    tag, rest = data[:1], data[1:]
    key, rest = filled(rest, LONGEST_KEY)
    value = None
    if tag == b"\1":
        value, rest = filled(rest, LONGEST_VALUE)
    if tag not in (b"\1", b"\2", b"\3") or rest:
        raise Refused
    return tag, key, value


def shown(value):
    """A value as it is printed."""
    if value is None:
        return NONE
    try:
        return value.decode("utf-8")
    except UnicodeDecodeError:
        return "?"


class Keys:
    """Values by keys: a map is a tuple of pairs."""

    first = ()
    verbs = ("put", "get", "drop")

    @staticmethod
    def command(verb, *words):
        """The command of a line: a tag, and the words behind their lengths."""
        parts = [bytes([1 + Keys.verbs.index(verb)])]
        for word in words:
            data = word.encode("utf-8")
            parts += [len(data).to_bytes(4, "big"), data]
        return b"".join(parts)

    @staticmethod
    def step(pairs, data):
        """The pairs behind a command, and the answer as it is printed."""
        try:
            tag, key, value = kv_read(data)
        except Refused:
            return pairs, NONE
        held = dict(pairs)
        if tag == b"\1" and key not in held and len(held) >= MOST_KEYS:
            return pairs, FULL
        before = held.get(key)
        if tag == b"\1":
            held[key] = value
        elif tag == b"\3":
            held.pop(key, None)
        return tuple(held.items()), shown(before)


def run(machine, entries):
    """The machine's state behind these entries, and the answer to the last one as it is printed."""
    state, said = machine.first, NONE
    for entry in entries:
        said = NONE
        if isinstance(entry.payload, Command):
            state, said = machine.step(state, entry.payload.data)
    return state, said
