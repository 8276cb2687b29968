"""What comes next in a random script. The lines are chosen by what the plain program of the rules
answered so far, so that elections, commits, snapshots, losses and crashes all come about."""

from plain_rules.chance import Chance
from plain_rules.scripts import PAST_FRAMES, SHORTEST_FRAME, Script

# How often each kind of line comes against the others.
WEIGHTS = {
    "in_turn": 600,
    "late": 70,
    "propose": 110,
    "elect": 6,
    "heartbeat": 25,
    "lost": 90,
    "snapshot": 40,
    "purge": 40,
    "addr": 12,
    "voters": 4,
    "crash": 14,
    "reopen": 50,
    "init": 4,
    "add": 4,
    "total": 40,
    "odd": 12,
}

# In a thousand lines so many are followed by a cleaning.
CLEANINGS = 30

# No more frames of a group than these wait for their turn: the others are lost.
MOST_WAITING = 30


class Chooser:
    """The choice of one line after the other, for one script."""

    def __init__(self, seed, nodes, groups, first=7):
        self.chance = Chance(seed)
        # Cleanings change no answer of another line, so they are chosen apart.
        self.cleaning = Chance(seed + 1000)
        self.script = Script()
        self.nodes = tuple(range(1, nodes + 1))
        self.numbers = tuple(range(first, first + groups))
        self.firsts = [f"nodes {nodes}"]
        self.firsts += [f"add {node} {group}" for group in self.numbers for node in self.nodes]
        self.now = 0
        # The next frame in its turn, by group.
        self.next = {group: 0 for group in self.numbers}

    # ---- the parts of lines

    def any_node(self):
        """One of the nodes."""
        return self.chance.one_of(self.nodes, 1)

    def any_group(self):
        """One of the groups."""
        return self.chance.one_of(self.numbers, self.numbers[0])

    def leader(self, group):
        """A node that leads the group, if there is one, and now and then any other one."""
        other = self.any_node()
        if self.chance.is_met(60):
            return other
        return self.chance.one_of(self.script.group(group).world.leaders(), other)

    def up_node(self):
        """A node that is up."""
        up = [node for node in self.nodes if node not in self.script.down]
        return self.chance.one_of(up, 1)

    # ---- kinds of lines

    def in_turn(self, group):
        """The next frame in its turn: those that have waited for long are lost. Where none waits, a
        leader takes a command, or a node stands for election."""
        count = len(self.script.group(group).world.messages)
        at = max(self.next[group], count - MOST_WAITING)
        if at < count:
            self.next[group] = at + 1
            return f"deliver {group} {at}{self.cut()}"
        leads = self.script.group(group).world.leaders()
        return self.propose(group) if leads else self.elect(group)

    def cut(self):
        """Where the frame is cut, if it is."""
        if self.chance.is_met(800):
            return ""
        if self.chance.is_met(50):
            return f" {self.chance.one_of((0, PAST_FRAMES), 0)}"
        return f" {1 + self.chance.below(SHORTEST_FRAME - 1)}"

    def late(self, group):
        """A frame that may have been delivered, most often a late one."""
        count = len(self.script.group(group).world.messages)
        back = self.chance.below(16 if self.chance.is_met(700) else count)
        return f"deliver {group} {max(0, count - 1 - back)}{self.cut()}"

    def propose(self, group):
        """A leader is to take a command."""
        amount = self.chance.next() if self.chance.is_met(900) else (1 << 64) - 1
        return f"propose {self.leader(group)} {group} {amount}"

    def elect(self, group):
        """A node stands for election, most often once no leader was heard of for long."""
        return f"elect {self.up_node()} {group}"

    def heartbeat(self, group):
        """A leader is to send heartbeats."""
        return f"heartbeat {self.leader(group)} {group}"

    def lost(self, group):
        """A leader's request is lost."""
        return f"lost {self.leader(group)} {group} {self.any_node()}"

    def some_node(self, group):
        """A node that leads, or any."""
        return self.leader(group) if self.chance.is_met(500) else self.any_node()

    def snapshot(self, group):
        """A node is to build a snapshot."""
        return f"snapshot {self.some_node(group)} {group}"

    def purge(self, group):
        """A node is to purge its log."""
        return f"purge {self.some_node(group)} {group} {self.chance.below(60)}"

    def addr(self, group):
        """A leader is to change an address."""
        words = ("here", "there", "else.where:1")
        address = words[self.chance.below(3)]
        return f"addr {self.leader(group)} {group} {1 + self.chance.below(len(self.nodes) + 2)} {address}"

    def voters(self, group):
        """A leader is to change the voters."""
        return f"voters {self.leader(group)} {group} {1 + self.chance.below(len(self.nodes) + 1)}"

    def crash(self, _):
        """A node stops."""
        return f"crash {self.up_node()} {('least', 'most')[self.chance.below(2)]}"

    def reopen(self, group):
        """A node that is down is opened. Where none is, mostly something else happens."""
        down = sorted(self.script.down)
        if not down and not self.chance.is_met(60):
            return self.in_turn(group)
        return f"reopen {self.chance.one_of(down, self.any_node())} {self.chance.below(4)}"

    def init(self, group):
        """The group is set up, mostly by all nodes. Group 8 has a learner that isn't there, and in group 9
        the last node learns."""
        if self.chance.is_met(100):
            return f"init {self.any_node()} {group} {self.any_node()}"
        voters, learners = self.nodes, ()
        if group % 3 == 2:
            learners = (len(self.nodes) + 1,)
        elif group % 3 == 0 and len(self.nodes) > 1:
            voters, learners = self.nodes[:-1], self.nodes[-1:]
        lists = [" ".join(map(str, it)) for it in (voters, learners) if it]
        return f"init {self.any_node()} {group} {' / '.join(lists)}"

    def add(self, group):
        """A node is to get a group, mostly one that it has."""
        return f"add {self.any_node()} {group + self.chance.below(2)}"

    def total(self, group):
        """The total is asked for."""
        return f"total {self.any_node()} {group}"

    def odd(self, group):
        """There is no such node, frame or group."""
        return self.chance.one_of(
            (
                f"elect 99 {group}",
                f"deliver {group} 1000000",
                f"propose {self.any_node()} 5 1",
                f"total 99 {group}",
                f"deliver 5 0",
                f"crash 99 least",
                f"reopen 99 1",
            ),
            "total 1 7",
        )

    # ---- the next line

    def kind(self):
        """A kind of line, by how often each comes against the others."""
        left = self.chance.below(sum(WEIGHTS.values()))
        for kind, weight in WEIGHTS.items():
            if left < weight:
                return kind
            left -= weight
        raise AssertionError("the weights are their sum")

    def wanted(self, group):
        """What is wanting for the group to go on."""
        if self.script.group(group).world.setup is None:
            return "init"
        if len(self.script.down) > len(self.nodes) // 2 and self.chance.is_met(300):
            return "reopen"
        return None

    def line(self):
        """The next line."""
        if self.firsts:
            return self.firsts.pop(0)
        group = self.any_group()
        world = self.script.group(group).world
        if not world.leaders() and world.setup is not None and self.chance.is_met(40):
            self.now += 200
            self.firsts = [self.elect(group)]
            return f"now {self.now}"
        return getattr(self, self.wanted(group) or self.kind())(group)

    def cleanings(self):
        """A node is cleaned now and then: one that is up or down, or that isn't there, or behind a fuse."""
        if self.firsts or not self.cleaning.is_met(CLEANINGS):
            return []
        node = 99 if self.cleaning.is_met(50) else self.cleaning.one_of(self.nodes, 1)
        fuse = f"fuse {1 + self.cleaning.below(6)} " if self.cleaning.is_met(200) else ""
        return [f"{fuse}clean {node}"]

    def choose(self):
        """The next line, which is answered too, and a cleaning behind it, if one comes."""
        line = self.line()
        self.script.answer(line)
        return [line, *self.cleanings()]


# The keys of random scripts, and their values.
KEYS = ("a", "b", "key", "clé")
VALUES = ("red", "green", "blue", "1", "v" * 199)


class KeysChooser(Chooser):
    """The same on nodes that keep values by keys."""

    def __init__(self, seed, nodes, groups, first=7):
        super().__init__(seed, nodes, groups, first)
        self.firsts[0] = f"kv {nodes}"

    def command(self, node, group):
        """A command of some key to the node."""
        key = self.chance.one_of(KEYS, "a")
        verb = ("put", "put", "get", "drop")[self.chance.below(4)]
        value = f" {self.chance.one_of(VALUES, 'red')}" if verb == "put" else ""
        return f"{verb} {node} {group} {key}{value}"

    def propose(self, group):
        """A leader is to take a command."""
        return self.command(self.leader(group), group)

    def total(self, group):
        """Any node is to take one: a map has no total."""
        return self.command(self.any_node(), group)

    def odd(self, group):
        """There is no such node, frame or group."""
        verb, *words = super().odd(group).split(" ")
        if verb in ("propose", "total"):
            return self.command(*words[:2])
        return " ".join([verb, *words])
