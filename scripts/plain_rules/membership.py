"""Memberships, and what a change makes of them."""

from dataclasses import dataclass
from typing import Tuple

Group = Tuple[int, ...]
# A node with its address.
Node = Tuple[int, str]


def is_quorum(groups, ids):
    """Whether these are more than half of each voter group; with no group each set is."""
    return all(is_majority(group, ids) for group in groups)


def is_majority(group, ids):
    """Whether these are more than half of the group."""
    return sum(1 for voter in group if voter in ids) > len(group) // 2


# ---- a membership


@dataclass(frozen=True)
class Membership:
    """Voter groups, and all nodes with their addresses, by rising id."""

    groups: Tuple[Group, ...]
    nodes: Tuple[Node, ...]

    def is_voter(self, node):
        """Whether the node is in a voter group."""
        return any(node in group for group in self.groups)

    def member_ids(self):
        """The ids of all nodes, rising."""
        return ids_of(self.nodes)

    def voter_ids(self):
        """The voters, each once, by rising id."""
        return tuple(node for node in self.member_ids() if self.is_voter(node))

    def is_valid(self):
        """Whether no voter group is empty and each voter is a node."""
        nodes = self.member_ids()
        return all(group and all(voter in nodes for voter in group) for group in self.groups)

    def is_within_limits(self):
        """At most 8 voter groups of at most 64 voters, and 128 nodes with addresses of at most 255
        bytes."""
        return (
            len(self.groups) <= 8
            and all(len(group) <= 64 for group in self.groups)
            and len(self.nodes) <= 128
            and all(len(address.encode()) <= 255 for _, address in self.nodes)
        )

    def is_first_membership(self):
        """Whether the membership can be a group's first."""
        return self.is_valid() and self.is_within_limits() and len(self.groups) > 0


# ---- changes


def ids_of(nodes):
    """The ids of nodes."""
    return tuple(node for node, _ in nodes)


def put_node(nodes, node):
    """The nodes with this one, in place of the one with its id."""
    others = [other for other in nodes if other[0] != node[0]]
    return tuple(sorted(others + [node], key=lambda other: other[0]))


def with_nodes(nodes, news):
    """The nodes with these too, in place of those with their ids."""
    for node in news:
        nodes = put_node(nodes, node)
    return nodes


def with_new_nodes(nodes, news):
    """The nodes with those of these whose ids are new."""
    for node in news:
        if node[0] not in ids_of(nodes):
            nodes = put_node(nodes, node)
    return nodes


def without_nodes(nodes, ids):
    """The nodes but those with these ids."""
    return tuple(node for node in nodes if node[0] not in ids)


def last_group_without(old, ids):
    """The last voter group but these ids."""
    last = old.groups[-1] if old.groups else ()
    return tuple(voter for voter in last if voter not in ids)


def last_group_with(old, ids):
    """The last voter group with these ids too, each once, rising."""
    return tuple(sorted(last_group_without(old, ids) + tuple(ids)))


def groups_towards(old, goal):
    """One step towards the goal: alone where it is a voter group already, else beside the last
    one."""
    return (goal,) if goal in old.groups else old.groups[-1:] + (goal,)


def next_coherent(old, goal, nodes):
    """One step towards the goal, with these nodes; former voters stay nodes."""
    return Membership(groups_towards(old, goal), nodes)


def with_voters(old, news):
    """These nodes come in and become voters."""
    goal = last_group_with(old, ids_of(news))
    return next_coherent(old, goal, with_new_nodes(old.nodes, news))


# What each change makes of a membership, with the ids or nodes that it names.
CHANGES = {
    "add-voter-ids": lambda old, ids: next_coherent(old, last_group_with(old, ids), old.nodes),
    "add-voters": with_voters,
    "remove-voters": lambda old, ids: next_coherent(old, last_group_without(old, ids), old.nodes),
    "replace-voters": lambda old, ids: next_coherent(old, ids, old.nodes),
    "add-nodes": lambda old, news: Membership(old.groups, with_new_nodes(old.nodes, news)),
    "set-nodes": lambda old, news: Membership(old.groups, with_nodes(old.nodes, news)),
    "remove-nodes": lambda old, ids: Membership(old.groups, without_nodes(old.nodes, ids)),
    "replace-nodes": lambda old, news: Membership(old.groups, news),
}

# The changes that name ids; the others name nodes.
CHANGES_OF_IDS = ("add-voter-ids", "remove-voters", "replace-voters", "remove-nodes")


def after_change(old, change):
    """The membership that a change makes; whether it is valid is asked afterwards."""
    return CHANGES[change.kind](old, change.named)
