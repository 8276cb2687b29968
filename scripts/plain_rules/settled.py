"""What a group has agreed on."""

from plain_rules.membership import is_quorum
from plain_rules.messages import SUCCESS, Reply
from plain_rules.values import is_within, later_place


def place_under(vote, log_id):
    """The place of the log id, where it is of the vote's leader."""
    return log_id.place if log_id is not None and log_id.leader == vote.leader else None


def place_replied(world, vote, node):
    """The greatest place of an entry of the vote's leader that the node accepted by a reply."""
    last = None
    for message in world.messages:
        body = message.body
        if message.sender != node or not isinstance(body, Reply) or body.vote != vote:
            continue
        if body.outcome == SUCCESS:
            last = later_place(last, place_under(vote, body.last))
    return last


def place_led(world, vote, node):
    """The greatest place of an entry of the vote's leader that the node had as it led."""
    last = None
    for led in world.led:
        if led.node == node and led.vote == vote:
            for entry in led.list:
                last = later_place(last, place_under(vote, entry.id))
    return last


def all_accepted(world, vote):
    """Each node, and the greatest place of an entry of the vote's leader that it has accepted under
    that vote."""
    accepted = {}
    for member in world.members:
        replied = place_replied(world, vote, member.id)
        accepted[member.id] = later_place(replied, place_led(world, vote, member.id))
    return accepted


def count_settled(world, led, accepted):
    """How many entries of the leader's list are settled: those up to its last one that a quorum
    accepted under its vote."""
    groups = () if world.setup is None else world.setup.groups
    found = 0
    for count, entry in enumerate(led.list, 1):
        if entry.id.leader == led.vote.leader:
            place = entry.id.place
            if is_quorum(groups, [node for node in accepted if is_within(place, accepted[node])]):
                found = count
    return found


def list_of(world):
    """The list of the group: the longest that is settled."""
    accepted = {led.vote: None for led in world.led}
    for vote in accepted:
        accepted[vote] = all_accepted(world, vote)
    longest = ()
    for led in world.led:
        settled = led.list[: count_settled(world, led, accepted[led.vote])]
        if len(longest) < len(settled):
            longest = settled
    return longest
