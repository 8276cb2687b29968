"""When an event is refused. The reasons are tried in a fixed order."""

from plain_rules import membership as members
from plain_rules.messages import Append, HigherVote, Offer, PartialSuccess, Reply
from plain_rules.messages import VoteReply, VoteRequest
from plain_rules.values import NO_VOTE, Members, is_within, next_place

# Terms, places, moments and request numbers are below this.
NUMBER_LIMIT = 1 << 62

# A command has at most so many bytes.
COMMAND_LIMIT = 65_536

BREAKS_CONDITION = "breaks-condition"
COMMAND_TOO_LONG = "command-too-long"
GROUP_EXISTS = "group-exists"
IN_PROGRESS = "in-progress"
MEMBERSHIP_REFUSED = "membership-refused"
NOT_ALLOWED = "not-allowed"
NOT_VOTER = "not-voter"
NUMBER_AT_END = "number-at-end"
UNKNOWN_GROUP = "unknown-group"
VOTER_CHANGE = "voter-change"
WRONG_PARTY = "wrong-party"


def not_leader(vote):
    """The node doesn't lead; the node of a committed vote is known to."""
    return f"not-leader {vote.node if vote.granted else '-'}"


def first_of(*reasons):
    """The first reason whose test fails."""
    for test, why in reasons:
        if not test:
            return why
    return None


# ---- the state


def are_low(state, *numbers):
    """The numbers are low, and those of a leader's next requests."""
    lead = state.lead()
    peers = () if lead is None else lead.peers.values()
    all_numbers = list(numbers) + [peer.next_number for peer in peers]
    return all(number < NUMBER_LIMIT for number in all_numbers)


def is_voter_in_force(stored, own):
    """The node is a voter of the membership in force."""
    membership = stored.membership_in_force()
    return membership is not None and membership[1].is_voter(own)


def is_new(stored):
    """The group has neither a vote nor entries yet."""
    return stored.vote == NO_VOTE and stored.end_place() == 0 and stored.snapshot is None


def is_settled_membership(state):
    """The last membership is committed."""
    membership = state.stored.membership_in_force()
    return membership is not None and is_within(membership[0].place, state.committed)


def reasons_against_change(state, change):
    """What the changed membership has to be, with the reasons where it isn't."""
    in_force = state.stored.membership_in_force()
    if in_force is None:
        return []
    old = in_force[1]
    new = members.after_change(old, change)
    return [
        (new.is_valid() and new.is_within_limits(), MEMBERSHIP_REFUSED),
        (old.groups == new.groups, VOTER_CHANGE),
    ]


# ---- the numbers of messages


def is_low(number):
    """There is no number, or it is low."""
    return number is None or number < NUMBER_LIMIT


def is_id_low(log_id):
    """There is no log id, or its term and place are low."""
    return log_id is None or (is_low(log_id.term) and is_low(log_id.place))


def is_outcome_low(outcome):
    """The vote or log id in an outcome is low, if there is one."""
    if isinstance(outcome, PartialSuccess):
        return is_id_low(outcome.last)
    return not isinstance(outcome, HigherVote) or is_low(outcome.vote.term)


def are_own_numbers_low(body):
    """What a message says besides its vote has low terms, places and request numbers."""
    if isinstance(body, (VoteRequest, VoteReply)):
        return is_id_low(body.last)
    if isinstance(body, Append):
        ids = [body.previous, body.committed] + [entry.id for entry in body.entries]
        return is_low(body.number) and all(map(is_id_low, ids))
    if isinstance(body, Reply):
        ids = [body.previous, body.last]
        return is_low(body.number) and all(map(is_id_low, ids)) and is_outcome_low(body.outcome)
    snapshot = body.snapshot
    of_membership = None if snapshot.membership is None else snapshot.membership[0]
    return is_low(body.number) and is_id_low(snapshot.last) and is_id_low(of_membership)


def are_numbers_low(state, body):
    """The numbers of a message are low, and the place of the blank that a candidate may write."""
    is_next_blank_low = not state.is_candidate() or is_low(state.stored.end_place())
    return is_low(body.vote.term) and are_own_numbers_low(body) and is_next_blank_low


# ---- the conditions of messages


def is_foreign(own, mine, vote):
    """A greater vote never has the own id, since a node stores each vote of its own before it sends
    it."""
    return not (vote.node == own and mine < vote)


def do_follow(vote, previous, entries):
    """Each entry follows the one before: its leader is none lower, and none is above the vote's."""
    last = previous
    for entry in entries:
        is_risen = last is None or entry.id.leader >= last.leader
        if entry.id.place != next_place(last) or not is_risen or entry.id.leader > vote.leader:
            return False
        last = entry.id
    return True


def keep_voters(known, entries):
    """All memberships among the entries have the known voter groups, or else those of the first
    one."""
    payloads = [entry.payload for entry in entries if isinstance(entry.payload, Members)]
    memberships = ([] if known is None else [known]) + [payload.membership for payload in payloads]
    return all(membership.groups == memberships[0].groups for membership in memberships)


def known_membership(stored):
    """The membership in force, if there is one."""
    membership = stored.membership_in_force()
    return None if membership is None else membership[1]


def has_known_snapshot(stored, offer):
    """The snapshot's voter groups are the known ones, where some are known."""
    membership, known = offer.snapshot.membership, known_membership(stored)
    return membership is None or known is None or known.groups == membership[1].groups


def is_of_leader(peer, vote):
    """A request's vote is committed, and its node is the sender."""
    return vote.granted and vote.node == peer


def is_sound(own, stored, message):
    """The message keeps the conditions under which nodes send one."""
    peer, body = message.sender, message.body
    if isinstance(body, VoteRequest):
        return not body.vote.granted and body.vote.node == peer
    if isinstance(body, VoteReply):
        return is_foreign(own, stored.vote, body.vote)
    if isinstance(body, Append):
        follows = do_follow(body.vote, body.previous, body.entries)
        keeps = keep_voters(known_membership(stored), body.entries)
        return is_of_leader(peer, body.vote) and follows and keeps
    if isinstance(body, Offer):
        return is_of_leader(peer, body.vote) and has_known_snapshot(stored, body)
    votes = [body.vote] + ([body.outcome.vote] if isinstance(body.outcome, HigherVote) else [])
    return all(is_foreign(own, stored.vote, vote) for vote in votes)


# ---- the reasons of each event, in their order


def refusal_of_setup(own, state, now, membership):
    """Why a node doesn't set up the group."""
    return first_of(
        (membership.is_first_membership(), MEMBERSHIP_REFUSED),
        (are_low(state, now, state.stored.vote.term + 1), NUMBER_AT_END),
        (membership.is_voter(own), NOT_VOTER),
        (is_new(state.stored), NOT_ALLOWED),
    )


def refusal_of_elect(own, state, now):
    """Why a node doesn't stand for election."""
    numbers = (now, state.stored.vote.term + 1, state.stored.end_place())
    return first_of(
        (are_low(state, *numbers), NUMBER_AT_END),
        (is_voter_in_force(state.stored, own), NOT_VOTER),
    )


def refusal_of_propose(state, now, data):
    """Why a node doesn't take a command."""
    return first_of(
        (len(data) <= COMMAND_LIMIT, COMMAND_TOO_LONG),
        (are_low(state, now, state.stored.end_place()), NUMBER_AT_END),
        (state.is_leader(), not_leader(state.stored.vote)),
    )


def refusal_of_change(state, now, change):
    """Why a node doesn't take a change of the membership."""
    return first_of(
        (are_low(state, now, state.stored.end_place()), NUMBER_AT_END),
        (state.is_leader(), not_leader(state.stored.vote)),
        (is_settled_membership(state), IN_PROGRESS),
        *reasons_against_change(state, change),
    )


def refusal_of_call(own, state, event):
    """Why a node refuses a call."""
    if not state.stored.present:
        return UNKNOWN_GROUP
    if event.verb == "setup":
        return refusal_of_setup(own, state, event.now, event.what)
    if event.verb == "elect":
        return refusal_of_elect(own, state, event.now)
    if event.verb == "propose":
        return refusal_of_propose(state, event.now, event.what)
    if event.verb == "change":
        return refusal_of_change(state, event.now, event.what)
    reasons = [(are_low(state, event.now), NUMBER_AT_END)]
    if event.verb in ("beat", "lost"):
        reasons.append((state.is_leader(), not_leader(state.stored.vote)))
    return first_of(*reasons)


def refusal_of_message(own, state, now, message):
    """Why a node refuses a message."""
    return first_of(
        (message.sender != own and message.addressee == own, WRONG_PARTY),
        (state.stored.present, UNKNOWN_GROUP),
        (are_low(state, now) and are_numbers_low(state, message.body), NUMBER_AT_END),
        (is_sound(own, state.stored, message), BREAKS_CONDITION),
    )
