"""A group is set up, and nodes stand for election."""

from plain_rules.membership import is_quorum
from plain_rules.messages import VoteReply, VoteRequest
from plain_rules.state import Candidate, Lead
from plain_rules.values import Blank, Id, Members, Vote, is_last_id_below

# How long a committed vote keeps others from being granted.
LEASE = 150


# ---- grants


def append_blank(step):
    """A blank entry, unless the leader has written one already."""
    leader = step.stored.vote.leader
    if not any(entry.id.leader == leader for entry in step.stored.log):
        step.append(Blank())


def begin_lead(step):
    """A quorum has granted the vote, so the lead begins."""
    step.store_vote(Vote(*step.stored.vote.leader, True))
    step.state.role = Lead(step.stored.end_place())
    append_blank(step)


def with_grant(step, node):
    """One more grant for a candidate, which leads once a quorum has granted."""
    if step.state.is_candidate():
        step.state.role.granters.add(node)
        if is_quorum(step.stored.groups_in_force(), step.state.role.granters):
            begin_lead(step)


# ---- a node stands


def other_voters(own, stored):
    """The other voters, by rising id."""
    membership = stored.membership_in_force()
    voters = () if membership is None else membership[1].voter_ids()
    return [node for node in voters if node != own]


def stand(step):
    """The node votes for itself in the next term, and asks the others."""
    others = other_voters(step.own, step.stored)
    step.step_down()
    step.store_vote(Vote(step.stored.vote.term + 1, step.own, False))
    step.state.role = Candidate()
    for node in others:
        step.send(node, VoteRequest(step.stored.vote, step.stored.last_id()))


def elect(step):
    """A leader gives up its lead first; the own grant counts at once."""
    stand(step)
    with_grant(step, step.own)


def initialize(step, membership):
    """The membership is the first entry, and the node stands for election."""
    step.put_one(Id(0, 0, 0), Members(membership))
    elect(step)


# ---- votes


def is_under_lease(state):
    """A leader was heard of not long ago."""
    if state.renewed is None or not state.stored.vote.granted:
        return False
    return state.now <= state.renewed + LEASE


def may_grant(state, request):
    """The lease has passed, and neither the candidate's log nor its vote is behind the own one."""
    return (
        not is_under_lease(state)
        and not is_last_id_below(request.last, state.stored.last_id())
        and not request.vote < state.stored.vote
    )


def vote_request(step, peer, request):
    """A candidate asks for the node's vote. The reply has the vote then in force and the own last
    log id."""
    granted = may_grant(step.state, request)
    if granted:
        step.take_over(request.vote)
    step.send(peer, VoteReply(step.stored.vote, granted, step.stored.last_id()))


def vote_reply(step, peer, reply):
    """A voter answers: a grant counts where its vote is the candidate's own."""
    if reply.granted and reply.vote == step.stored.vote:
        with_grant(step, peer)
    else:
        step.take_over_greater(reply.vote)
