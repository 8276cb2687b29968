"""What a leader does: it takes commands and changes, hears replies, commits, and sends at the end
of an event."""

from dataclasses import replace

from plain_rules import stored as storing
from plain_rules.membership import after_change, is_quorum
from plain_rules.messages import CONFLICT, SUCCESS, Append, HigherVote, Offer, PartialSuccess
from plain_rules.messages import last_sent
from plain_rules.state import Outstanding
from plain_rules.values import Command, Members, is_within, next_place, place_of

# At most so many entries go in one request.
ENTRIES_IN_REQUEST = 64


def propose(step, data):
    """A leader takes a command."""
    step.append(Command(data))


def change_membership(step, change):
    """A leader takes a change of the membership."""
    old = step.stored.membership_in_force()
    if old is not None:
        step.append(Members(after_change(old[1], change)))


# ---- replies and losses


def lost(step, node):
    """The outstanding request to a peer counts as failed."""
    lead = step.state.lead()
    if lead is not None and lead.peer_of(node).outstanding is not None:
        lead.peers[node] = lead.peer_of(node).ended()


def search_after(peer, previous):
    """Where the search goes on after a conflict: at the previous place, if that is above what is
    matched."""
    if previous is not None and peer.next() <= previous.place:
        return previous.place
    return peer.search


def accepted_up_to(peer, last):
    """The peer has accepted all up to the log id."""
    return replace(peer, matched=last, search=max(peer.search, next_place(last)))


def is_part_of(peer, reply, last):
    """The log id stands neither below what the peer has accepted nor behind the request."""
    return peer.next() <= next_place(last) <= next_place(reply.last)


def after_answer(peer, reply):
    """The peer after the answer to its outstanding request. A partial success counts up to the log
    id that it names."""
    peer = peer.ended()
    if reply.outcome == SUCCESS:
        return accepted_up_to(peer, reply.last)
    if isinstance(reply.outcome, PartialSuccess) and is_part_of(peer, reply, reply.outcome.last):
        return accepted_up_to(peer, reply.outcome.last)
    if reply.outcome == CONFLICT:
        return replace(peer, search=search_after(peer, reply.previous))
    return peer


def reply(step, node, answer):
    """A peer answers a request. A greater vote is taken over, whatever it answers; an answer counts
    under the own vote alone."""
    if isinstance(answer.outcome, HigherVote):
        step.take_over_greater(answer.outcome.vote)
    lead = step.state.lead()
    if lead is None or answer.vote != step.stored.vote:
        return
    peer = lead.peer_of(node)
    if peer.is_answered_by(answer):
        lead.peers[node] = after_answer(peer, answer)


# ---- commits and purges


def accepted_by(own, stored, lead, place):
    """Those that have accepted the leader's entries up to the place. What the leader stored counts
    at once."""
    ids = {own} if place < stored.end_place() else set()
    for peer in lead.peers.values():
        if peer.id != own and is_within(place, place_of(peer.matched)):
            ids.add(peer.id)
    return ids


def place_to_commit(own, stored, lead):
    """The place of the last entry of the leader's own up to which a quorum has accepted all."""
    groups = stored.groups_in_force()
    own_places = [entry.id.place for entry in stored.log if entry.id.leader == stored.vote.leader]
    last = None
    for place in own_places:
        if is_quorum(groups, accepted_by(own, stored, lead, place)):
            last = place
    return last


def commit_as_leader(step):
    """A leader commits and applies the greatest place that it may."""
    if step.state.is_leader():
        step.apply_up_to(place_to_commit(step.own, step.stored, step.state.lead()))


def purge_up_to(step, place):
    """The log is removed up to this place, where it has an entry there."""
    log_id = step.stored.entry_id_at(place)
    if log_id is not None:
        step.store(storing.remove_up_to, log_id)


def purge_as_wished(step):
    """A leader purges as it wishes, once no outstanding request needs what goes."""
    lead, wish = step.state.lead(), step.state.wish
    if lead is None or wish is None or lead.is_kept_for_peers(wish):
        return
    step.state.wish = None
    purge_up_to(step, wish)


# ---- what is sent


def committed_id(state):
    """The log id of what is committed."""
    return None if state.committed is None else state.stored.id_at(state.committed)


def send_notice(step, peer):
    """A message without entries that says what is committed."""
    step.send(peer.id, Append(step.stored.vote, None, peer.matched, committed_id(step.state), ()))


def lacks_entries(stored, peer):
    """The peer has not accepted all entries."""
    return peer.next() < stored.end_place()


def request_start(stored, peer):
    """Where a request begins: halfway to where the search stands, by eights, and above the purge
    point."""
    half = max(0, peer.search - peer.next()) // 16 * 8
    return max(stored.first_place(), peer.next() + half)


def entries_for(state, peer):
    """The request to a peer, with so many entries from its start on."""
    stored = state.stored
    start = request_start(stored, peer)
    entries = stored.log[start - stored.first_place() :][:ENTRIES_IN_REQUEST]
    previous = stored.id_before(start)
    return Append(stored.vote, peer.next_number, previous, committed_id(state), entries)


def waiting(peer, previous, last, has_snapshot):
    """The peer waits for the answer to this request."""
    request = Outstanding(peer.next_number, previous, last, has_snapshot)
    return replace(peer, next_number=peer.next_number + 1, outstanding=request)


def send_request(step, lead, peer):
    """Entries are sent, or the snapshot where the search stands below the log."""
    snapshot = step.stored.snapshot
    if snapshot is not None and peer.search < step.stored.first_place():
        step.send(peer.id, Offer(step.stored.vote, peer.next_number, snapshot))
        lead.peers[peer.id] = waiting(peer, None, snapshot.last, True)
        return
    request = entries_for(step.state, peer)
    step.send(peer.id, request)
    last = last_sent(request.previous, request.entries)
    lead.peers[peer.id] = waiting(peer, request.previous, last, False)


def other_ids(own, stored):
    """All nodes of the membership in force but this one, by rising id."""
    membership = stored.membership_in_force()
    nodes = () if membership is None else membership[1].member_ids()
    return [node for node in nodes if node != own]


def serve(step, lead, peer, has_news):
    """A request if none is outstanding and the peer lacks entries, else a notice if there is
    news."""
    if peer.outstanding is None and lacks_entries(step.stored, peer):
        send_request(step, lead, peer)
    elif has_news:
        send_notice(step, peer)


def with_frames(step, before):
    """What a leader sends when the event is over; before: what was committed as it began."""
    lead = step.state.lead()
    if lead is None:
        return
    has_news = next_of(before) < next_of(step.state.committed)
    for node in other_ids(step.own, step.stored):
        serve(step, lead, lead.peer_of(node), has_news)


def next_of(place):
    """The place after this one, 0 where there is none."""
    return 0 if place is None else place + 1


def heartbeat(step):
    """A leader says to every other node that it leads on."""
    lead = step.state.lead()
    if lead is None:
        return
    for node in other_ids(step.own, step.stored):
        send_notice(step, lead.peer_of(node))
