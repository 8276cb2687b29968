"""What a leader sends comes to another node."""

from plain_rules import stored as storing
from plain_rules.messages import CONFLICT, SUCCESS, last_sent
from plain_rules.messages import AppendReply, HigherVote, SnapshotReply
from plain_rules.values import is_within, lesser_place, place_of


# ---- entries


def is_held(state, log_id):
    """The log has the entries up to this log id: there is none, it is committed, or in the log."""
    if log_id is None or is_within(log_id.place, state.committed):
        return True
    return state.stored.has_id_in_log(log_id)


def missing_entries(state, entries):
    """The entries above the committed place from the first one on that the log doesn't have."""
    above = [entry for entry in entries if not is_within(entry.id.place, state.committed)]
    count = 0
    while count < len(above) and state.stored.has_id_in_log(above[count].id):
        count += 1
    return above[count:]


def cut_from(step, place):
    """The log is shortened from the place on, where it has an entry there."""
    if step.stored.entry_at(place) is not None:
        step.store(storing.cut_from, place)


def join(step, request):
    """The entries follow what the log has. What isn't there is appended, after the log was
    shortened where another entry stands."""
    fresh = missing_entries(step.state, request.entries)
    if fresh:
        cut_from(step, fresh[0].id.place)
        step.store(storing.put_entries, fresh[0].id.place, fresh)
    last = last_sent(request.previous, request.entries)
    step.apply_up_to(lesser_place(place_of(request.committed), place_of(last)))


def judge(step, request):
    """The entries follow what the log has, or they don't."""
    if is_held(step.state, request.previous):
        join(step, request)
        return SUCCESS
    cut_from(step, request.previous.place)
    return CONFLICT


def append_request(step, peer, request):
    """A leader sends entries, or says what is committed. A request under a vote below the own one
    is answered by the own one."""
    mine = step.stored.vote
    if request.vote < mine:
        outcome = HigherVote(mine)
    else:
        step.take_over(request.vote)
        outcome = judge(step, request)
    last = last_sent(request.previous, request.entries)
    step.send(peer, AppendReply(request.vote, request.number, request.previous, last, outcome))


# ---- snapshots


def cut_other(step, last):
    """Where another entry stands at the snapshot's place, what isn't committed goes."""
    if step.stored.has_id_in_log(last) or step.stored.entry_at(last.place) is None:
        return
    cut_from(step, 0 if step.state.committed is None else step.state.committed + 1)


def install(step, snapshot):
    """The snapshot is stored first, and the log that it covers goes after it."""
    cut_other(step, snapshot.last)
    step.store(storing.set_snapshot, snapshot)
    step.store(storing.remove_up_to, snapshot.last)
    step.apply_up_to(snapshot.last.place)


def snapshot_request(step, peer, offer):
    """A leader sends its snapshot. A request under a vote below the own one is answered by the own
    one."""
    mine = step.stored.vote
    if offer.vote < mine:
        outcome = HigherVote(mine)
    else:
        outcome = SUCCESS
        step.take_over(offer.vote)
        if not is_within(offer.snapshot.last.place, step.state.committed):
            install(step, offer.snapshot)
    step.send(peer, SnapshotReply(offer.vote, offer.number, None, offer.snapshot.last, outcome))
