"""Snapshots, purges and openings."""

from plain_rules import stored as storing
from plain_rules.leading import purge_up_to
from plain_rules.state import Lead
from plain_rules.stored import Snapshot, last_membership
from plain_rules.values import later_place, next_place, place_of


# ---- snapshots


def snapshot_at(stored, log_id):
    """The snapshot of the list up to an entry in the log."""
    prefix = stored.held()[: log_id.place + 1]
    return Snapshot(log_id, last_membership(None, prefix), prefix)


def snapshot_due(state):
    """The log id up to which a snapshot is to be built: what is applied, unless the last one has
    it."""
    if state.applied is None or state.applied < next_place(state.stored.snapshot_last()):
        return None
    return state.stored.entry_id_at(state.applied)


def trigger_snapshot(step):
    """A snapshot of what is applied is built and stored."""
    log_id = snapshot_due(step.state)
    if log_id is not None:
        step.store(storing.set_snapshot, snapshot_at(step.stored, log_id))


def purge_as(step, place):
    """A leader keeps the greatest place as its wish, which is looked at before the event is
    over."""
    if not step.state.is_leader():
        purge_up_to(step, place)
    elif place >= step.stored.first_place():
        step.state.wish = later_place(step.state.wish, place)


def trigger_purge(step, place):
    """The log is purged, no further than the snapshot goes."""
    last = step.stored.snapshot_last()
    if last is not None:
        purge_as(step, min(place, last.place))


# ---- openings


def is_joined_to(stored, last):
    """The log has the snapshot's last entry, or has purged it."""
    return last.place < stored.first_place() or stored.has_id_in_log(last)


def resume_lead(step):
    """The node leads on under a committed vote of its own."""
    vote = step.stored.vote
    if vote.granted and vote.node == step.own:
        step.state.role = Lead(step.stored.end_place())


def open_group(step):
    """The node is opened: a log that doesn't belong to the snapshot is dropped, and what the
    snapshot has is committed and applied, and nothing else."""
    last = step.stored.snapshot_last()
    if last is not None and not is_joined_to(step.stored, last):
        step.store(storing.start_after, last)
    step.apply_up_to(place_of(last))
    resume_lead(step)
