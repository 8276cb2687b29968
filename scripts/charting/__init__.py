"""A run as a picture: `reading` reads a script and its answers, `groups` says which frame is which group's,
`places` where everything stands, `picture` draws it by `pieces`, and `overlaps` looks at what was drawn."""

from charting.groups import by_numbers, by_plain_rules
from charting.picture import Picture
from charting.reading import Unreadable, read_run


def drawn(script, answers, names=("the script", "the answers"), has_kinds=True):
    """The picture of a run, and why the run ended if a line was no event. Both texts are bytes; the names are
    what errors call them."""
    run = read_run(script, answers, names)
    (by_plain_rules if has_kinds else by_numbers)(run)
    run.connect()
    return Picture(run).svg(), run.end


__all__ = ["Unreadable", "drawn"]
