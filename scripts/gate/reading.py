"""Reads the texts that edits make, and proves nothing.

An edit that can't be read says nothing of a contract, and the gate refuses it. To read a round over
built libraries takes seconds, and over their sources a minute; so it is for whoever changed what
edits turn.
"""
from rounds import Tries, check

NOTHING = [""]


def check_as_text(crate, texts, only, seconds=None):
    """Reads a copy of the crate that has these texts in place of its own."""
    is_built = all(it.is_built() for it in crate.below())
    return check(crate, texts, NOTHING, as_source=not is_built)


class Reading(Tries):
    """The edits of one crate, and which of them can't be read."""

    def __init__(self, crate, edits, reach):
        super().__init__(crate, edits, check_as_text, reach)
        self.read = []

    def judge(self, edits, ran):
        """Notes edits that were read."""
        self.read += edits
