"""How long checks may still be begun, so that no run is lost to the clock.

.ci/run notes its start, in seconds, in GATE_BEGAN. Without it nothing is cut.
"""
import os
import threading
import time

# Minutes behind the start: no round begins later, no check that may end later; and when the last is ended.
LAST_ROUND, LAST_CHECK, END = 140, 165, 172
# What a check takes by the clock where all processors are at work, and for each function, in seconds.
CHECK, FUNCTION = 30, 12


class Clock:
    """The time since a run began, and what its checks took."""

    def __init__(self, began=None, now=time.time):
        self.began, self.now = began, now
        self._slowness, self._noting = 1.0, threading.Lock()

    def minutes(self):
        return (self.now() - self.began) / 60 if self.began is not None else 0.0

    def is_past(self):
        """Returns whether no round may begin any more."""
        return self.minutes() >= LAST_ROUND

    def is_over(self):
        """Returns whether a check that runs was ended."""
        return self.minutes() >= END

    def has_room(self, functions):
        """Returns whether a check of so many functions can be expected to end in time. The slowest
        check so far tells how slow the machine is."""
        return self.minutes() + self._slowness * _expected(functions) / 60 <= LAST_CHECK

    def took(self, functions, seconds):
        with self._noting:
            self._slowness = max(self._slowness, seconds / _expected(functions))

    def left(self):
        """Returns the seconds that a check may run at most, or None."""
        return max(1.0, (END - self.minutes()) * 60) if self.began is not None else None


def _expected(functions):
    return CHECK + FUNCTION * functions


def of_run():
    """Returns the clock of the run that this is part of."""
    began = os.environ.get("GATE_BEGAN", "")
    return Clock(float(began)) if began else Clock()
