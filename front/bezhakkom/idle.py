"""Runs that do nothing for long: nothing is sent, and the log has no more events. Whether more comes can't be known."""
from __future__ import annotations

from .driver import Driver
from .output import counts

# After this many such steps a run without an end pauses, where nobody asked for another number: two seconds of the real machine.
IDLE_STEPS = 50_000_000


class Idleness:
    """Steps in which a run does nothing, up to the most that it may do. 0 is no bound."""

    def __init__(self, driver: Driver, most: int) -> None:
        self._driver = driver
        self._most = most
        self._since = self._last(driver.position)
        self._sent = counts(driver, driver.position)

    def piece(self, end: int) -> int:
        """Where a piece of the run ends that was to end at a position."""
        return min(end, self._since + self._most) if self._most else end

    def is_over(self) -> bool:
        """Whether at the position, where a piece has ended, the run has done nothing for too long."""
        here = self._driver.position
        sent = counts(self._driver, here)
        if sent != self._sent:
            self._since, self._sent = self._last(here), sent
        return bool(self._most) and here >= self._since + self._most

    def _last(self, position: int) -> int:
        """From where on nothing is known to be done, seen from a position."""
        log = self._driver.log
        return max(position, log[-1].time + 1 if log else 0)
