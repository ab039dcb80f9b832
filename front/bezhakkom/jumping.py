"""The steps from a position on that transfer control, asked for as they are wanted."""
from __future__ import annotations

from .driver import Driver
from .jumps import Jump
from .limits import GREATEST_POSITION, JUMPS, VISIT_STEPS
from .standstill import Standstill, standstill

_PIECE = VISIT_STEPS  # steps after which the walk checks whether the machine is stuck


class Jumps:
    """A walk over the steps from `first` to `end` that transfer control, at most `most` of them. Taken branches and `j` count only if
    `local` is set. The driver stays at its position.

    A walk up to the last position also ends when the machine is stuck, and after `idle` steps without a transfer, if `idle` is not 0 and
    the log has no more events. `ended` is then the reason.
    """

    def __init__(self, driver: Driver, first: int, local: bool, end: int, most: int, idle: int) -> None:
        self.ended = ""
        self._driver = driver
        self._at = self._looked = self._last = first
        self._local = bool(local)
        self._end = end
        self._most = most
        self._idle = idle

    @property
    def is_over(self) -> bool:
        return bool(self.ended) or not self._most or self._at >= self._end

    def more(self) -> list[Jump]:
        """The next ones, some or none: `is_over` says whether there are more."""
        found, reached = self._driver.jumps(self._at, self._local, min(self._most, JUMPS))
        found = [it for it in found if it.step < self._end]
        self._at, self._most = min(reached, self._end), self._most - len(found)
        self._last = found[-1].step if found else self._last
        if self._end == GREATEST_POSITION and self._at - self._looked >= _PIECE:
            self._looked = self._at
            self.ended = self._reason()
        self._driver.tell(self._at)
        return found

    def _reason(self) -> str:
        """Why there are no more, if it is known."""
        driver, here = self._driver, self._driver.position
        try:
            driver.goto(self._at)
            still = standstill(driver)
        finally:
            driver.goto(here)
        if still and still.kind is not Standstill.ALARM:
            return f"at step {self._at:,} the program {still.kind.value}"
        last = max(self._last, driver.log[-1].time if driver.log else 0)
        if self._idle and self._at - last > self._idle:
            return f"none of the last {self._idle:,} steps transfers control, and the log has no more events"
        return ""
