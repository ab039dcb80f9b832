"""Where a run repeats itself over the ticks of its clock: after each second all is as before, but for Random and the clock's time.

That is exact, but for an alarm of the clock, which can't be seen before it comes. Two seconds are looked at. At the begin of each
and at the end the processor, the control registers, the translation entries and memory are the same; in both the same interrupts
come at the same steps, and what the steps see of the clock is the same. They see its flags alone, which the handler takes back, and
not its time. The flags of a period and of an update come in the same steps of each second, and are set and cleared in the same way
in each. So the third second is as the second one, and so is each one after it, as long as the log has no event.
"""
from __future__ import annotations

from typing import Optional

from . import search
from .driver import Driver
from .limits import GREATEST_POSITION
from .replies import Registers
from .standstill import BATCH, CAUSE, INTERRUPT, RANDOM, SECOND, VECTORS, Loop, control_of, entries_of, key_of
from .states import registers_at

MOST = 8192  # that the two seconds may take to be seen
FLAGS = 0x1FE8_0030  # register C of the clock


def period(driver: Driver) -> Optional[int]:
    """The steps of a second, if the run repeats itself from the position on, which stays."""
    start = driver.position
    second = SECOND * driver.boot().unit
    if start + 2 * second + BATCH > GREATEST_POSITION or driver.log and driver.log[-1].time >= start:
        return None
    try:
        return second if second > driver.boot().byte_time and _Seconds(driver, second).repeat() else None
    finally:
        driver.goto(start)


class _Seconds(Loop):
    """Two seconds of a run. What comes from outside of what is compared is noted: interrupts, and what loads give of the clock."""

    def __init__(self, driver: Driver, second: int) -> None:
        super().__init__(driver)
        self._second = second
        self._inputs: list[tuple[int, int]] = []

    def repeat(self) -> bool:
        begin, middle, end = (self._start + it * self._second for it in range(3))
        if not self._can_take(self._control["status"]) or not self._is_as_at_first(middle) or not self._is_as_at_first(end):
            return False
        return self._follow(middle) and self._follow(end) and self._same_inputs(middle)

    def _same_inputs(self, middle: int) -> bool:
        first = [(at, value) for at, value in self._inputs if at < middle]
        second = [(at - self._second, value) for at, value in self._inputs if at >= middle]
        return first == second

    def _is_as_at_first(self, position: int) -> bool:
        self._driver.goto(position)
        return self._driver.registers() == self._states[0] and control_of(self._driver) == self._control and (
            entries_of(self._driver, position) == entries_of(self._driver, self._start))

    def _follow(self, end: int) -> bool:
        """Looks at the steps up to a position, where memory is as at the first one."""
        while self._here < end:
            if self._cost > MOST:
                return False
            for after in self._ahead()[:end - self._here]:
                if not self._keeps(after):
                    return False
                self._states.append(after)
                if key_of(after) in self._known and self._here < end:
                    self._wait(end)
                    break
                self._known.add(key_of(after))
        return not self._changed and not self._unready

    def _wait(self, end: int) -> None:
        """Passes over the turns of a loop that changes nothing, up to the next interrupt."""
        self._ask_at(self._here)
        reached = search.next_visit(self._driver, VECTORS, end - self._here) or end
        # The interrupt's own step is looked at.
        count = max(reached - 1 - self._here, 0) if reached < end else end - self._here
        if count:
            self._passed += count - 1
            self._states += registers_at(self._driver, [self._here + 1])
        self._begin_anew()

    def _keeps(self, after: Registers) -> bool:
        exception = self._step().exception
        if exception is None:
            return super()._keeps(after)
        if exception == INTERRUPT:
            self._inputs.append((self._here, -1))
        return self._can_go_on()

    def _can_move(self, register: int) -> bool:
        if register == CAUSE:
            self._ask_at(self._here)
            self._inputs.append((self._here, self._driver.control()["cause"]))
        return register != RANDOM

    def _loads(self, word: int, place: int, after: Registers) -> bool:
        if place & ~3 != FLAGS:
            return super()._loads(word, place, after)
        self._begin_anew()
        self._inputs.append((self._here, after.load[1] if after.load else 0))
        return True

