"""The smallest log in which a condition still comes true.

It comes true where it holds at some position of a range. First events are taken out, many at a time and then one by one. Then each byte
that is left gets the first of some simple values with which the condition comes true. Where more can be taken out after that, both are
done again. So the log is 1-minimal: without any one of its events the condition does not come true. That no log with fewer events does
it is not said. Events keep their steps.
"""
from __future__ import annotations

from concurrent.futures import Executor
from dataclasses import dataclass, replace
from typing import List, Optional, Sequence, Tuple, Union

from ..driver import Driver
from ..errors import STOPPED, Problem
from ..log import Event, Kind, changes
from . import pasts
from .conditions import ComesTrue, Condition
from .jobs import answers
from .pasts import Case, Past, kept, told

SIMPLE = b"0Aa \r"  # values from the simplest on
_TOGETHER = 256  # pasts that are made ready together


@dataclass
class Shrunk:
    """A log that was made smaller, and where the condition holds first in it. Where Ctrl-C came, it may be smaller still."""

    before: List[Event]
    log: List[Event]
    position: int
    tried: int = 0
    is_stopped: bool = False


def shrink(driver: Driver, condition: Condition, end: int, begin: int = 0, executor: Optional[Executor] = None) -> Shrunk:
    """The smallest log in which a condition holds at some position from one to another. Events before that range stay, and so does the
    driver's own log."""
    with kept(driver):
        position = pasts.answer(driver, ComesTrue(condition, begin, end))
        if position is None:
            raise Problem(f"that does not come true up to step {end:,}; `goto` goes to a position after it, or `at N` names one")
        found = Shrunk(list(driver.log), list(driver.log), position)
        try:
            search = _Search(driver, condition, range(begin, end + 1), executor, found)
            search.take([it for it in found.log if it.time < position], position)
            search.take_out(len(found.log) // 2)
            while search.simplify() and search.take_out(1):
                pass
        except STOPPED:
            found.is_stopped = True
    return found


@dataclass(frozen=True)
class _Without:
    """The events from a number on, up to another, are taken out."""

    index: int
    end: int

    def past(self, log: Sequence[Event]) -> Past:
        return pasts.without(log, self.index, self.end)

    def made(self, log: List[Event]) -> List[Event]:
        return log[:self.index] + log[self.end:]


@dataclass(frozen=True)
class _With:
    """An event gets a byte."""

    index: int
    byte: int

    def past(self, log: Sequence[Event]) -> Past:
        return pasts.with_byte(log, self.index, self.byte)

    def made(self, log: List[Event]) -> List[Event]:
        return [*log[:self.index], replace(log[self.index], byte=self.byte), *log[self.index + 1:]]


_Step = Union[_Without, _With]


class _Search:
    """The log as it is so far, in the driver too."""

    def __init__(self, driver: Driver, condition: Condition, positions: range, executor: Optional[Executor], found: Shrunk) -> None:
        self._driver = driver
        self._condition = condition
        self._positions = positions
        self._keep = sum(it.time < positions.start for it in found.log)  # so many events stay
        self._executor = executor
        self._found = found

    def take(self, log: List[Event], position: int) -> None:
        """Goes on with a log in which the condition holds first at a position."""
        self._driver.values(changes(self._driver.log, log))
        self._found.log, self._found.position = log, position

    def take_out(self, size: int) -> bool:
        """Takes events out, at first so many together, until none can be taken out alone. Whether there were some."""
        before = len(self._found.log)
        size = max(size, 1)
        while True:
            # From the last ones on: what is before them is not run again.
            is_some = self._go([_Without(max(end - size, self._keep), end) for end in range(len(self._found.log), self._keep, -size)])
            if size == 1 and not is_some:
                return len(self._found.log) < before
            size = max(size // 2, 1)

    def simplify(self) -> bool:
        """Gives each byte the simplest value that it can have. Whether one changed."""
        log = self._found.log
        return self._go([_With(index, byte) for index in reversed(range(self._keep, len(log))) for byte in _simpler(log[index])])

    def _go(self, steps: Sequence[_Step]) -> bool:
        """Takes each step with which the condition still comes true, and at most one for an event. Whether there were some. No step
        changes the numbers of the events of later ones."""
        is_some = False
        while steps:
            log, some = self._found.log, steps[:_TOGETHER]
            place, position = self._first([(it.past(log), self._asked(log[it.index].time)) for it in some])
            if position is None:
                steps = steps[len(some):]
                continue
            done = some[place]
            self.take(done.made(log), position)
            steps = [it for it in steps[place + 1:] if it.index != done.index]
            is_some = True
        return is_some

    def _asked(self, step: int) -> ComesTrue:
        """What is asked in a past that differs from a step on. Before that the condition does not hold, or as it does in this one."""
        begin = max(min(step, self._found.position), self._positions.start)
        return ComesTrue(self._condition, begin, self._positions.stop - 1)

    def _first(self, those: Sequence[Case]) -> Tuple[int, Optional[int]]:
        """The first of some pasts in which the condition comes true, and where."""
        got = answers(self._driver, those, self._executor)
        for place, position in enumerate(told(self._driver, got, before=self._found.tried)):
            self._found.tried += 1
            if position is not None:
                return place, position
        return len(those), None


def _simpler(event: Event) -> bytes:
    """The simple values before that of an event."""
    if event.kind == Kind.WIRE:
        return b""
    return SIMPLE.partition(bytes([event.byte]))[0]
