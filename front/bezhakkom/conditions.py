"""Breakpoints with conditions: where the run comes to an address and an expression holds there. They leave the driver at the
position that it had.

Visits are asked for many together, each with what the condition read at the last one. So a visit that does not stop costs
little more than its answers. What the condition reads besides is asked for all of them in another turn.
"""
from __future__ import annotations

from contextlib import contextmanager
from dataclasses import dataclass, field
from typing import Collection, Iterator, Mapping, Optional, Sequence

from . import agent, replies, search
from .agent import Known, Unknown
from .driver import Driver
from .limits import GREATEST_POSITION, RESET_PC, VISIT_STEPS

BATCH = 64  # visits that are asked for together, at most
SPARE = 16  # a visit is looked for this many times as far on as visits were apart
STEPS = VISIT_STEPS  # that a batch may run in vain
FIRST_WINDOW = 1024  # steps that are looked at first; then twice as many, and so on

# The expressions of addresses; a breakpoint without one is a plain one. One that holds is enough.
Conditions = Mapping[int, Sequence[bytes]]


def next_hit(driver: Driver, breakpoints: Collection[int], conditions: Conditions, limit: int) -> Optional[int]:
    """The least position above the present one, at most `limit` beyond it, where a breakpoint stops."""
    plain, conditional = _divided(breakpoints, conditions)
    if not conditional:
        return search.next_visit(driver, plain, limit)
    begin = driver.position
    end = min(begin + limit, GREATEST_POSITION)
    with _in_place(driver, end):
        for low, high in _windows(begin, end, len(breakpoints) == 1):
            found: Optional[int] = None
            if plain:
                driver.goto(low)
                found = search.next_visit(driver, plain, high - low)
            for it in conditional:
                found = next(it.hits(driver, low, high if found is None else found - 1), found)
            if found is not None:
                return found
            driver.tell(high)
    return None


def last_hit(driver: Driver, breakpoints: Collection[int], conditions: Conditions, lowest: int) -> Optional[int]:
    """The greatest position below the present one, and not below `lowest`, where a breakpoint stops."""
    plain, conditional = _divided(breakpoints, conditions)
    if not conditional:
        return search.last_visit(driver, plain, lowest)
    begin = driver.position
    with _in_place(driver, lowest):
        for low, high in _windows_back(lowest, begin):
            found: Optional[int] = None
            if plain:
                driver.goto(high)
                found = search.last_visit(driver, plain, low)
            for it in conditional:
                for found in it.hits(driver, low - 1 if found is None else found, high - 1):
                    pass
            if found is not None:
                return found
            driver.tell(low)
    return None


def all_hits(driver: Driver, breakpoints: Collection[int], conditions: Conditions, begin: int, end: int) -> Iterator[int]:
    """All positions from one up to another where a breakpoint stops, in order."""
    places = [_Condition(it, conditions.get(it, ())) for it in breakpoints]
    with _in_place(driver, end), driver.long_run(begin, end):
        for low, high in _windows(begin - 1, end, len(places) == 1):
            yield from sorted(position for it in places for position in it.hits(driver, low, high))
            driver.tell(high)


def _divided(breakpoints: Collection[int], conditions: Conditions) -> tuple[list[int], list[_Condition]]:
    """The addresses of plain breakpoints, and those with conditions."""
    plain = [address for address in breakpoints if not conditions.get(address)]
    return plain, [_Condition(address, conditions[address]) for address in breakpoints if conditions.get(address)]


def _windows(begin: int, end: int, whole: bool) -> Iterator[tuple[int, int]]:
    """Windows on, or the whole where it is looked at in order anyway."""
    low, size = begin, end - begin if whole else FIRST_WINDOW
    while low < end:
        high = min(low + size, end)
        yield low, high
        low, size = high, min(2 * size, VISIT_STEPS)


def _windows_back(begin: int, end: int) -> Iterator[tuple[int, int]]:
    high, size = end, FIRST_WINDOW
    while high > begin:
        low = max(high - size, begin)
        yield low, high
        high, size = low, min(2 * size, VISIT_STEPS)


@contextmanager
def _in_place(driver: Driver, end: int) -> Iterator[None]:
    position = driver.position
    try:
        with driver.long_run(position, end):
            yield
    finally:
        driver.goto(position)


@dataclass
class _Condition:
    """The expressions of one address, if it has some, and the commands whose replies they read last."""

    address: int
    expressions: Sequence[bytes]
    usual: list[str] = field(default_factory=list)

    def hits(self, driver: Driver, low: int, high: int) -> Iterator[int]:
        """The visits above `low`, up to `high`, where an expression holds, or can't be evaluated: gdb then says why. `low` may
        be -1."""
        if low < 0:
            low = 0
            if self.address == RESET_PC:
                yield from self._judged(driver, [Known(0)])
        for visits in self._visits(driver, low, high):
            yield from self._judged(driver, visits)

    def _visits(self, driver: Driver, low: int, high: int) -> Iterator[list[Known]]:
        """The visits above `low`, up to `high`, in batches."""
        count, reach = 1, VISIT_STEPS
        while low < high:
            driver.goto(low)
            limit = min(reach, high - low)
            if low + count * limit > GREATEST_POSITION:
                count = 1
            found = self._ask(driver, count, limit)
            visits = [it for it in found if it.position <= high]
            if visits:
                yield visits
            if len(visits) < len(found):
                return
            if len(found) < count:
                # From the last visit on there is none within the limit. The next one is looked for alone.
                low = (found[-1].position if found else low) + limit
                count, reach = 1, VISIT_STEPS
                continue
            apart = max((found[-1].position - low) // count, 1)
            low = found[-1].position
            reach = min(SPARE * apart, VISIT_STEPS)
            count = max(min(2 * count, BATCH, STEPS // reach, (high - low) // apart + 1), 1)

    def _ask(self, driver: Driver, count: int, limit: int) -> list[Known]:
        """The next visits, each at most `limit` after the one before; fewer than `count` where one is not found."""
        visit = f"visit {self.address} {limit}"
        answers = iter(driver.ask_all([visit, *self.usual] * count))
        visits = []
        for _ in range(count):
            position = search.position_of(visit, next(answers))
            known = {command: next(answers) for command in self.usual}
            if position is None:
                break
            visits.append(Known(position, known))
        return visits

    def _judged(self, driver: Driver, visits: Sequence[Known]) -> Iterator[int]:
        """The hits among visits. What is not known of them is asked for all of them together."""
        hits: list[int] = []
        waiting = list(visits)
        while waiting:
            missing: list[tuple[Known, Unknown]] = []
            for known in waiting:
                try:
                    if self._holds(known):
                        hits.append(known.position)
                except Unknown as unknown:
                    missing.append((known, unknown))
            lines = [line for known, it in missing for line in (f"goto {known.position - it.is_before}", it.command)]
            for (known, it), reply in zip(missing, driver.values(lines)[1::2]):
                if it.is_before:
                    known.before = reply[0]
                else:
                    known.replies[it.command] = reply
            waiting = [known for known, _ in missing]
        self.usual = list(visits[-1].used)
        yield from sorted(hits)

    def _holds(self, known: Known) -> bool:
        return not self.expressions or any(agent.may_hold(expression, known) for expression in self.expressions)
