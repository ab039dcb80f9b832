"""The next or the previous place of something: a store, a byte that was sent, an event, a visit of a function, a line of source, or a
difference from another past. Each function returns a position up to the run's end (`event` an index of the log), or None."""
from __future__ import annotations

from typing import Iterator, List, Optional, Sequence, Tuple

from .. import replies, search
from ..driver import Driver
from ..limits import LINES
from ..lines import Line, Lines
from ..log import Event, Kind
from ..states import counters_at, of_steps
from .past import Past, first_difference

_TOGETHER = 256  # positions or bytes that are looked at together
_MOST_STEPS = 1 << 16  # that are looked at one by one for a line of source
_MOST_STORES = 256  # of a word in which two pasts are compared


def store(driver: Driver, place: int, forward: bool, end: int) -> Optional[int]:
    """The step of the next store into a word from the position on, or of the last one before it."""
    if not forward:
        return search.last_store(driver, place)
    # A store in this step is where one stands after a jump.
    begin = driver.position
    driver.goto(min(begin + 1, end))
    try:
        return search.first_store(driver, place, end - driver.position)
    finally:
        driver.goto(begin)


def send(driver: Driver, line: int, forward: bool, end: int) -> Optional[int]:
    """The step of the next byte that a line sends after this step, or of the last one before it."""
    here = driver.position
    if not forward:
        count = driver.sent(line)
        return driver.find(line, count - 1) if count else None
    driver.goto(min(here + 1, end))
    count = driver.sent(line)
    driver.goto(end)
    found = driver.find(line, count) if driver.sent(line) > count else None
    driver.goto(here)
    return found


def event(log: Sequence[Event], line: int, is_wire: bool, position: int, forward: bool, end: int) -> Optional[int]:
    """The index of the first event of a row after the position and up to the end, or of the last one before the position."""
    if forward:
        found = (at for at, it in enumerate(log) if position < it.time <= end and _is_of(it, line, is_wire))
    else:
        found = (at for at in reversed(range(len(log))) if log[at].time < position and _is_of(log[at], line, is_wire))
    return next(found, None)


def _is_of(event: Event, line: int, is_wire: bool) -> bool:
    return event.line == line and (event.kind == Kind.WIRE) == is_wire


def visit(driver: Driver, address: int, forward: bool, end: int) -> Optional[int]:
    """The next or the last position at which the instruction at an address comes."""
    if forward:
        return search.next_visit(driver, [address], end - driver.position)
    return search.last_visit(driver, [address], 0)


def line(driver: Driver, lines: Lines, forward: bool, end: int) -> Optional[int]:
    """The next position at which another line of source begins, or where the line before this one began. Without lines, a step."""
    here = driver.position
    old: Optional[Line] = None
    before: Optional[int] = None  # a position of the line before
    for at, found in _lines(driver, lines, forward, end):
        if at == here:
            old = found
            if found is None:
                return min(end, here + 1) if forward else max(0, here - 1) if here else None
        elif forward:
            if found is not None and found != old:
                return at
        elif before is None:
            if found is not None and (found != old):
                old, before = found, at
            elif found is not None:
                continue
        elif found == old:
            before = at
        else:
            return before
    return before


def _lines(driver: Driver, lines: Lines, forward: bool, end: int) -> Iterator[Tuple[int, Optional[Line]]]:
    """Positions from this one on or back, with their lines."""
    here = driver.position
    for first in range(0, _MOST_STEPS, _TOGETHER):
        if forward:
            positions = range(here + first, min(here + first + _TOGETHER, end + 1))
        else:
            positions = range(max(0, here - first - _TOGETHER + 1), here - first + 1)
        if not positions:
            return
        found = [(at, lines.at(counter)) for at, counter in zip(positions, counters_at(driver, positions))]
        yield from found if forward else reversed(found)


def difference(one: Driver, two: Driver, first: Past, second: Past, words: List[int], position: int, end: int) -> Optional[int]:
    """The least step after a position in which two pasts differ: in an event, a byte that is sent, or a store into a word."""
    found = []
    rest = ([it for it in past.log if it.time > position] for past in (first, second))
    event = first_difference(*rest)
    if event is not None and event <= end:
        found.append(event)
    for line in range(LINES):
        found += _sends(one, two, line, position, end)
    for place in words:
        found += _stores(one, two, place, position, min([end, *found]))
    return min(found, default=None)


def _sends(one: Driver, two: Driver, line: int, position: int, end: int) -> List[int]:
    """The first step after a position in which one of two runs sends a byte that the other does not send then."""
    rest = []
    for driver in (one, two):
        driver.goto(min(position + 1, end))
        first = driver.sent(line)
        driver.goto(end)
        rest.append(_sent(driver, line, first))
    while True:
        here, there = (next(it, None) for it in rest)
        if here != there:
            return [min(it[0] for it in (here, there) if it is not None)]
        if here is None:
            return []


def _sent(driver: Driver, line: int, first: int) -> Iterator[Tuple[int, int]]:
    """The steps and bytes of what a line sent before the position, from a place on."""
    count, place, end = driver.sent(line), first, driver.position
    while place < count:
        size = min(_TOGETHER, count - place)
        driver.goto(end)
        shown, *found = driver.values([f"console {line} {place} {size}", *of_steps(line, range(place, place + size))])
        yield from zip((step for lines in found for _, step in replies.timed(lines)), replies.console(shown)[1])
        place += size


def _stores(one: Driver, two: Driver, place: int, position: int, end: int) -> List[int]:
    """The same for stores into a word, of which the first ones are looked at."""
    at = position
    for _ in range(_MOST_STORES):
        steps = []
        for driver in (one, two):
            driver.goto(min(at + 1, end))
            found = search.first_store(driver, place, end - driver.position)
            if found is None:
                steps.append((end + 1, 0))
            else:
                driver.goto(found + 1)
                steps.append((found, driver.words(place, 1)[0]))
        if steps[0] != steps[1]:
            return [min(steps)[0]]
        at = steps[0][0]
        if at >= end:
            break
    return []
