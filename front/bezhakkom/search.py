"""Searches along a run, each exact. They leave the driver at the position that it had."""
from __future__ import annotations

from contextlib import contextmanager
from typing import Callable, Collection, Iterator, Optional, Sequence

from . import replies
from .driver import Driver
from .explain import explained
from .limits import GREATEST_POSITION, RESET_PC, SPAN, VISIT_STEPS

# How many steps a search looks at before it looks at more of them. Going on along the run costs only its steps, some 15
# nanoseconds each. Going back costs some milliseconds besides.
WINDOWS: tuple[int, ...] = (64, 1024, 16_384, 16 * 16_384, VISIT_STEPS)

# This many visits of a window are followed. Where there are more, the rest of the window is halved.
VISITS = 16


def next_visit(driver: Driver, addresses: Collection[int], limit: int) -> Optional[int]:
    """The least position above the present one, at most `limit` beyond it, whose PC is one of the addresses."""
    begin = driver.position
    end = min(begin + limit, GREATEST_POSITION)
    with _search(driver, end) as tell:
        # With one address the search ends where it is found. Of several, the nearest one is wanted.
        for low, high in _forward(begin, end, WINDOWS if len(addresses) > 1 else WINDOWS[-1:]):
            nearest = high + 1
            for address in addresses:
                nearest = _visit(driver, address, low, nearest - 1) or nearest
            if nearest <= high:
                return nearest
            tell(high)
    return None


def last_visit(driver: Driver, addresses: Collection[int], lowest: int) -> Optional[int]:
    """The greatest position below the present one, and not below `lowest`, whose PC is one of the addresses."""
    begin = driver.position
    with _search(driver, lowest) as tell:
        for low, high in _backward(lowest, begin):
            last = 0 if low == 0 and RESET_PC in addresses else None
            for address in addresses:
                last = _last_visit(driver, address, low - 1 if last is None else last, high) or last
            if last is not None:
                return last
            tell(low)
    return None


def first_store(driver: Driver, physical_word: int, limit: int) -> Optional[int]:
    """The least step at or after the position, of the next `limit` ones, that stores into the word."""
    begin = driver.position
    end = min(begin + limit, GREATEST_POSITION)

    def last_before(position: int) -> Optional[int]:
        """The last step from `begin` on that stored into the word before a position."""
        driver.goto(position)
        step = driver.writer(physical_word).step
        return step if step is not None and step >= begin else None

    with _search(driver, end) as tell:
        for low, high in _forward(begin, end, WINDOWS):
            found = last_before(high)
            if found is not None:
                return _first(last_before, low, found)
            tell(high)
    return None


def last_store(driver: Driver, physical_word: int) -> Optional[int]:
    """The greatest step before the position that stored into the word."""
    return driver.writer(physical_word).step


@contextmanager
def _search(driver: Driver, end: int) -> Iterator[Callable[[int], None]]:
    """Brings the driver back to its position, and shows how far the search is on its way to an end."""
    position = driver.position
    try:
        with driver.long_run(position, end):
            yield driver.tell
    finally:
        driver.goto(position)


def _forward(begin: int, end: int, sizes: Sequence[int]) -> Iterator[tuple[int, int]]:
    """Windows from a position on, up to an end: small ones first, and then those that end with a span."""
    low, size = begin, 0
    while low < end:
        high = low + sizes[min(size, len(sizes) - 1)]
        size += 1
        if high - low >= SPAN:
            high = high // SPAN * SPAN
        yield low, min(high, end)
        low = high


def _backward(begin: int, end: int) -> Iterator[tuple[int, int]]:
    """Windows down from an end to a beginning: of each the least position, and the one after the greatest."""
    high, size = end, 0
    while high > begin:
        low = max(high - WINDOWS[min(size, len(WINDOWS) - 1)], begin)
        size += 1
        if high - low >= SPAN and low > begin:
            # The position before the window, where it is looked at from, begins a span.
            low = -(-low // SPAN) * SPAN + 1
        yield low, high
        high = low


def _visit(driver: Driver, address: int, low: int, high: int) -> Optional[int]:
    """The least position above `low`, up to `high`, whose PC is the address. What was searched before is not searched again."""
    known, low = driver.visits.first(address, low, high)
    if known is not None or low >= high:
        return known
    driver.goto(low)
    command = f"visit {address} {high - low}"
    found = position_of(command, driver.ask(command))
    driver.visits.note(address, low, high, found)
    return found


def position_of(command: str, lines: Sequence[str]) -> Optional[int]:
    """The position that a visit came to, or None where there was none."""
    refusal = replies.refusal_of(command, lines)
    if refusal is None:
        return replies.last_number(lines)
    if refusal.name == "NotFound":
        return None
    raise explained(refusal)


def _last_visit(driver: Driver, address: int, low: int, high: int) -> Optional[int]:
    """The greatest position above `low` and below `high` whose PC is the address; `low` may be -1."""
    last, low = None, max(low, 0)
    while low + 1 < high:
        for _ in range(VISITS):
            later = _visit(driver, address, low, high - 1)
            if later is None:
                return last
            last = low = later
        middle = (low + high - 1) // 2
        later = _visit(driver, address, middle, high - 1)
        if later is None:
            high = middle + 1
        else:
            last = low = later
    return last


def _first(last_before: Callable[[int], Optional[int]], low: int, found: int) -> int:
    """The first store from `low` on, where one is known. It tries the store before that, as mostly there are few, and halves."""
    while low < found:
        earlier = last_before(found)
        if earlier is None:
            break
        found = earlier
        position = (low + found + 1) // 2
        if found - low > SPAN:
            position = max(position // SPAN, low // SPAN + 1) * SPAN
        earlier = last_before(position)
        if earlier is None:
            low = position
        else:
            found = earlier
    return found
