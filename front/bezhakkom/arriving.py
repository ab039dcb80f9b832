"""Bytes that are typed: they arrive at a serial line from the position on, so far apart that a program loses none."""
from __future__ import annotations

from .driver import Driver
from .errors import Problem
from .limits import GREATEST_TIME, LINES

# Typed bytes are at least this many steps apart, and twice the time that the serial part takes to send one. So a program that
# polls or is interrupted has taken each byte, and sent it back, before the next one comes.
_LEAST_GAP = 1000


def gap_of(byte_time: int) -> int:
    """How far apart bytes that are typed arrive."""
    return max(_LEAST_GAP, 2 * byte_time)


def check_line(line: int) -> None:
    """Refuses a number that is no serial line's."""
    if not 0 <= line < LINES:
        raise Problem(f"there is no line {line}; they are 0 to {LINES - 1}")


def type_in(driver: Driver, typed: dict[int, range], line: int, content: bytes, gap: int = 0) -> range:
    """Lets bytes arrive from the position on, and gives their steps. `typed` has the steps over which each line was typed at last:
    what is typed within them arrives after it."""
    gap = gap or gap_of(driver.boot().byte_time)
    here, before = driver.position, typed.get(line, range(0))
    first = before.stop if here in before else here
    last = first + gap * (len(content) - 1)
    if last > GREATEST_TIME:
        raise Problem(f"there are no steps for it left: the last one is {GREATEST_TIME:,}")
    driver.values([f"add {first + gap * place} {line} {byte}" for place, byte in enumerate(content)])
    typed[line] = range(min(here, first), last + gap)
    return range(first, last + 1, gap)
