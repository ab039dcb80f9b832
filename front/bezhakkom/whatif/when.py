"""The first position at which a word has a value, over all stores into it. Position 0 counts, with what the image sets."""
from __future__ import annotations

from dataclasses import dataclass
from typing import Optional

from ..driver import Driver
from ..errors import STOPPED
from ..limits import SPAN
from . import pasts
from .conditions import Condition
from .pasts import kept

_MOST_SPANS = 256  # that are searched together


@dataclass
class When:
    """The first position at which a condition holds, if there is one, and up to where that was looked for."""

    position: Optional[int]
    reached: int
    is_stopped: bool = False


def when(driver: Driver, condition: Condition, end: int) -> When:
    """The first position up to an end at which a condition holds."""
    found = When(None, 0)
    low, spans = 0, 1
    with kept(driver), driver.long_run(0, end):
        try:
            while found.position is None:
                high = min(low + spans * SPAN, end)
                found.position = pasts.run(driver, condition.first(low, high))
                found.reached = high
                if high == end:
                    break
                low, spans = high, min(2 * spans, _MOST_SPANS)
        except STOPPED:
            found.is_stopped = True
    return found
