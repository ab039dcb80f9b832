"""What searches have found of where the PC stood, so that no search runs over the same steps again. All of it was answered by the
program; an edit takes away what it may have changed."""
from __future__ import annotations

from bisect import bisect_right
from dataclasses import dataclass
from typing import Optional

_MOST = 1 << 14  # answers that are kept


@dataclass
class _Stretch:
    """All visits of an address at positions above `low`, up to `high`."""

    low: int
    high: int
    visits: list[int]


class Visits:
    """Visits of addresses, in stretches that were searched."""

    def __init__(self) -> None:
        self._stretches: dict[int, list[_Stretch]] = {}
        self._count = 0

    def first(self, address: int, low: int, high: int) -> tuple[Optional[int], int]:
        """The least visit above `low`, up to `high`, if that is known, and up to where it is known that there is none."""
        for it in self._stretches.get(address, ()):
            if it.low <= low < it.high:
                at = bisect_right(it.visits, low)
                if at < len(it.visits) and it.visits[at] <= high:
                    return it.visits[at], low
                return None, min(it.high, high)
        return None, low

    def since(self, address: int, high: int) -> int:
        """The position above which all visits up to `high` are known."""
        return min((it.low for it in self._stretches.get(address, ()) if it.low <= high <= it.high), default=high)

    def note(self, address: int, low: int, high: int, found: Optional[int]) -> None:
        """Notes that `found` is the least visit above `low`, or that there is none up to `high`."""
        if self._count >= _MOST:
            self.forget()
        self._count += 1
        end, stretches = high if found is None else found, self._stretches.setdefault(address, [])
        grown = next((it for it in stretches if it.low <= low <= it.high), None)
        if grown is None:
            grown = _Stretch(low, low, [])
            stretches.append(grown)
        if found is not None and found > grown.high:
            grown.visits.append(found)
        grown.high = max(grown.high, end)
        for it in [it for it in stretches if it is not grown and it.low <= grown.high and grown.low <= it.high]:
            grown.low, grown.high = min(grown.low, it.low), max(grown.high, it.high)
            grown.visits = sorted({*grown.visits, *it.visits})
            stretches.remove(it)

    def cut(self, position: int) -> None:
        """Forgets what is known above a position."""
        for stretches in self._stretches.values():
            stretches[:] = [it for it in stretches if it.low < position]
            for it in stretches:
                it.high = min(it.high, position)
                it.visits = [visit for visit in it.visits if visit <= position]

    def forget(self) -> None:
        self._stretches.clear()
        self._count = 0
