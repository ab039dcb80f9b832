"""How far a long run is, or many tries are, on one line of a terminal."""
from __future__ import annotations

import sys
import time
from typing import Optional, Protocol

# Names in the environment of gdb and of its stub the terminal that gdb has.
TERMINAL = "BEZHAKKOM_TERMINAL"

# A run that takes less is not worth a line.
_PATIENCE = 1.0
_INTERVAL = 0.2


class Stream(Protocol):
    """What shows text on a terminal."""

    def write(self, text: str, /) -> object: ...

    def flush(self) -> object: ...


class TerminalProgress:
    """Shows the position, steps a second, and what is left where that is known. `close` takes the line away."""

    def __init__(self, stream: Stream) -> None:
        self._stream = stream
        self._began: Optional[float] = None
        self._first = 0
        self._shown = 0.0

    def __call__(self, position: int, begin: int, end: Optional[int]) -> None:
        if self._began is None:
            self._first = position
        took = self._took()
        if took:
            self._show(progress(position, begin, end, abs(position - self._first) / took))

    def tried(self, count: int, whole: Optional[int]) -> None:
        """Shows how many pasts were tried."""
        took = self._took()
        if took:
            self._show(f"{count:,}{f' of {whole:,}' if whole else ''} pasts tried, {count / took:.0f} a second")

    def _took(self) -> float:
        """How many seconds it took up to now, or 0 where nothing is to be shown yet."""
        now = time.monotonic()
        self._began = now if self._began is None else self._began
        is_time = now - self._began >= _PATIENCE and now - self._shown >= _INTERVAL
        return now - self._began if is_time else 0

    def _show(self, text: str) -> None:
        self._shown = time.monotonic()
        self._stream.write(f"\r\x1b[K{text}")
        self._stream.flush()

    def clear(self) -> None:
        """Makes room for something else. The line comes again."""
        if self._shown:
            self._stream.write("\r\x1b[K")
            self._stream.flush()
        self._shown = 0.0

    def close(self) -> None:
        self.clear()
        self._began = None


def progress(position: int, begin: int, end: Optional[int], speed: float) -> str:
    """How far a run is, and at which speed in steps a second."""
    of_speed = f"{speed / 1e6:.0f} million" if speed >= 1e6 else f"{speed:,.0f}"
    shown = f"position {position:,}, {of_speed} steps a second"
    if end is None or end == begin:
        return shown
    left = f", {abs(end - position) / speed:.0f} s left" if speed else ""
    return f"{shown}, {100 * abs(position - begin) // abs(end - begin)}% of the way{left}"


def on_terminal() -> Optional[TerminalProgress]:
    """The progress to report on standard error, or None where that is no terminal."""
    return TerminalProgress(sys.stderr) if sys.stderr.isatty() else None
