"""Exceptions by their kinds: the names that people give them, where their handlers begin, and where one was just taken."""
from __future__ import annotations

from dataclasses import dataclass
from typing import Dict, Iterator, Optional

from . import agent
from .errors import Problem

# By their codes in Cause.
NAMES = ("int", "mod", "tlbl", "tlbs", "adel", "ades", "ibe", "dbe", "sys", "bp", "ri", "cpu", "ov")
TEXTS = ("interrupt", "store to a page that is not dirty", "no entry for a load or fetch", "no entry for a store",
         "address error of a load or fetch", "address error of a store", "bus error of a fetch", "bus error of a load", "system call",
         "breakpoint", "reserved instruction", "coprocessor unusable", "overflow")

_REFILL = (0x8000_0000, 0xBFC0_0100)  # handlers of misses of user addresses
_GENERAL = (0x8000_0080, 0xBFC0_0180)
_WITH_REFILL = ("tlbl", "tlbs")


@dataclass(frozen=True)
class Catch:
    """A stop where an exception was taken, of a kind by its name or of any, and its handler comes next."""

    name: str = ""

    def __post_init__(self) -> None:
        if self.name and self.name not in NAMES:
            raise Problem(f"there is no kind {self.name[:40]} of exceptions: they are {', '.join(NAMES)}, and without one all are caught")

    def __str__(self) -> str:
        return f"exception {self.name}".rstrip()

    @property
    def text(self) -> str:
        return f"exceptions: {TEXTS[self._code]}" if self._code is not None else "all exceptions"

    @property
    def _code(self) -> Optional[int]:
        return NAMES.index(self.name) if self.name else None

    @property
    def _handlers(self) -> Iterator[int]:
        yield from _GENERAL
        if not self.name or self.name in _WITH_REFILL:
            yield from _REFILL

    def conditions(self) -> Dict[int, bytes]:
        """Where handlers begin, each with an expression that holds where one was entered by such an exception."""
        return {it: agent.taken(self._code) for it in self._handlers}

    def lines_of_gdb(self) -> Iterator[str]:
        """gdb's breakpoints that stop there."""
        code = self._code
        condition = "$exception >= 0" if code is None else f"($cause >> 2 & 31) == {code} && $exception == {code}"
        return (f"break *{it:#010x} if {condition}" for it in self._handlers)
