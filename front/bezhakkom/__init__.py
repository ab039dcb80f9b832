"""Bezhakkom: a time-travel emulator and debugger for the DECstation 5000/200, in which the past can be edited.

`boot` starts a machine: `docs/LIBRARY.md` shows what can be asked of it. The front ends (`python3 -m bezhakkom --help`) are in this
package too. All of them talk to the proved program over its text interface.
"""
from __future__ import annotations

from importlib import import_module
from typing import TYPE_CHECKING

if TYPE_CHECKING:
    from .errors import Ended, Problem, Refused
    from .jumps import Jump
    from .log import Event, Kind
    from .machine import Machine, Memory, NotReached, Step, boot, events
    from .tracing import Access, Traced

__all__ = ["Access", "Ended", "Event", "Jump", "Kind", "Machine", "Memory", "NotReached", "Problem", "Refused", "Step", "Traced", "boot", "events"]

_MODULES = {"Access": "tracing", "Ended": "errors", "Event": "log", "Jump": "jumps", "Kind": "log", "Problem": "errors", "Refused": "errors",
            "Traced": "tracing"}


def __getattr__(name: str) -> object:
    """Loads a name where it is wanted, so that a front end need not wait for what it does not use."""
    if name not in __all__:
        raise AttributeError(f"module {__name__!r} has no attribute {name!r}")
    return getattr(import_module(f".{_MODULES.get(name, 'machine')}", __name__), name)
