"""What can go wrong, each with a message for the user."""
from __future__ import annotations

from pathlib import Path
from typing import Sequence

from .installed import NAME
from .printable import printable


class Problem(Exception):
    """A sentence for the user about what went wrong, perhaps with more lines of details, and the status with which a command ends for it.
    All of it is printable, because a sentence may quote files of a stranger."""

    def __init__(self, message: str, status: int = 2, details: Sequence[str] = ()) -> None:
        super().__init__("\n".join(map(printable, (message, *details))))
        self.status = status


class Refused(Problem):
    """A command that the program answered with `error N Name`, and a sentence about it where there is one."""

    def __init__(self, number: int, name: str, command: str, sentence: str = "") -> None:
        super().__init__(sentence or f"{command}: error {number} {name}", 5)
        self.number = number
        self.name = name
        self.command = command


class Ended(Problem):
    """The program ended by itself. The next question starts it anew with all edits."""


class Unexpected(Problem):
    """What no module foresaw, as one line with the place where it came up."""

    def __init__(self, error: Exception) -> None:
        trace = error.__traceback__
        while trace and trace.tb_next:
            trace = trace.tb_next
        where = f", at {Path(trace.tb_frame.f_code.co_filename).name}:{trace.tb_lineno}" if trace else ""
        what = " ".join(f"{type(error).__name__} {error}".split())
        super().__init__(f"a fault of {NAME} itself{where}: {what[:300]}", 70)


class Interrupted(KeyboardInterrupt):
    """A turn was ended by Ctrl-C, between two commands. The driver is in step."""


STOPPED = (Interrupted, KeyboardInterrupt)  # Ctrl-C, in a turn and between two
