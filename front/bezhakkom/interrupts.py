"""Ctrl-C in gdb, for the stub. gdb takes a second Ctrl-C, while it waits for an answer, for a wish to leave the stub with all
edits. So `bin/wb gdb` notes each one in a file, at which the stub looks while it answers, and front/bezhakkom/in_gdb.py keeps them from
gdb for that time. Short answers are made."""
from __future__ import annotations

import os
import time
from pathlib import Path

SHORT = 0.5  # seconds
# Of the environment. It names the file, which front/bezhakkom/in_gdb.py empties before what is typed runs.
VARIABLE = "BEZHAKKOM_INTERRUPTS"


def note(file: Path) -> None:
    """Notes that Ctrl-C was pressed."""
    with open(file, "ab") as opened:
        opened.write(b"\x03")


class Interrupts:
    """Whether Ctrl-C was pressed since gdb began what was typed last. Each one ends one answer or run."""

    def __init__(self) -> None:
        self._file = os.environ.get(VARIABLE)
        self._reported = 0
        self.begin()

    def begin(self) -> None:
        """An answer begins."""
        self._began = time.monotonic()
        self._is_to_end = False

    def end_answer(self) -> bool:
        """Whether the answer that was begun takes long and is to end."""
        self._is_to_end = self._is_to_end or time.monotonic() > self._began + SHORT and self.end_run()
        return self._is_to_end

    def end_run(self) -> bool:
        """Whether a run is to end, which may be one of many that gdb makes for what was typed."""
        count = self._count()
        found, self._reported = count not in (0, self._reported), count
        return found

    def end_next(self) -> None:
        """Lets what has ended an answer also end the run that gdb makes next for what was typed."""
        self._reported = 0

    def _count(self) -> int:
        try:
            return os.stat(self._file).st_size if self._file else 0
        except OSError:
            return 0
