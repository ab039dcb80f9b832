"""A terminal on a command of `bin/wb`, for tests: keys go in, and what is shown comes out."""
from __future__ import annotations

import os
import pty
import select
import signal
import sys
import time
from typing import NoReturn, Optional, Sequence

from bezhakkom import cli, progress
from front.tests.support import ROOT

PATIENCE = 300  # seconds, for a machine that is busy: what does not come fails then


def copied(arguments: Sequence[str], patience: float) -> NoReturn:
    """Runs a command in this process, on the terminal that it has, and ends it."""
    progress._PATIENCE = patience
    try:
        sys.stdin, sys.stdout, sys.stderr = open(0, closefd=False), open(1, "w", closefd=False), open(2, "w", closefd=False)
        os._exit(cli.main(arguments))
    finally:
        os._exit(70)


class Terminal:
    """A command on a terminal of its own, in the repository's folder."""

    def __init__(self, *arguments: str, patience: Optional[float] = None, **environment: str) -> None:
        """With a patience it shows after so many seconds how far a run is, and is a copy of this process."""
        self.process, self._terminal = pty.fork()
        if not self.process:
            os.chdir(ROOT)
            os.environ.update(environment, TERM="dumb")
            if patience is None:
                os.execv(ROOT / "bin/wb", ["bin/wb", *arguments])
            copied(arguments, patience)
        self._shown = b""

    def type(self, keys: bytes) -> None:
        os.write(self._terminal, keys)

    def until(self, wanted: bytes) -> bytes:
        """What is shown up to a text, and with it."""
        end = time.monotonic() + PATIENCE
        while wanted not in self._shown:
            if time.monotonic() > end or not self._read():
                raise AssertionError(f"{wanted!r} was not shown, but {self._shown!r}")
        before, _, self._shown = self._shown.partition(wanted)
        return before + wanted

    def shows(self, wanted: bytes, seconds: float) -> bool:
        """Whether a text is shown within a time. What is shown up to it, and with it, is taken then."""
        end = time.monotonic() + seconds
        while wanted not in self._shown and time.monotonic() < end:
            self._read()
        return wanted in self._shown and bool(self.until(wanted))

    def press(self, keys: bytes, wanted: bytes) -> bytes:
        """What is shown up to a text, while keys are pressed again and again, twice a second: not at once when they are echoed."""
        end = time.monotonic() + PATIENCE
        while wanted not in self._shown and time.monotonic() < end:
            self.type(keys)
            pause = time.monotonic() + 0.5
            while wanted not in self._shown and time.monotonic() < pause:
                self._read()
        return self.until(wanted)

    def _read(self) -> bool:
        if not select.select([self._terminal], [], [], 0.1)[0]:
            return True
        try:
            content = os.read(self._terminal, 1 << 16)
        except OSError:
            return False
        self._shown += content
        return bool(content)

    def close(self) -> None:
        """Closes the terminal, as a window is closed, and waits for the command."""
        os.close(self._terminal)
        os.waitpid(self.process, 0)

    def terminate(self) -> tuple[int, bytes]:
        """Sends SIGTERM until the command ends, twice a second: one that comes while Python begins to wait for a key is handled after the
        key. Returns its status as the system has it, and what it showed."""
        end, pressed = time.monotonic() + PATIENCE, -1.0
        while self._read():
            now = time.monotonic()
            if now > end:
                raise AssertionError(f"the command does not end; it shows {self._shown!r}")
            if now > pressed + 0.5:
                pressed = now
                os.kill(self.process, signal.SIGTERM)
        return os.waitpid(self.process, 0)[1], self._shown

    def end(self) -> int:
        """Waits until the command ends, and gives its status as the system has it."""
        return self.leave(b"")

    def leave(self, keys: bytes) -> int:
        """The same, while keys are pressed again and again: gdb drops what is typed before it has handled a Ctrl-C."""
        end = time.monotonic() + PATIENCE
        pressed = -1.0
        while self._read():
            now = time.monotonic()
            if now > end:
                raise AssertionError(f"the command does not end; it shows {self._shown!r}")
            if keys and now > pressed + 0.5:
                pressed = now
                try:
                    self.type(keys)
                except OSError:  # it ends
                    break
        _, status = os.waitpid(self.process, 0)
        os.close(self._terminal)
        return status
