"""One process of the program: starts it, hands commands in and replies out, and notices that it ended."""
from __future__ import annotations

import fcntl
import os
import select
import signal
import subprocess
import tempfile
import time
from collections import deque
from pathlib import Path
from typing import Callable, Iterator, Sequence

from .errors import Ended, Problem
from .installed import IS_INSTALLED, PACKAGE, REPOSITORY
from .limits import READ_BYTES
from .protocol import has_reply, lines_after
from .replies import no_reply

# What is shipped, by checksums.
SHIPPED = (PACKAGE if IS_INSTALLED else REPOSITORY / "bin") / "r3kwb.txt"

# The most commands under way. All of these are answered before a turn can end.
WINDOW = 64

# For replies that nobody has taken yet. Linux's F_SETPIPE_SZ has a name in Python from 3.10 on.
_SET_PIPE_SIZE, _PIPE_BYTES = 1031, 1 << 20

# How often a turn looks whether it is to end, in milliseconds.
_GLANCE = 50

# The replies to a script of so many bytes are taken so many seconds apart, while the pipe has room: to take each as it comes takes longer.
_LONG, _APART = 1 << 13, 0.0004

# Asked in a turn: 0 to go on, 1 to end it between two commands, 2 to end the program.
Stop = Callable[[], int]


def path() -> str:
    """What is started: the program that was installed, or bin/r3kwb, or what the environment variable WB_PROGRAM names."""
    return os.environ.get("WB_PROGRAM") or str((PACKAGE if IS_INSTALLED else REPOSITORY / "bin") / "r3kwb")


def itself() -> Path:
    """The file of the program that is started."""
    return Path(os.environ.get("WB_PROGRAM") or (PACKAGE if IS_INSTALLED else REPOSITORY / "crates/r3kwb/out") / "r3kwb")


def build() -> None:
    """Has the program unpacked. Standard error has a line if the sources here are not those that it was built from."""
    if IS_INSTALLED or "WB_PROGRAM" in os.environ:
        return
    status = subprocess.run([path()], stdin=subprocess.DEVNULL, stdout=subprocess.DEVNULL).returncode
    if status:
        raise Problem("", status)


def words(kind: str, size: int, log_size: int) -> list[str]:
    """The words with which the program is started."""
    return [path(), "--kind", kind, "--size", str(size), "--log", str(log_size)]


# Large pages, where the system gives them to who asks, and one heap for all memory, none of which is given back before the end. So it
# starts and runs quicker.
_MEMORY = "glibc.malloc.hugetlb=1:glibc.malloc.mmap_threshold=1073741824:glibc.malloc.trim_threshold=1073741824"


class Program:
    """A process of the program, in a session of its own, so that the terminal's Ctrl-C does not reach it."""

    def __init__(self, kind: str, content: bytes, log: bytes) -> None:
        self._errors = tempfile.TemporaryFile()
        try:
            self._process = subprocess.Popen(
                words(kind, len(content), len(log)), stdin=subprocess.PIPE, stdout=subprocess.PIPE, stderr=self._errors,
                start_new_session=True, bufsize=0, env={"GLIBC_TUNABLES": _MEMORY, **os.environ})
        except OSError as error:
            self._errors.close()
            raise Problem(f"{path()} can't be started: {error.strerror}", 70) from None
        assert self._process.stdin and self._process.stdout
        self._input, self._output = self._process.stdin.fileno(), self._process.stdout.fileno()
        os.set_blocking(self._input, False)
        try:
            fcntl.fcntl(self._output, _SET_PIPE_SIZE, _PIPE_BYTES)
        except OSError:
            pass  # it is only quicker: the two processes take turns less often
        self._unsent = bytearray(content + log)
        self.position = 0
        self._partial = b""
        self._lines: deque[str] = deque()
        # How many reads of its input the program may have made at most: one for each write, and for each full piece.
        self.reads = reads_of(content + log)

    def turn(self, commands: Sequence[str], stop: Stop) -> Iterator[list[str]]:
        """The replies to commands, one by one, of which some are under way. It ends early, in step, where it is to stop."""
        under_way: deque[str] = deque()
        sent = 0
        while sent < len(commands) or under_way:
            wish = stop()
            if wish > 1:
                self.close()
                raise Ended("the program was ended")
            if wish and not under_way:
                return
            while not wish and sent < len(commands) and len(under_way) < WINDOW:
                self._put(commands[sent])
                under_way.append(commands[sent])
                sent += 1
            while under_way:
                reply = self._take(under_way[0])
                if reply is None:
                    break
                under_way.popleft()
                yield reply
            if under_way:
                self._divide(self._move())

    def text(self, script: bytes, last: bytes, stop: Stop) -> bytes:
        """The replies to a script, of which the last line is so and no line before it is, as one text that is not divided. All of the
        script is under way together, and all of it is answered."""
        self._unsent += script
        self.reads += reads_of(script)
        text = bytearray()
        while not text.endswith(b"\n" + last):
            if stop() > 1:
                self.close()
                raise Ended("the program was ended")
            text += self._move()
            if len(script) > _LONG:
                time.sleep(_APART)
        return bytes(text)

    def _put(self, command: str) -> None:
        line = command.encode("utf-8", "surrogateescape") + b"\n"
        assert line.count(b"\n") == 1, "a command is one line"
        self._unsent += line
        self.reads += reads_of(line)

    def _take(self, command: str) -> list[str] | None:
        """The reply to a command, where it is here whole."""
        if not has_reply(command):
            return []
        if not self._lines:
            return None
        try:
            count = 1 + lines_after(command, self._lines[0])
        except (ValueError, IndexError):
            raise no_reply(self._lines[0]) from None
        if len(self._lines) < count:
            return None
        return [self._lines.popleft() for _ in range(count)]

    def _move(self) -> bytes:
        """Waits a moment until something goes in or comes out, and gives what came out."""
        poll = select.poll()
        poll.register(self._output, select.POLLIN)
        if self._unsent:
            poll.register(self._input, select.POLLOUT)
        found = b""
        for descriptor, _ in poll.poll(_GLANCE):
            if descriptor == self._output:
                found = self._receive()
            else:
                self._send()
        return found

    def _send(self) -> None:
        try:
            del self._unsent[:os.write(self._input, self._unsent[:1 << 16])]
        except BlockingIOError:
            pass
        except BrokenPipeError:
            self._unsent.clear()

    def _receive(self) -> bytes:
        content = os.read(self._output, 1 << 16)
        if not content:
            raise self._end()
        return content

    def _divide(self, content: bytes) -> None:
        """Divides what came out into lines."""
        *whole, self._partial = (self._partial + content).split(b"\n")
        self._lines.extend(line.decode("ascii", "replace") for line in whole)

    def _end(self) -> Ended:
        """Why the program ended, as far as it says so."""
        status = self._process.wait()
        self._errors.seek(0)
        said = self._errors.read().decode("utf-8", "replace").strip()
        self.close()
        if status < 0:
            return Ended(f"the program was ended by {signal.Signals(-status).name}", 128 - status)
        first, *more = said.split("\n")
        return Ended(first or f"the program ended with status {status}", status, more)

    def close(self) -> None:
        """Ends the program, where it has not ended."""
        if self._process.poll() is None:
            self._process.kill()
            self._process.wait()
        assert self._process.stdin and self._process.stdout
        self._process.stdin.close()
        self._process.stdout.close()
        self._errors.close()


def reads_of(content: bytes) -> int:
    """How many reads the program makes at most of bytes that are written at once."""
    return 1 + len(content) * 2 // READ_BYTES
