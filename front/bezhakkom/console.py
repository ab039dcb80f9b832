"""`bin/wb console`: a terminal on a serial line, with time at a chosen speed. What is typed becomes events of the log."""
from __future__ import annotations

import os
import select
import sys
import termios
import time
import tty
from contextlib import contextmanager
from typing import Iterator, Sequence

from . import loading, rescue, saved
from . import log as logs
from .arguments import Parser, natural
from .arriving import gap_of
from .driver import Driver
from .errors import Problem, Unexpected
from .installed import NAME
from .limits import GREATEST_POSITION, LINES
from .log import Event, Kind
from .printable import printable
from .saving import FORCE_WORD, Seen, save

KEYS = """\
Ctrl-] and then:
  b  goes back by a second of time at its speed, and drops what arrives later at the line
  f  sends a break: a byte 0 arrives with a framing error
  0 1 2  turns an external line up, or down where it is up
  p  stops time, and lets it go on
  + -  doubles and halves the speed
  s  saves the log    q  leaves    ?  shows these keys    Ctrl-]  types Ctrl-]
"""

DESCRIPTION = """\
A terminal on a serial line: what the line sends is shown, and what is typed arrives there and becomes part of the log.
"""

EPILOG = f"""\
{KEYS}
Example:

  {NAME} console examples/login/login.elf
"""

LINE_END = "\r\n"
_ESCAPE = 0x1D
_END = b"\x1dq"  # what the end of the input is taken for
_TICK = 0.02

# How much of what a line sent is shown again after going back.
_SHOWN_AGAIN = 1 << 16


def parser() -> Parser:
    made = Parser("console", "[OPTIONS] [--line L] [--speed N] IMAGE", DESCRIPTION, EPILOG)
    made.add_argument("image", metavar="IMAGE", help="what the machine starts from, or a session that `save` made")
    loading.add_options(made)
    made.add_argument("--line", metavar="L", type=natural, default=0, help=f"the serial line, 0 to {LINES - 1}; without it 0")
    made.add_argument("--speed", metavar="N", type=natural, default=1_000_000, help="steps a second; without it 1,000,000")
    return made


def main(arguments: Sequence[str]) -> int:
    line = parser().read(arguments)
    serial, speed = line.line, line.speed
    if not 0 <= serial < LINES or speed < 1:
        raise Problem(f"a line is 0 to {LINES - 1}, and a speed at least 1 step a second")
    if not all(it and it.isatty() for it in (sys.stdin, sys.stdout)):
        raise Problem(f"console wants a terminal; scripts have `type` and `expect` of {NAME} shell")
    with saved.opened(loading.Opening.of(line, line.image)) as found, loading.running(found.opening) as driver:
        driver.values(found.edits())
        console = Console(driver, serial, speed)
        with rescue.kept(lambda: saved.text_of_state(found.origin, driver) if console.is_unsaved() else None, line.image):
            print(f"line {serial}, {speed:,} steps a second; Ctrl-] ? shows the keys")
            console.run()
    return 0


class Console:
    """A line of the machine on this terminal."""

    def __init__(self, driver: Driver, line: int, speed: int) -> None:
        self._driver = driver
        self._line = line
        self._speed = speed
        self._gap = gap_of(driver.boot().byte_time)
        self._next = 0  # the step in which a typed byte may arrive
        self._shown = 0  # how many bytes of the line are shown
        self._saved = list(driver.log)
        self._seen = Seen()
        self._escaped = False
        self._stopped = False
        self._left = False

    def run(self) -> None:
        with _raw():
            before = time.monotonic()
            while not self._left:
                keys = os.read(0, 1024) or _END if select.select([0], [], [], _TICK)[0] else b""
                now = time.monotonic()
                try:
                    for key in keys:
                        self._key(key)
                    if not self._stopped:
                        self._go_on(min(now - before, 5 * _TICK))
                except Exception as error:  # what is told of it fails too if the output did
                    self._stopped = True
                    problem = error if isinstance(error, Problem) else Unexpected(error)
                    self._tell(f"{problem}; time stands, and Ctrl-] p lets it go on")
                before = now

    def _go_on(self, seconds: float) -> None:
        """Lets time go on, and shows what the line sent."""
        driver = self._driver
        driver.goto(min(driver.position + max(1, int(seconds * self._speed)), GREATEST_POSITION))
        sent = driver.console(self._line, self._shown)
        self._shown += len(sent)
        _write(sent)
        if driver.position == GREATEST_POSITION:
            self._tell("that is the last step")
            self._stopped = True

    def _key(self, key: int) -> None:
        if self._escaped:
            self._escaped = False
            self._command(chr(key))
        elif key == _ESCAPE:
            self._escaped = True
        else:
            self._type(key)

    def _type(self, byte: int, kind: Kind = Kind.BYTE) -> None:
        at = max(self._driver.position, self._next)
        self._driver.add(at, self._line, byte, kind)
        self._next = at + self._gap

    def _turn(self, line: int) -> None:
        """Turns an external line over."""
        here = self._driver.position
        levels = [it.byte for it in self._driver.log if it.kind == Kind.WIRE and it.line == line and it.time <= here]
        level = 1 - (levels[-1] if levels else 0)
        self._driver.add(here, line, level, Kind.WIRE)
        self._tell(f"external line {line} is {'up' if level else 'down'} from step {here:,} on")

    def _command(self, key: str) -> None:
        if key == chr(_ESCAPE):
            self._type(_ESCAPE)
        elif key == "b":
            self._go_back()
        elif key == "f":
            self._type(0, Kind.FRAMING)
        elif key in "012":
            self._turn(int(key))
        elif key == "p":
            self._stopped = not self._stopped
            self._tell(f"step {self._driver.position:,}: time {'stands' if self._stopped else 'goes on'}")
        elif key in "+-":
            self._speed = max(1, self._speed * 2 if key == "+" else self._speed // 2)
            self._tell(f"{self._speed:,} steps a second")
        elif key == "s":
            self._save()
        elif key == "q":
            self._leave()
        else:
            self._tell(KEYS.rstrip().replace("\n", LINE_END))

    def _go_back(self) -> None:
        """A second back, without what arrives at the line later."""
        driver = self._driver
        driver.goto(max(0, driver.position - self._speed))
        driver.revert([it for it in driver.log if not self._is_here(it) or it.time < driver.position], driver.patches)
        self._next = driver.position
        sent = driver.console(self._line)
        self._shown = len(sent)
        _write(b"\x1b[2J\x1b[H")
        self._tell(f"back at step {driver.position:,}; what arrived later is gone")
        _write(sent[-_SHOWN_AGAIN:])

    def _is_here(self, event: Event) -> bool:
        """Whether an event is of the terminal's line."""
        return event.kind != Kind.WIRE and event.line == self._line

    def is_unsaved(self) -> bool:
        return self._driver.log != self._saved

    def _leave(self) -> None:
        if self.is_unsaved():
            self._save()
        self._left = True

    def _save(self) -> None:
        """Asks for a name until the log is saved, or none is given."""
        with _cooked():
            try:
                while answer := input(f"\r\n[{len(self._driver.log):,} events; save the log as (nothing: not at all): ").strip():
                    try:
                        self._save_as(answer)
                        return
                    except Problem as problem:
                        print(f"not saved: {problem}")
            except (EOFError, KeyboardInterrupt):
                print("not saved")

    def _save_as(self, answer: str) -> None:
        """Saves the log by the name in an answer, after which `force` may stand."""
        name = answer.removesuffix(f" {FORCE_WORD}").strip()
        save(name, logs.write(self._driver.log), logs.LOG, name != answer, f"{name} {FORCE_WORD}", self._seen)
        self._saved = list(self._driver.log)

    def _tell(self, message: str) -> None:
        _write(f"\r\n[{printable(message, LINE_END)}]\r\n".encode())


def _write(content: bytes) -> None:
    sys.stdout.buffer.write(content)
    sys.stdout.buffer.flush()


@contextmanager
def _raw() -> Iterator[None]:
    """The terminal hands on each key, Ctrl-C too."""
    before = termios.tcgetattr(0)
    tty.setraw(0)
    try:
        yield
    finally:
        termios.tcsetattr(0, termios.TCSADRAIN, before)
        print()


@contextmanager
def _cooked() -> Iterator[None]:
    """The terminal reads whole lines for a while."""
    raw = termios.tcgetattr(0)
    cooked = termios.tcgetattr(0)
    cooked[0] |= termios.ICRNL
    cooked[1] |= termios.OPOST
    cooked[3] |= termios.ECHO | termios.ICANON | termios.ISIG
    termios.tcsetattr(0, termios.TCSADRAIN, cooked)
    try:
        yield
    finally:
        termios.tcsetattr(0, termios.TCSADRAIN, raw)
