"""What can be asked at a position. Each question gives the same answer in the same past."""
from __future__ import annotations

from dataclasses import dataclass
from typing import Any, List, Optional, Sequence, Tuple

from .. import replies
from ..limits import CONSOLE_BYTES
from .pasts import Asking, Question


@dataclass(frozen=True)
class Register:
    """A register of the processor: r0 to r31 by a number, or pc, next_pc, hi, lo or one of the control registers by its name."""

    name: str
    number: Optional[int] = None

    def ask(self) -> Asking:
        if self.number is not None:
            lines, = yield [f"reg {self.number}"]
            return int(lines[0].split()[1], 16)
        if self.name in replies.CONTROL_NAMES:
            lines, = yield ["cp0"]
            return replies.control(lines)[self.name]
        lines, = yield ["regs"]
        return getattr(replies.registers(lines), self.name)


@dataclass(frozen=True)
class State:
    """The reply to `regs`, which is only compared."""

    def ask(self) -> Asking:
        lines, = yield ["regs"]
        return tuple(lines)


@dataclass(frozen=True)
class Word:
    """The word of memory at a physical address."""

    physical: int

    def ask(self) -> Asking:
        lines, = yield [f"mem {self.physical} 1"]
        return replies.memory(lines)[0]


@dataclass(frozen=True)
class Sent:
    """The byte at a place of what a line sent, or None where it sent less."""

    line: int
    place: int

    def ask(self) -> Asking:
        lines, = yield [f"console {self.line} {self.place} 1"]
        shown = replies.console(lines)[1]
        return shown[0] if shown else None


@dataclass(frozen=True)
class SentIn:
    """That byte with the step that sent it, or None where the line sent less."""

    line: int
    place: int

    def ask(self) -> Asking:
        lines, found = yield [f"console {self.line} {self.place} 1", f"find {self.line} {self.place}"]
        shown = replies.console(lines)[1]
        return (shown[0], replies.last_number(found)) if shown else None


@dataclass(frozen=True)
class Console:
    """All bytes that a line sent, from a place on. About `likely` of them are expected, which takes one turn."""

    line: int
    first: int = 0
    likely: int = 0

    def ask(self) -> Asking:
        places = range(self.first, self.first + self.likely + 1, CONSOLE_BYTES)
        answered = yield self._commands(places)
        count = replies.console(answered[0])[0]
        rest = range(places[-1] + CONSOLE_BYTES, count, CONSOLE_BYTES)
        if rest:
            answered += yield self._commands(rest)
        return b"".join(replies.console(lines)[1] for lines in answered)

    def _commands(self, places: Sequence[int]) -> list[str]:
        return [f"console {self.line} {at} {CONSOLE_BYTES}" for at in places]


@dataclass(frozen=True)
class At:
    """Several questions at a position. The answer has those of each."""

    position: int
    parts: Tuple[Question, ...]

    def ask(self) -> Asking:
        return at(self.position, together(self.parts))


@dataclass(frozen=True)
class All:
    """Several questions that go to their positions by themselves. The answer has those of each."""

    parts: Tuple[Question, ...]

    def ask(self) -> Asking:
        return together(self.parts)


def at(position: int, asking: Asking) -> Asking:
    """What is asked, at a position."""
    commands = next(asking)
    while True:
        answered = yield [f"goto {position}", *commands]
        try:
            commands = asking.send(answered[1:])
        except StopIteration as end:
            return end.value


def together(questions: Sequence[Question]) -> Asking:
    """What several questions ask, in the same turns."""
    values: List[Any] = [None] * len(questions)
    askings = [it.ask() for it in questions]
    waiting = [(place, asking, next(asking)) for place, asking in enumerate(askings)]
    while waiting:
        answered = yield [command for _, _, commands in waiting for command in commands]
        asked, waiting = waiting, []
        for place, asking, commands in asked:
            mine, answered = answered[:len(commands)], answered[len(commands):]
            try:
                waiting.append((place, asking, asking.send(mine)))
            except StopIteration as end:
                values[place] = end.value
    return tuple(values)
