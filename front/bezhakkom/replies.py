"""The replies of the program: what they say."""
from __future__ import annotations

import re
from dataclasses import dataclass
from functools import lru_cache, wraps
from typing import Any, Callable, Optional, Sequence, TypeVar, Union, cast

from .errors import Problem, Refused
from .limits import COMMAND_BYTES

WORD_LINE = 22  # bytes of a line of a reply to `mem`: `0x00001000 0x00000020` and a line end

CONTROL_NAMES = ("index", "random", "entrylo", "context", "badvaddr", "entryhi", "status", "cause", "epc", "prid")


Reads = TypeVar("Reads", bound=Callable[..., Any])


def checked(reads: Reads) -> Reads:
    """A function that reads a reply, of which the lines are its last argument. What is no reply of the program is a Problem."""
    @wraps(reads)
    def made(*arguments: Any) -> Any:
        try:
            return reads(*arguments)
        except (ValueError, IndexError):
            raise no_reply(arguments[-1]) from None
    return cast(Reads, made)


def no_reply(lines: Union[str, Sequence[str]]) -> Problem:
    """The Problem of lines that no reply of the program has."""
    first = lines if isinstance(lines, str) else "".join(lines[:1])
    return Problem(f"{first[:60]!r} is no reply of the program: another one was started, which WB_PROGRAM may name", 70)


@dataclass(frozen=True)
class Registers:
    """The processor at a position. `load` is the register and the value that has not landed yet."""

    pc: int
    next_pc: int
    hi: int
    lo: int
    delay: bool
    load: Optional[tuple[int, int]]
    general: list[int]


@dataclass(frozen=True)
class Where:
    """Where a virtual address leads: `kind` is cached, uncached, adel, refill or tlbl; the first two have a physical address."""

    kind: str
    physical: Optional[int]


@dataclass(frozen=True)
class Writer:
    """What wrote a word last: `kind` is step, image or never, and a step has its number."""

    kind: str
    step: Optional[int]


@lru_cache(1 << 12)
def words_of(command: str) -> tuple[str, ...]:
    """The words of a command, as the program divides it."""
    return tuple(word for word in command.replace("\t", " ").split(" ") if word)


@lru_cache(1 << 12)
def number_of(word: str) -> Optional[int]:
    """The number that a word of a command is, decimal or hexadecimal after 0x, as the program reads it. No command has room for a word
    of more bytes than a line."""
    if len(word) > COMMAND_BYTES:
        return None
    if re.fullmatch("0x[0-9a-fA-F]+", word):
        return int(word, 16)
    return int(word) if re.fullmatch("[0-9]+", word) else None


def is_refusal(line: str) -> bool:
    return line.startswith("error ")


@checked
def refusal_of(command: str, lines: Sequence[str]) -> Optional[Refused]:
    """The refusal that a reply is, or None."""
    if not lines or not is_refusal(lines[0]):
        return None
    _, number, name = lines[0].split()
    return Refused(int(number), name, command)


@checked
def registers(lines: Sequence[str]) -> Registers:
    """The value of a reply to `regs`."""
    _, pc, _, following, _, hi, _, lo, _, delay, _, *load = lines[0].split()
    general = [int(word, 16) for line in lines[1:] for word in line.split()[1:]]
    pending = None if load == ["none"] else (int(load[0][1:]), int(load[1], 16))
    return Registers(int(pc, 16), int(following, 16), int(hi, 16), int(lo, 16), delay == "1", pending, general)


@checked
def control(lines: Sequence[str]) -> dict[str, int]:
    """The value of a reply to `cp0`: the registers by their names."""
    words = lines[0].split()
    return {name: int(word, 16) for name, word in zip(words[::2], words[1::2])}


@checked
def where(lines: Sequence[str]) -> Where:
    """The value of a reply to `where`."""
    words = lines[0].split()
    if words[1].startswith("0x"):
        return Where(words[2], int(words[1], 16))
    return Where(words[-1], None)


@checked
def writer(lines: Sequence[str]) -> Writer:
    """The value of a reply to `writer`."""
    word = lines[0].split()[1]
    return Writer("step", int(word)) if word.isdigit() else Writer(word, None)


@checked
def memory(lines: Sequence[str]) -> list[int]:
    """The words of a reply to `mem`."""
    return [int(line.split()[1], 16) for line in lines]


@checked
def console(lines: Sequence[str]) -> tuple[int, bytes]:
    """How many bytes a line had sent, and those that a reply to `console` shows."""
    _, count, shown = lines[0].split()[1:]
    return int(count), b"" if shown == "none" else bytes.fromhex(shown)


@checked
def last_number(lines: Sequence[str]) -> int:
    """The number at the end of a reply of one line: of `pos`, `event`, `find` and `log`."""
    return int(lines[0].split()[-1], 0)


@checked
def timed(lines: Sequence[str]) -> list[tuple[int, int]]:
    """The lines after the first one of a reply to `stores`, `finds` or `pcs`: of each the two numbers."""
    pairs = (line.split() for line in lines[1:])
    return [(int(first), int(second, 0)) for first, second in pairs]


@checked
def devices(lines: Sequence[str]) -> dict[str, Any]:
    """What a reply to `devices` says. The registers are as reads would give them, and words of the silo as RBUF would."""
    serial, *four, silo, clock, board = (it.split() for it in lines)
    return {
        "serial": {name: int(word, 0) for name, word in zip(serial[1::2], serial[2::2])},
        "lines": [{"receiver": it[3] == "1", "lost": it[5] == "1", "busy": int(it[7])} for it in four],
        "silo": [int(word, 16) for word in silo[2:]],
        "clock": {"interrupt": clock[2] == "1", "second": _ticks(clock[4]), "period": _ticks(clock[6]),
                  "registers": list(bytes.fromhex(clock[8]))},
        "board": {"csr": int(board[2], 16), "interrupt": board[4] == "1"},
    }


def _ticks(word: str) -> Optional[int]:
    return None if word == "none" else int(word)
