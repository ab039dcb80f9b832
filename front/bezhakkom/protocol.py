"""The commands of the program, as one table: all that the front ends know of a command by its name."""
from __future__ import annotations

from dataclasses import dataclass
from typing import Any, Callable, Optional, Sequence, Union

from . import jumps, replies, tracing
from .limits import (
    COMMAND_BYTES, CONSOLE_BYTES, EXTERNAL_LINES, FINDS, GREATEST_POSITION, GREATEST_TIME, JUMPS, LINES, MOST_EVENTS, PCS, STORES,
    TRACED, VISIT_STEPS, WORDS)
from .replies import is_refusal, number_of, words_of

Value = Union[None, int, str, list, dict]


@dataclass(frozen=True)
class Command:
    """A command: its name, and those of its arguments as docs/USING.md has them.

    `range` says which numbers it takes, to who gave another one. `value` is what a reply says, as a value of JSON, and `lines` how many
    lines stand after the first one of a reply, by the numbers of the command and that line.
    """

    name: str
    arguments: str = ""
    range: str = "a number is below 2^64"
    value: Callable[[Sequence[str]], Value] = replies.last_number
    lines: Callable[[Sequence[int], str], int] = lambda numbers, first: 0
    runs: bool = False  # it runs the machine up to the position
    shows_position: bool = False
    moves: Optional[Callable[[int, int], int]] = None  # where it leads from a position, by its number alone
    edits_log: bool = False
    edits_image: bool = False

    @property
    def edits(self) -> bool:
        return self.edits_log or self.edits_image


def _listed(line: str) -> dict[str, Any]:
    address, word = line.split()[:2]
    return {"address": int(address, 16), "word": int(word, 16)}


def _event(line: str) -> dict[str, Any]:
    number, time, place, byte, *kind = line.split()
    return {"event": int(number), "time": int(time), "line": int(place), "byte": int(byte, 16), "kind": kind[0] if kind else "byte"}


def _entry(lines: Sequence[str]) -> Value:
    words = lines[0].split()
    return {"hi": int(words[2], 16), "lo": int(words[3], 16)}


def _console(lines: Sequence[str]) -> Value:
    count, shown = replies.console(lines)
    return {"count": count, "bytes": list(shown)}


def _log(lines: Sequence[str]) -> Value:
    return {"count": int(lines[0].split()[1]), "events": [_event(line) for line in lines[1:]]}


def _events_after(numbers: Sequence[int], first: str) -> int:
    """How many events follow the line that says how many there are."""
    return min(numbers[1], max(0, int(first.split()[1]) - numbers[0]))


def _words_after(numbers: Sequence[int], first: str) -> int:
    return numbers[1] - 1


def _counted(numbers: Sequence[int], first: str) -> int:
    """How many lines follow the line that says so."""
    return int(first.split()[1])


def _timed(first: str, second: str) -> Callable[[Sequence[str]], Value]:
    """The value of a list of pairs, by their names."""
    return lambda lines: [{first: one, second: two} for one, two in replies.timed(lines)]


_DEVICES_AFTER = 7  # lines: those of the serial part's lines, its silo, the clock and the board
_LINE = f"a line is 0 to {LINES - 1}"
_TIME = f"a step is 0 to {GREATEST_TIME:,}"
_MOST = f"and a log has at most {MOST_EVENTS:,} events"
_BYTE = f"{_TIME}, {_LINE}, a byte is 0 to 255; {_MOST}"
_LEVEL = f"{_TIME}, an external line is 0 to {EXTERNAL_LINES - 1}, a level is 0 or 1; {_MOST}"
_WORDS = f"an address is below 0x100000000, and 1 to {WORDS} words are shown"
_ADDRESS = "an address and a word are below 0x100000000"

_ROWS = (
    Command("pos", shows_position=True),
    Command("goto", "N", shows_position=True, moves=lambda here, number: number),
    Command("step", "N", shows_position=True, moves=lambda here, number: here + number),
    Command("back", "N", shows_position=True, moves=lambda here, number: here - number),
    Command("visit", "A K", f"an address is below 0x100000000, and at most {VISIT_STEPS:,} steps are looked at", runs=True,
            shows_position=True),
    Command("regs", value=lambda lines: dict(vars(replies.registers(lines))), lines=lambda numbers, first: 8, runs=True),
    Command("reg", "K", "a register is 0 to 31", lambda lines: int(lines[0].split()[1], 16), runs=True),
    Command("cp0", value=lambda lines: dict(replies.control(lines)), runs=True),
    Command("tlb", "I", "a translation entry is 0 to 63", _entry, runs=True),
    Command("where", "A", _ADDRESS, lambda lines: dict(vars(replies.where(lines))), runs=True),
    Command("mem", "A C", _WORDS, lambda lines: [_listed(line) for line in lines], _words_after, runs=True),
    Command("dis", "A C", _WORDS, lambda lines: [{**_listed(line), "text": line.split(None, 2)[2]} for line in lines], _words_after,
            runs=True),
    Command("console", "L F C", f"{_LINE}, and 1 to {CONSOLE_BYTES} bytes are shown", _console, runs=True),
    Command("find", "L P", _LINE, runs=True),
    Command("writer", "A", _ADDRESS, lambda lines: dict(vars(replies.writer(lines))), runs=True),
    Command("stores", "A C", f"an address is below 0x100000000, and 1 to {STORES} stores are shown", _timed("step", "word"), _counted, runs=True),
    Command("finds", "L P C", f"{_LINE}, and 1 to {FINDS} bytes are shown", _timed("place", "step"), _counted, runs=True),
    Command("regwriter", "K", "a register is 0 to 31, 32 for HI, or 33 for LO", lambda lines: replies.writer(lines).step, runs=True),
    Command("pcs", "D C", f"1 to {PCS} positions are shown, 1 or more steps apart", _timed("position", "pc"), _counted, runs=True),
    Command("devices", value=replies.devices, lines=lambda numbers, first: _DEVICES_AFTER, runs=True),
    Command("trace", "C", f"1 to {TRACED} steps are followed", lambda lines: [tracing.value(line) for line in lines],
            lambda numbers, first: numbers[0] - 1, runs=True),
    Command("jumps", "K C", f"the first number is 0 or 1, and 1 to {JUMPS} steps are shown", jumps.value, _counted, runs=True),
    Command("log", "F C", "1 to 32 events are shown", _log, _events_after),
    Command("add", "T L B", _BYTE, edits_log=True),
    Command("ferr", "T L B", _BYTE, edits_log=True),
    Command("wire", "T K V", _LEVEL, edits_log=True),
    Command("del", "I", edits_log=True),
    Command("erase", "F T", f"both steps are 0 to {GREATEST_POSITION:,}, and the first is not above the second", edits_log=True),
    Command("set", "I B", "a byte is 0 to 255, and the level of an external line 0 or 1", edits_log=True),
    Command("move", "I T", _TIME, edits_log=True),
    Command("patch", "A W", _ADDRESS, lambda lines: lines[0].split()[0], edits_image=True),
    Command("quit"),
)
COMMANDS = {it.name: it for it in _ROWS}
LOG_EDITS = tuple(it.name for it in _ROWS if it.edits_log)
EDITS = tuple(it.name for it in _ROWS if it.edits)


def command_of(words: Sequence[str]) -> Optional[Command]:
    """The command that the words of a line name, if there is one."""
    return COMMANDS.get(words[0]) if words else None


def has_reply(line: str) -> bool:
    """Whether a line has a reply: blank lines, comments and `quit` have none, lines that are too long are refused."""
    if len(line.encode("utf-8", "surrogateescape")) > COMMAND_BYTES:
        return True
    words = words_of(line)
    return bool(words) and not words[0].startswith("#") and words != ("quit",)


def lines_after(line: str, first: str) -> int:
    """How many lines of the reply to a line stand after its first one."""
    if is_refusal(first):
        return 0
    name, *numbers = words_of(line)
    return COMMANDS[name].lines([number_of(it) or 0 for it in numbers], first)


def value(line: str, lines: Sequence[str]) -> Value:
    """What the reply to a line says, as a value of JSON: words are numbers, and what has several parts is an object."""
    return COMMANDS[words_of(line)[0]].value(lines)
