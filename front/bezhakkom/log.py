"""Logs: what arrives at the serial lines and the levels that external lines get, each at its step. The formats of files, and the
text for people."""
from __future__ import annotations

import re
import struct
from dataclasses import dataclass
from enum import IntEnum
from typing import Iterable, Iterator, Sequence

from .errors import Problem
from .installed import NAME
from .limits import EXTERNAL_LINES, GREATEST_TIME, LINES, MOST_EVENTS
from .saving import Form

# Format 1 has the time, the line and the value of an event, format 2 also the kind, and more room for the time.
FORMAT_1, FORMAT_2 = b"R3KLOG1\n", b"R3KLOG2\n"
_EVENT_1, _EVENT_2 = struct.Struct("<IBB"), struct.Struct("<QBBB")
_GREATEST_TIME_1 = 0xFFFF_FFFE

LOG = Form("log", (FORMAT_1, FORMAT_2))


class Kind(IntEnum):
    """What an event is, by its number in format 2."""

    BYTE = 0
    FRAMING = 1
    WIRE = 2


# The commands that add an event of each kind.
ADDS = {"add": Kind.BYTE, "ferr": Kind.FRAMING, "wire": Kind.WIRE}
_ADD = {kind: name for name, kind in ADDS.items()}


@dataclass(frozen=True)
class Event:
    """A byte that arrives at a serial line in the step of a time, or arrives with a framing error; or an external line that gets
    the level `byte`."""

    time: int
    line: int
    byte: int
    kind: Kind = Kind.BYTE

    @property
    def command(self) -> str:
        """The command that adds it."""
        return f"{_ADD[self.kind]} {self.time} {self.line} {self.byte}"


def is_log(content: bytes) -> bool:
    """Whether a file begins as a log does."""
    return content.startswith(LOG.beginnings)


def read(content: bytes, name: str) -> list[Event]:
    """The events of a log in a file. No bytes at all are the empty log."""
    if not content:
        return []
    if not is_log(content):
        raise Problem(f"{name} is no log: it does not begin with R3KLOG1 or R3KLOG2. "
                      f"If it is the text of one, make it a log with: {NAME} log make {name} OUT")
    if len(content) < len(FORMAT_1) + 4:
        raise Problem(f"{name} ends before its number of events")
    count = int.from_bytes(content[8:12], "little")
    body = content[12:]
    if count > MOST_EVENTS:
        raise Problem(f"{name} says that it has {count:,} events; a log has at most {MOST_EVENTS:,}")
    is_second = content.startswith(FORMAT_2)
    packed = _EVENT_2 if is_second else _EVENT_1
    if len(body) != count * packed.size:
        raise Problem(f"{name} says that it has {count:,} events, which are {count * packed.size:,} bytes; it has {len(body):,}")
    if not is_second:
        events = [Event(*it) for it in packed.iter_unpack(body)]
        check(events, name, _GREATEST_TIME_1)
        return events
    events = []
    for number, (time, kind, line, byte) in enumerate(packed.iter_unpack(body)):
        if kind > max(Kind):
            raise Problem(f"{name}: event {number} is of kind {kind}; there are 0, a byte, 1, a framing error, and 2, an external line")
        events.append(Event(time, line, byte, Kind(kind)))
    check(events, name)
    return events


def check(events: Sequence[Event], name: str, greatest: int = GREATEST_TIME) -> None:
    """Refuses events that the program would refuse."""
    if len(events) > MOST_EVENTS:
        raise _too_many(name)
    before = 0
    for number, event in enumerate(events):
        if not before <= event.time <= greatest:
            raise Problem(f"{name}: event {number} is at step {event.time:,}, after one at {before:,}; "
                          f"steps don't fall, and are at most {greatest:,}")
        if event.kind != Kind.WIRE and event.line >= LINES:
            raise Problem(f"{name}: event {number} is at line {event.line}; there are lines 0 to {LINES - 1}")
        if event.kind == Kind.WIRE and event.line >= EXTERNAL_LINES:
            raise Problem(f"{name}: event {number} is of external line {event.line}; they are 0 to {EXTERNAL_LINES - 1}")
        if event.kind == Kind.WIRE and event.byte > 1:
            raise Problem(f"{name}: event {number} gives an external line the level {event.byte}; a level is 0 or 1")
        before = event.time


def _too_many(name: str) -> Problem:
    return Problem(f"{name} has too many events: a log has at most {MOST_EVENTS:,}")


def write(events: Sequence[Event]) -> bytes:
    """The file of a log: of format 1 where it has room for all events, else of format 2."""
    count = len(events).to_bytes(4, "little")
    if all(it.kind == Kind.BYTE and it.time <= _GREATEST_TIME_1 for it in events):
        return FORMAT_1 + count + b"".join(_EVENT_1.pack(it.time, it.line, it.byte) for it in events)
    return FORMAT_2 + count + b"".join(_EVENT_2.pack(it.time, it.kind, it.line, it.byte) for it in events)


def changes(now: Sequence[Event], wanted: Sequence[Event]) -> list[str]:
    """The commands that make one log of another."""
    begin = _alike(now, wanted)
    end = _alike(reversed(now[begin:]), reversed(wanted[begin:]))
    # An event is added after all of its time, so those of the same time after it are added anew too.
    while 0 < end < len(wanted) - begin and wanted[-end].time == wanted[-end - 1].time:
        end -= 1
    added = [it.command for it in wanted[begin:len(wanted) - end]]
    return [f"del {begin}"] * (len(now) - end - begin) + added


def _alike(one: Iterable[Event], two: Iterable[Event]) -> int:
    """How many of the first events are the same."""
    count = 0
    for first, second in zip(one, two):
        if first is not second and first != second:  # mostly they are one and the same, which is seen in far less time
            break
        count += 1
    return count


# The text: a line for bytes that arrive at one serial line at equal gaps, `TIME LINE 'BYTES' [GAP] [framing]`, and one for each
# level that an external line gets, `TIME LINE LEVEL wire`.

TEXT_HELP = """\
A line is `TIME LINE 'BYTES' [GAP]`: the bytes arrive at serial line LINE from step TIME on, GAP steps apart
(without a gap all in that step). With `framing` at its end they arrive with framing errors. Or it is
`TIME LINE LEVEL wire`: external line LINE, 0 to 2, gets the level 0 or 1 in step TIME. A TIME of +N is N steps
after the last event of the line before. In BYTES stand \\b, \\t, \\n, \\r, \\e, \\\\, \\' and \\xNN. What follows # is a
comment."""

_LONGEST_ESCAPE = 4  # characters of \xNN
_MOST_DIGITS = 64  # zeros before a number count too
_ESCAPES = {"b": 8, "t": 9, "n": 10, "r": 13, "e": 27, "0": 0, "\\": 92, "'": 39, '"': 34}
_SHOWN = {8: "\\b", 9: "\\t", 10: "\\n", 13: "\\r", 27: "\\e", 92: "\\\\", 39: "\\'"}
_TEXT_LINE = re.compile(r"(\+?)(\w+)\s+(\w+)\s+(?:'((?:[^'\\]|\\.)*)'(?:\s+(?!framing\b)(\w+))?(?:\s+(framing))?|(\w+)\s+wire)"
                        r"\s*(?:#.*)?")


def quoted(content: Iterable[int]) -> str:
    """Bytes between quotes, with escapes for those that are no plain characters."""
    return "'" + "".join(_SHOWN.get(it) or (chr(it) if 32 <= it < 127 else f"\\x{it:02x}") for it in content) + "'"


def unquoted(text: str) -> bytes:
    """The bytes that a text with escapes is, without its quotes."""
    made = bytearray()
    for found in re.finditer(r"([^\\]+)|\\(x[0-9a-fA-F]{2}|.|$)", text, re.DOTALL):
        plain, escape = found.groups()
        if plain:
            try:
                made += plain.encode("utf-8", "surrogateescape")
            except UnicodeEncodeError as error:
                raise Problem(f"{plain[error.start]!r} is no character of UTF-8. Its bytes may stand in its place, as \\xNN") from None
        elif len(escape) == 3:
            made.append(int(escape[1:], 16))
        elif escape in _ESCAPES:
            made.append(_ESCAPES[escape])
        else:
            raise Problem(f"\\{escape} is no escape: there are \\b \\t \\n \\r \\e \\0 \\\\ \\' \\\" and \\xNN")
    return bytes(made)


def show(events: Sequence[Event]) -> Iterator[str]:
    """The text of a log, line by line: as few lines as its order allows."""
    at = 0
    while at < len(events):
        first = events[at]
        if first.kind == Kind.WIRE:
            yield f"{first.time} {first.line} {first.byte} wire"
            at += 1
            continue
        end, gap = _run(events, at)
        text = quoted(it.byte for it in events[at:end])
        yield f"{first.time} {first.line} {text}" + (f" {gap}" if gap else "") + (" framing" if first.kind == Kind.FRAMING else "")
        at = end


def _run(events: Sequence[Event], at: int) -> tuple[int, int]:
    """The end of the events from one on that have its kind and line and equal gaps, and the gap. Only two events have a gap only
    if it is 0."""
    end = at + 1
    first = events[at]
    gap = events[end].time - first.time if end < len(events) else 0
    while (end < len(events) and (events[end].kind, events[end].line) == (first.kind, first.line)
           and events[end].time - events[end - 1].time == gap):
        end += 1
    return (end, gap) if not gap or end > at + 2 else (at + 1, 0)


def make(lines: Iterable[str], name: str) -> list[Event]:
    """The log of a text. Lines may overlap in time; of one time the events stand in the order of the text."""
    events: list[Event] = []
    last = 0
    for number, line in enumerate(lines, 1):
        line = line.strip()
        if not line or line.startswith("#"):
            continue
        match = _TEXT_LINE.fullmatch(line)
        if not match:
            shown = f"{line[:80]}.." if len(line) > 80 else line
            raise Problem(f"{name}:{number}: {shown!r} is not of the form TIME LINE 'BYTES' [GAP] [framing] or TIME LINE LEVEL wire")
        time, place, gap, level = (_natural(it, f"{name}:{number}") for it in (match[2], match[3], match[5] or "0", match[7] or "0"))
        time += last if match[1] else 0
        if match[7]:
            events.append(Event(time, place, level, Kind.WIRE))
            last = time
            continue
        kind = Kind.FRAMING if match[6] else Kind.BYTE
        if len(match[4]) > _LONGEST_ESCAPE * MOST_EVENTS:
            raise _too_many(name)
        for byte in unquoted(match[4]):
            events.append(Event(time, place, byte, kind))
            last, time = time, time + gap
        if len(events) > MOST_EVENTS:
            raise _too_many(name)
    events.sort(key=lambda it: it.time)
    check(events, name)
    return events


def _natural(word: str, place: str) -> int:
    try:
        if len(word) <= _MOST_DIGITS:
            return int(word, 0)
    except ValueError:
        pass
    raise Problem(f"{place}: {word[:40]} is no number")
