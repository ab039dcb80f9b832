"""Other pasts, and asking in many of them as one stream of commands."""
from __future__ import annotations

import signal
import threading
import time
from bisect import bisect_right
from contextlib import contextmanager
from dataclasses import dataclass
from itertools import islice
from typing import Any, Generator, Iterable, Iterator, List, Optional, Protocol, Sequence, Tuple

from .. import replies
from ..driver import Driver
from ..log import Event, changes

# A question asks some commands, gets their replies, and may ask more. What it returns is its answer.
Asking = Generator[List[str], List[List[str]], Any]

# A stream is to take this many seconds: so long Ctrl-C may wait, and so often it is shown how far all is.
_STREAM = 0.1
_MOST = 256  # pasts in a stream


class Question(Protocol):
    """What is asked in a past. Its answers can be compared, and sent to another process."""

    def ask(self) -> Asking: ...


@dataclass(frozen=True)
class Past:
    """The commands that make another past of the present one, and those that take it back."""

    there: Tuple[str, ...] = ()
    back: Tuple[str, ...] = ()


PRESENT = Past()

# A past, and what is asked in it.
Case = Tuple[Past, Question]


def with_byte(log: Sequence[Event], index: int, byte: int) -> Past:
    """The past in which an event has another byte, or another level."""
    return Past((f"set {index} {byte}",), (f"set {index} {log[index].byte}",))


def without(log: Sequence[Event], first: int, end: int) -> Past:
    """The past without the events of some numbers, which follow one another."""
    return Past((f"del {first}",) * (end - first), (*(it.command for it in log[first:end]), *_into_place(log, first, end)))


def moved(log: Sequence[Event], index: int, step: int) -> Past:
    """The past in which an event comes in another step, after those that are in it."""
    others = [it.time for it in log]
    del others[index]
    place = bisect_right(others, step)
    return Past((f"move {index} {step}",), (f"move {place} {log[index].time}", *_into_place(log, index, index + 1)))


def _into_place(log: Sequence[Event], first: int, end: int) -> list[str]:
    """Puts events back in order that were added anew: each was added after all of its step, and some of that may come after them."""
    step, later = log[end - 1].time, end
    while later < len(log) and log[later].time == step:
        later += 1
    place = first + sum(it.time < step for it in log[first:end])
    return [f"move {place} {step}"] * (later - end)


def with_log(log: Sequence[Event], wanted: Sequence[Event]) -> Past:
    """The past with another log."""
    return Past(tuple(changes(log, wanted)), tuple(changes(wanted, log)))


# Asking

@contextmanager
def kept(driver: Driver) -> Iterator[None]:
    """Log, image and position are as they were afterwards, however it ends, also if the program died. Ctrl-C waits for that."""
    log, patches, position, count = list(driver.log), list(driver.patches), driver.position, len(driver.journal)
    with driver.long_run():
        try:
            yield
        finally:
            with undisturbed(driver):
                driver.restore(log, patches, position)
            del driver.journal[count:]


@contextmanager
def undisturbed(driver: Driver) -> Iterator[None]:
    """Ctrl-C does nothing, also one that was pressed before. What is done takes little time."""
    wants_stop, driver.wants_stop = driver.wants_stop, lambda: False
    is_main = threading.current_thread() is threading.main_thread()
    before = signal.signal(signal.SIGINT, signal.SIG_IGN) if is_main else None
    try:
        yield
    finally:
        if is_main:
            signal.signal(signal.SIGINT, before)
        driver.wants_stop = wants_stop


def answer(driver: Driver, question: Question) -> Any:
    """The answer in the present past."""
    return run(driver, question.ask())


def run(driver: Driver, asking: Asking) -> Any:
    """What is asked, turn by turn."""
    try:
        commands = next(asking)
        while True:
            commands = asking.send(_replies(driver, commands))
            driver.tell(driver.position)
    except StopIteration as end:
        return end.value


def answers(driver: Driver, cases: Sequence[Case], seconds: float = 0) -> Iterator[Any]:
    """The answers in cases, in their order, or those that the first of some seconds give. Each is asked in a stream with those after it,
    of as many as take little time."""
    done, size = 0, 1
    end = time.monotonic() + seconds
    while done < len(cases) and not (seconds and done and time.monotonic() > end):
        began = time.monotonic()
        batch = cases[done:done + size]
        yield from _stream(driver, batch)
        done += len(batch)
        took = time.monotonic() - began
        size = min(2 * size, _MOST) if 2 * took < _STREAM else max(size // 2, 1) if took > _STREAM else size


def told(driver: Driver, found: Iterable[Any], whole: Optional[int] = None, before: int = 0) -> Iterator[Any]:
    """Answers, of which it is shown how many there are, with those from before."""
    for count, it in enumerate(found, before + 1):
        if driver.report:
            driver.report.tried(count, whole)
        yield it


def _stream(driver: Driver, cases: Sequence[Case]) -> list[Any]:
    """The answers in a few cases: what each question asks first is asked in all of them together."""
    askings = [question.ask() for _, question in cases]
    firsts = [next(it) for it in askings]
    lines = iter(_replies(driver, [command for (past, _), first in zip(cases, firsts)
                                   for command in (*past.there, *first, *past.back)]))
    found = []
    for (past, _), asking, first in zip(cases, askings, firsts):
        _take(lines, len(past.there))
        got = _take(lines, len(first))
        _take(lines, len(past.back))
        try:
            more = asking.send(got)
        except StopIteration as end:
            found.append(end.value)
        else:
            found.append(_rest(driver, past, asking, more))
    return found


def _rest(driver: Driver, past: Past, asking: Asking, commands: list[str]) -> Any:
    """The answer of a question that asks more in a past."""
    _replies(driver, past.there)
    try:
        while True:
            commands = asking.send(_replies(driver, commands))
    except StopIteration as end:
        _replies(driver, past.back)
        return end.value


def _take(lines: Iterator[list[str]], count: int) -> list[list[str]]:
    return list(islice(lines, count))


def _replies(driver: Driver, commands: Sequence[str]) -> list[list[str]]:
    """The replies, of which some may say that nothing was found."""
    answered = driver.ask_all(commands)
    for command, lines in zip(commands, answered):
        refusal = replies.refusal_of(command, lines)
        if refusal and refusal.name != "NotFound":
            raise refusal
    return answered
