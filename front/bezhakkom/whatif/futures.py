"""What comes of other pasts: their outcomes, grouped.

An outcome is what the lines sent from the change on, what is asked for besides, and, unless outcomes are grouped by what was sent, the
function in which the program stands. Pasts with equal outcomes make a group, and the groups stand in the order of their first past.
"""
from __future__ import annotations

from concurrent.futures import Executor
from dataclasses import dataclass, field
from typing import Any, Dict, Iterable, Iterator, List, Optional, Sequence, Tuple

from ..driver import Driver
from ..errors import STOPPED, Problem
from ..limits import GREATEST_TIME, LINES
from ..log import Event, Kind
from ..symbols import Symbols
from . import pasts
from .conditions import Condition, Then
from .jobs import answers
from .pasts import Case, Past, Question, kept, told
from .questions import At, Console, Register, State

# What is done to the event: it gets a value, is taken out, or is moved to a step.
Label = Tuple[str, int]
VALUE, OUT, STEP = "value", "out", "step"

_SETTLED = 1 << 20  # steps after the last event
_FAR = 1 << 22  # steps that are worth a look before them
_FIRST, _MOST = 64, 1 << 14  # pasts that are ordered together, at first and at most


class Changes(Iterable[Tuple[Label, Past]]):
    """Changes of one event, by their labels. The past of a change is made when it is asked for, because a line may try a million."""

    def __init__(self, log: Sequence[Event], index: int, labels: List[Label]) -> None:
        self._log = log
        self._index = index
        self.labels = labels

    def __add__(self, other: Changes) -> Changes:
        return Changes(self._log, self._index, self.labels + other.labels)

    def __len__(self) -> int:
        return len(self.labels)

    def __iter__(self) -> Iterator[Tuple[Label, Past]]:
        return ((it, self.past(it)) for it in self.labels)

    def past(self, label: Label) -> Past:
        """The past that a change makes."""
        kind, number = label
        if kind == VALUE:
            return pasts.with_byte(self._log, self._index, number)
        if kind == STEP:
            return pasts.moved(self._log, self._index, number)
        return pasts.without(self._log, self._index, self._index + 1)


@dataclass(frozen=True)
class Outcome:
    """What comes of a past: whether a condition came true (or there was none), what each line sent from the change on, the function in
    which the program stands, or "" if outcomes are grouped by what was sent, and the answers to what else is asked."""

    came: bool
    sent: Tuple[bytes, ...] = ()
    place: str = ""
    values: Tuple[Any, ...] = ()


@dataclass
class Futures:
    """The outcomes of changing an event, each with the changes that lead to it. Where Ctrl-C came, not all were tried."""

    event: Event
    whole: int
    tried: int = 0
    outcomes: Dict[Outcome, List[Label]] = field(default_factory=dict)

    @property
    def is_stopped(self) -> bool:
        return self.tried < self.whole


def values(log: Sequence[Event], index: int, those: Sequence[int]) -> Changes:
    """An event gets each of some values."""
    most = 1 if log[index].kind == Kind.WIRE else 255
    if not all(0 <= it <= most for it in those):
        raise Problem("a byte is 0 to 255, and the level of an external line 0 or 1")
    return Changes(log, index, [(VALUE, it) for it in those])


def taken_out(log: Sequence[Event], index: int) -> Changes:
    return Changes(log, index, [(OUT, 0)])


def moved(log: Sequence[Event], index: int, steps: Sequence[int]) -> Changes:
    """An event comes in each of some steps."""
    if not all(0 <= it <= GREATEST_TIME for it in steps):
        raise Problem(f"a step is 0 to {GREATEST_TIME:,}")
    return Changes(log, index, [(STEP, it) for it in steps])


def futures(driver: Driver, symbols: Symbols, index: int, changes: Changes, position: int, parts: Sequence[Question] = (),
            condition: Optional[Condition] = None, executor: Optional[Executor] = None, by_sent: bool = False) -> Futures:
    """The outcomes of changes of an event: at a position, or where a condition holds first after the earliest change and up to there.
    With `by_sent` the function in which the program stands is no part of an outcome."""
    event = driver.log[index]
    begin = min([event.time, *(it for kind, it in changes.labels if kind == STEP)])
    if begin >= position:
        raise Problem(f"a change in step {begin:,} does not show at position {position:,}: go to one after it, or name it by `at N`")
    found = Futures(event, len(changes))
    outcomes: Dict[int, Outcome] = {}
    with kept(driver):
        driver.goto(begin)
        before = [driver.sent(line) for line in range(LINES)]
        driver.goto(position)
        consoles: List[Question] = [Console(line, first, driver.sent(line) - first) for line, first in enumerate(before)]
        asked = (*consoles, Register("pc"), *parts)
        question: Question = At(position, asked)
        if condition is not None:
            question = Then(condition, begin + 1, position, asked)
        first, size = 0, _FIRST
        try:
            while first < len(changes):
                cases = [(changes.past(it), question) for it in changes.labels[first:first + size]]
                order = _by_future(driver, cases, position, executor)
                got = answers(driver, [cases[it] for it in order], executor)
                for place, answer in zip(order, told(driver, got, len(changes), first)):
                    outcomes[first + place] = _outcome(symbols, answer, condition is not None, by_sent)
                first, size = first + size, min(2 * size, _MOST)
        except STOPPED:
            pass
    for place in sorted(outcomes):
        found.outcomes.setdefault(outcomes[place], []).append(changes.labels[place])
    found.tried = len(outcomes)
    return found


def _by_future(driver: Driver, cases: Sequence[Case], position: int, executor: Optional[Executor]) -> List[int]:
    """The numbers of cases, of which those with the same future follow one another. The program keeps the runs of a few pasts, so a
    far position is reached once for each future. A guess is enough: registers soon after the last event are equal."""
    settled = driver.log[-1].time + _SETTLED
    if position - settled < _FAR:
        return list(range(len(cases)))
    states = list(answers(driver, [(past, At(settled, (State(),))) for past, _ in cases], executor))
    return sorted(range(len(cases)), key=lambda it: (states[it], it))


def _outcome(symbols: Symbols, answer: Any, is_then: bool, by_sent: bool) -> Outcome:
    """The outcome that an answer is. The program stands in a function, whose addresses are one place."""
    if is_then and answer is None:
        return Outcome(False)
    values = answer[1] if is_then else answer
    place = "" if by_sent else _function(symbols, values[LINES])
    return Outcome(True, tuple(values[:LINES]), place, tuple(values[LINES + 1:]))


def _function(symbols: Symbols, pc: int) -> str:
    """The name of the function of an address, or the address."""
    function = symbols.at(pc)
    return function[0].name if function else f"{pc:#010x}"
