"""Other bytes after a position, until a condition comes true.

What arrives from the position on is changed at random: bytes get other values, and pieces are taken out, said twice, or put in from
another input. The past before stays. An input with a new outcome (what the lines sent up to the end) is changed further. The seed
decides all of it, so the same seed gives the same result. The first input with which the condition comes true is shrunk.
"""
from __future__ import annotations

import random
from concurrent.futures import Executor
from dataclasses import dataclass, replace
from typing import List, Optional, Tuple

from ..driver import Driver
from ..errors import STOPPED, Problem
from ..limits import GREATEST_POSITION, LINES
from ..log import Event, Kind, changes
from . import pasts
from .conditions import ComesTrue, Condition
from .jobs import answers
from .pasts import Past, kept, told
from .questions import All, At, Console
from .shrink import Shrunk, shrink

_ROUND = 64  # inputs that are made before their outcomes are known
_LONGEST = 2  # an input has at most this many times the events of the first one
_GAP = 1000  # steps before an event that is put in

# An event of an input, with how many steps it comes after the one before.
_Piece = Tuple[int, Event]
_Input = Tuple[_Piece, ...]


@dataclass
class Fuzzed:
    """How many inputs were tried, how many outcomes they had, and the first log with which the condition came true, as it was and
    shrunk."""

    seed: int
    tried: int = 0
    outcomes: int = 0
    log: Optional[List[Event]] = None
    shrunk: Optional[Shrunk] = None
    is_stopped: bool = False


def fuzz(driver: Driver, condition: Condition, begin: int, end: int, seed: int = 1, tries: int = 100_000,
         executor: Optional[Executor] = None) -> Fuzzed:
    """Tries other inputs from a position on, each up to an end."""
    if not begin < end <= GREATEST_POSITION:
        raise Problem(f"nothing is run from step {begin:,} to step {end:,}: go to the end first, or say where it is")
    before = [it for it in driver.log if it.time < begin]
    first = _input(driver.log[len(before):], begin)
    if not first:
        raise Problem(f"the log has no event from step {begin:,} on that could be changed")
    asked = All((ComesTrue(condition, begin, end), At(end, tuple(Console(line) for line in range(LINES)))))
    found = Fuzzed(seed)
    with kept(driver):
        position, outcome = pasts.answer(driver, asked)
        if position is not None:
            raise Problem(f"that comes true at step {position:,} already; `shrink` makes the log smaller")
        inputs = _Inputs(first, seed)
        seen = {outcome}
        found.outcomes = 1
        driver.erase(begin, GREATEST_POSITION)
        try:
            while found.tried < tries and found.log is None:
                made = [inputs.make() for _ in range(min(_ROUND, tries - found.tried))]
                arriving = [_events(it, begin) for it in made]
                got = answers(driver, [(_past(it, begin), asked) for it in arriving], executor)
                for one, events, (position, outcome) in zip(made, arriving, told(driver, got, tries, found.tried)):
                    found.tried += 1
                    if outcome not in seen:
                        seen.add(outcome)
                        inputs.pool.append(one)
                    if position is not None:
                        found.log = before + events
                        found.shrunk = Shrunk(found.log, found.log, position, is_stopped=True)
                        break
                found.outcomes = len(seen)
            if found.log is not None:
                driver.values(changes(driver.log, found.log))
                found.shrunk = shrink(driver, condition, end, begin, executor)
                found.is_stopped = found.shrunk.is_stopped
        except STOPPED:
            found.is_stopped = True
    return found


def _past(events: List[Event], begin: int) -> Past:
    """The past with events from a position on, where there are none."""
    return Past(tuple(it.command for it in events), (f"erase {begin} {GREATEST_POSITION}",))


def _input(events: List[Event], begin: int) -> _Input:
    times = [begin, *(it.time for it in events)]
    return tuple((event.time - time, event) for time, event in zip(times, events))


def _events(pieces: _Input, begin: int) -> List[Event]:
    made, time = [], begin
    for steps, event in pieces:
        time += steps
        made.append(Event(time, event.line, event.byte, event.kind))
    return made


class _Inputs:
    """Makes inputs of those in the pool."""

    def __init__(self, first: _Input, seed: int) -> None:
        self.pool = [first]
        self._random = random.Random(seed)
        self._most = _LONGEST * len(first)
        self._bytes = sorted({event.byte for _, event in first})

    def make(self) -> _Input:
        made = list(self._random.choice(self.pool))
        for _ in range(self._random.choice((1, 1, 2, 4))):
            self._change(made)
        return tuple(made[:self._most])

    def _change(self, made: List[_Piece]) -> None:
        """One change at a random place."""
        source = self._random
        at = source.randrange(len(made) + 1)
        end = min(at + source.choice((1, 1, 2, 8)), len(made))
        kind = source.randrange(6)
        if kind < 2 and at < end:
            steps, event = made[at]
            made[at] = steps, replace(event, byte=self._byte(event))
        elif kind == 2:
            del made[at:end]
        elif kind == 3:
            made[at:at] = made[at:end]
        elif kind == 4:
            other = source.choice(self.pool)
            made[at:] = other[source.randrange(len(other) + 1):] if other else ()
        elif made:
            event = made[min(at, len(made) - 1)][1]
            made[at:at] = [(_GAP, replace(event, byte=self._byte(event)))]

    def _byte(self, event: Event) -> int:
        """A byte that came elsewhere, one with a bit turned, or any other; or the other level."""
        if event.kind == Kind.WIRE:
            return 1 - event.byte
        source = self._random
        return source.choice((source.choice(self._bytes), event.byte ^ 1 << source.randrange(8), source.randrange(256)))
