"""A past: its log, whose events have names that stay while they are moved, and what is known of its run."""
from __future__ import annotations

from dataclasses import dataclass, field, replace
from typing import Dict, List, Optional, Sequence, Tuple

from ..errors import Problem
from ..limits import CONSOLE_BYTES, LINES, MOST_EVENTS
from ..log import Event
from ..replies import Registers

_MOST_KNOWN = 1 << 16  # facts of one kind that are kept


def _by_line() -> List[Dict[int, int]]:
    return [{} for _ in range(LINES)]


@dataclass(frozen=True)
class Visited:
    """The positions at which an address comes next, all of them up to a position."""

    positions: Tuple[int, ...]
    upto: int

    def before(self, position: int) -> Visited:
        return Visited(tuple(it for it in self.positions if it <= position), min(self.upto, position))


@dataclass(frozen=True)
class Machine:
    """The processor at a position, the physical address that its PC leads to, and the instructions around that as the program shows them."""

    position: int
    state: Registers
    control: Dict[str, int]
    place: int
    listed: List[str]


@dataclass
class Known:
    """What was answered, all of it of one run: by line, and by the physical address of a word. A writer of -1 is none."""

    steps: List[Dict[int, int]] = field(default_factory=_by_line)  # of the byte at a place
    counts: List[Dict[int, int]] = field(default_factory=_by_line)  # of bytes that were sent before a position
    text: List[Dict[int, bytes]] = field(default_factory=lambda: [{} for _ in range(LINES)])  # in pieces, by their number
    values: Dict[int, Dict[int, int]] = field(default_factory=dict)  # of a word at a position
    writers: Dict[int, Dict[int, int]] = field(default_factory=dict)  # of a word before a position
    counters: Dict[int, int] = field(default_factory=dict)  # the PC at a position
    visits: Dict[Tuple[int, int], Visited] = field(default_factory=dict)  # of an address, from a position on
    machine: Optional[Machine] = None  # at the position at which it was looked at last

    def before(self, time: int) -> Known:
        """What stays known where events of a step and later ones are changed. That shows from the next position on."""
        made = Known()
        for line in range(LINES):
            made.steps[line] = {place: step for place, step in self.steps[line].items() if step < time}
            made.counts[line] = _upto(self.counts[line], time)
            sent = max([max(made.steps[line], default=-1) + 1, *made.counts[line].values()])
            made.text[line] = {piece: text[:sent - piece * CONSOLE_BYTES] for piece, text in self.text[line].items()
                               if piece * CONSOLE_BYTES < sent}
        made.values = {word: _upto(those, time) for word, those in self.values.items()}
        made.writers = {word: _upto(those, time) for word, those in self.writers.items()}
        made.counters = _upto(self.counters, time)
        made.machine = self.machine if self.machine and self.machine.position <= time else None
        made.visits = {key: it.before(time) for key, it in self.visits.items() if key[1] <= time}
        return made

    def copy(self) -> Known:
        return self.before(1 << 62)


def _upto(those: Dict[int, int], position: int) -> Dict[int, int]:
    if len(those) > _MOST_KNOWN:
        return {}
    return {at: value for at, value in those.items() if at <= position}


@dataclass(frozen=True)
class State:
    """A log with the names of its events, and what made it of the one before."""

    log: Tuple[Event, ...]
    ids: Tuple[int, ...]
    made_by: str = ""


class Past:
    """A log that is edited, and what is known of its run."""

    def __init__(self, state: State, known: Optional[Known] = None) -> None:
        self.log = list(state.log)
        self.ids = list(state.ids)
        self._known = known or Known()
        self._changed: Optional[int] = None  # the first step whose events were changed since that was known

    @classmethod
    def of(cls, log: Sequence[Event]) -> Past:
        return cls(State(tuple(log), tuple(range(len(log)))))

    @property
    def known(self) -> Known:
        """What is known of the run of the log as it stands."""
        if self._changed is not None:
            self._known, self._changed = self._known.before(self._changed), None
        return self._known

    def _forget(self, time: int) -> None:
        """Notes that events of a step and later ones are changed."""
        self._changed = time if self._changed is None else min(self._changed, time)

    def state(self, made_by: str = "") -> State:
        return State(tuple(self.log), tuple(self.ids), made_by)

    def copy(self) -> Past:
        return Past(self.state(), self.known.copy())

    def at(self, state: State) -> Past:
        """Another log, with what is known of both runs."""
        first = first_difference(self.log, state.log)
        return Past(state, self.known.copy() if first is None else self.known.before(first))

    def index(self, identity: int) -> int:
        try:
            return self.ids.index(identity)
        except ValueError:
            raise Problem("the event was deleted meanwhile, so it was not edited: `Undo` brings it back") from None

    def event(self, identity: int) -> Event:
        return self.log[self.index(identity)]

    def check_new(self, identity: int) -> None:
        """Refuses an event that `add` would refuse."""
        if identity in self.ids:
            raise Problem("there is an event of that name already: load the page anew")
        if len(self.log) >= MOST_EVENTS:
            raise Problem(f"a log has at most {MOST_EVENTS:,} events: delete some first")

    def add(self, identity: int, event: Event) -> None:
        self.check_new(identity)
        self._put(identity, event)
        self._forget(event.time)

    def change(self, identity: int, time: int, byte: int) -> None:
        """Moves an event after all of a step, if it is not in that step, and gives it a value."""
        index = self.index(identity)
        event = self.log[index]
        made = replace(event, time=time, byte=byte)
        if made == event:
            return
        if time == event.time:
            self.log[index] = made
        else:
            self._take(index)
            self._put(identity, made)
        self._forget(min(event.time, time))

    def delete(self, identity: int) -> None:
        index = self.index(identity)
        self._forget(self.log[index].time)
        self._take(index)

    def _take(self, index: int) -> None:
        del self.log[index], self.ids[index]

    def _put(self, identity: int, event: Event) -> None:
        place = self.upto(event.time)
        self.log.insert(place, event)
        self.ids.insert(place, identity)

    def upto(self, time: int) -> int:
        """How many events come in a step or before it."""
        low, high = 0, len(self.log)
        while low < high:
            middle = (low + high) // 2
            low, high = (low, middle) if time < self.log[middle].time else (middle + 1, high)
        return low


def first_difference(one: Sequence[Event], two: Sequence[Event]) -> Optional[int]:
    """The first step whose events differ between two logs, or None where they are the same."""
    for first, second in zip(one, two):
        if first is not second and first != second:
            return min(first.time, second.time)
    longer = one if len(one) > len(two) else two
    rest = longer[min(len(one), len(two)):]
    return rest[0].time if rest else None
