"""What a run may come to: an address, a text that a line sent, a word with a value. Each gives the first position of a range at which
it holds, and is exact."""
from __future__ import annotations

from dataclasses import dataclass
from typing import Iterator, List, Optional, Protocol, Sequence, Tuple

from .. import replies
from ..expressions import COMPARED as SIGNS
from ..expressions import holds
from ..limits import SPAN, TRACED, VISIT_STEPS
from .pasts import Asking, Question
from .questions import Console, at, together

_PIECES = (1, 4, 16, 64)  # visits that are asked for together
_SPANS = (1, 4, 16, 64, 256)  # that are looked at together for stores
_SAMPLE = 16  # stores of a span show how far apart its stores are
_APART = 512  # if they are fewer steps apart, tracing each step takes less time than following the stores back
_STEPS = 4096  # that are asked for together


class Condition(Protocol):
    """Something that holds at some positions."""

    def first(self, begin: int, end: int) -> Asking:
        """The least position from `begin` to `end` at which it holds, or None."""
        ...


@dataclass(frozen=True)
class Comes:
    """The instruction at an address comes next."""

    address: int

    def first(self, begin: int, end: int) -> Asking:
        low = begin
        for count in _growing(_PIECES):
            places = range(low, min(low + count * VISIT_STEPS, end), VISIT_STEPS)
            visits = [command for it in places for command in (f"goto {it}", f"visit {self.address} {min(VISIT_STEPS, end - it)}")]
            _, state, *answered = yield [f"goto {low}", "regs", *visits]
            if replies.registers(state).pc == self.address:
                return low
            for found in answered[1::2]:
                if not replies.is_refusal(found[0]):
                    return replies.last_number(found)
            low += count * VISIT_STEPS
            if low >= end:
                return None
        raise AssertionError("a range has an end")


@dataclass(frozen=True)
class Sends:
    """A line has sent a text, from a place of its bytes on. About `likely` bytes are expected there."""

    line: int
    text: bytes
    place: int = 0
    likely: int = 0

    def first(self, begin: int, end: int) -> Asking:
        sent = yield from at(end, Console(self.line, self.place, self.likely).ask())
        found = sent.find(self.text)
        if found < 0:
            return None
        _, lines = yield [f"goto {end}", f"find {self.line} {self.place + found + len(self.text) - 1}"]
        return max(replies.last_number(lines) + 1, begin)


class _OfWords:
    """Something that holds for some values of words of memory."""

    @property
    def words(self) -> Tuple[int, ...]:
        """The physical addresses of the words."""
        raise NotImplementedError

    def holds(self, values: Sequence[int]) -> bool:
        """Whether it holds for the values of the words, in their order."""
        raise NotImplementedError

    def first(self, begin: int, end: int) -> Asking:
        values = yield from self._values(begin)
        if self.holds(values):
            return begin
        low, sizes = begin, _growing(_SPANS)
        while low < end and self.words:
            bounds = [low, *range((low // SPAN + 1) * SPAN, end, SPAN)[:next(sizes)]]
            if len(bounds) == 1 or bounds[-1] + SPAN >= end:
                bounds.append(end)
            found = yield from self._stored(bounds)
            if found is not None:
                return found
            low = bounds[-1]
        return None

    def _values(self, position: int) -> Asking:
        """What the words hold at a position."""
        lines = (yield [f"goto {position}", *self._asked("mem {} 1")])[1:]
        return [replies.memory(it)[0] for it in lines]

    def _asked(self, command: str) -> List[str]:
        return [command.format(physical) for physical in self.words]

    def _stored(self, bounds: Sequence[int]) -> Asking:
        """The least position after a store between some positions at which it holds; all but the outermost are bounds of spans.

        The stores of each span are followed back from its end, in all spans together: at the step of a store `writer` returns the
        store before it, and `mem` the words that were left by that one.
        """
        writers = (yield [f"goto {bounds[-1]}", *self._asked("writer {}")])[1:]
        if all(_step_of(it) < bounds[0] for it in writers):
            return None
        found: Optional[int] = None
        dense: List[Tuple[int, int]] = []
        followed = [_Followed(low, high, high) for low, high in zip(bounds, bounds[1:])]
        while followed:
            lines = iter((yield [command for it in followed for command in
                                 (f"goto {it.position}", *self._asked("writer {}"), *self._asked("mem {} 1"))]))
            for it in followed:
                next(lines)
                it.position = max(_step_of(next(lines)) for _ in self.words)
                if self.holds([replies.memory(next(lines))[0] for _ in self.words]) and it.position >= it.low:
                    found = it.position + 1 if found is None else min(found, it.position + 1)
                it.count += 1
            dense += [(it.low, it.position) for it in followed if it.is_dense()]
            followed = [it for it in followed if it.position > it.low and not it.is_dense() and (found is None or it.low < found)]
        for low, high in sorted(dense):
            if found is None or low < found:
                looked = yield from self._looked(low, high)
                if looked is not None:
                    return looked
        return found

    def _looked(self, low: int, high: int) -> Asking:
        """The least position above `low`, up to `high`, with such a value: what each step stores is looked at."""
        stores = {f"{physical:#010x}": place for place, physical in enumerate(self.words)}
        values = yield from self._values(low)
        for first in range(low, high, _STEPS):
            counts = [min(TRACED, high - at) for at in range(first, min(first + _STEPS, high), TRACED)]
            answered = yield [f"goto {first}", *(command for count in counts for command in (f"trace {count}", f"step {count}"))]
            for line in (line for lines in answered[1::2] for line in lines if " store " in line):
                physical, word = line.partition(" store ")[2].split()[:2]
                if physical in stores:
                    before = values[stores[physical]]
                    values[stores[physical]] = int(word, 16)
                    if self.holds(values):
                        position = int(line.split()[0]) + 1
                        # It was no store into memory where a cache is isolated.
                        held = yield from self._values(position)
                        if self.holds(held):
                            return position
                        values[stores[physical]] = before
        return None


@dataclass
class _Followed:
    """A span whose stores were followed back from its end to a position, and how many of them these were."""

    low: int
    high: int
    position: int
    count: int = 0

    def is_dense(self) -> bool:
        """Whether so many stores are in the span that tracing the rest of it takes less time."""
        return self.position > self.low and self.count >= _SAMPLE and self.high - self.position < _APART * self.count


def _step_of(lines: Sequence[str]) -> int:
    """The step of a reply to `writer`, or -1 if no step stored there."""
    step = replies.writer(lines).step
    return -1 if step is None else step


@dataclass(frozen=True)
class Holds(_OfWords):
    """The word at a physical address compares so with a value."""

    physical: int
    sign: str
    value: int

    @property
    def words(self) -> Tuple[int, ...]:
        return (self.physical,)

    def holds(self, values: Sequence[int]) -> bool:
        return SIGNS[self.sign](values[0], self.value)


# A constant, and pieces of memory that are added to it or subtracted from it: 1 or -1, the physical address and the size of each.
Total = Tuple[int, Tuple[Tuple[int, int, int], ...]]


@dataclass(frozen=True)
class Compares(_OfWords):
    """Two sums of words, or of parts of words, compare so."""

    left: Total
    sign: str
    right: Total

    @property
    def words(self) -> Tuple[int, ...]:
        return tuple(dict.fromkeys(physical & ~3 for _, pieces in (self.left, self.right) for _, physical, _ in pieces))

    def holds(self, values: Sequence[int]) -> bool:
        held = dict(zip(self.words, values))

        def total(side: Total) -> int:
            constant, pieces = side
            return constant + sum(sign * (held[physical & ~3] >> 8 * (physical & 3) & (1 << 8 * size) - 1) for sign, physical, size in pieces)

        return holds(total(self.left), self.sign, total(self.right))


@dataclass(frozen=True)
class ComesTrue:
    """The question at which position of a range a condition holds first."""

    condition: Condition
    begin: int
    end: int

    def ask(self) -> Asking:
        return self.condition.first(self.begin, self.end)


@dataclass(frozen=True)
class Then:
    """That position, and what is asked there; or None."""

    condition: Condition
    begin: int
    end: int
    parts: Tuple[Question, ...]

    def ask(self) -> Asking:
        found = yield from self.condition.first(self.begin, self.end)
        if found is None:
            return None
        values = yield from at(found, together(self.parts))
        return found, values


def _growing(sizes: Tuple[int, ...]) -> Iterator[int]:
    """Sizes one by one, and then the last of them for ever."""
    yield from sizes
    while True:
        yield sizes[-1]
