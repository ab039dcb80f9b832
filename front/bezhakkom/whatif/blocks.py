"""What steps did, in blocks of some that follow one another. A block is asked for once."""
from __future__ import annotations

from bisect import bisect_left
from functools import lru_cache
from typing import Dict, Iterator, List, Optional, Tuple

from .. import replies, tracing
from ..driver import Driver
from ..instruction import ALL, Turn, immediate, is_late, rs, turn_of
from ..limits import GREATEST_POSITION, HI, TRACED
from ..replies import Registers
from ..tracing import Traced
from .needs import written

SIZE = TRACED
_MOST = 16  # blocks that are asked for together, where those after them were asked for
_KEPT = 2048  # blocks, those of the latest steps are forgotten first
_LINES = 9  # of a reply to `regs`


class Block:
    """Some steps from one on, and the registers before them."""

    def __init__(self, first: int, registers: Registers, lines: List[str]) -> None:
        self.first = first
        self.registers = registers
        self.counters: List[int] = []  # the PC of each step
        self.words: List[int] = []  # that each step fetched; 0 where it fetched none
        self.exceptions: Dict[int, int] = {}  # by the steps that took them, their codes
        self._lines = lines
        self._writers: Dict[int, List[int]] = {}  # of a register, in order; those of a load count at its own step
        self._stores: Dict[int, List[int]] = {}  # into a word
        self._ineffective: Dict[int, List[int]] = {}  # to a word, that changed nothing there
        self._turns: Optional[List[Tuple[int, Turn, int]]] = None
        for step, line in enumerate(lines, first):
            _, _, counter, _, word, *parts = line.split(" ", 5)
            self.counters.append(int(counter, 16))
            self.words.append(0 if word == "none" else int(word, 16))
            if parts:
                self._note(step, parts[0])

    def _note(self, step: int, did: str) -> None:
        """Notes what a step did beside fetching."""
        if did[0] == "r":
            self._writers.setdefault(int(did[1:did.index(" ")]), []).append(step)
        if "hi" in did:
            for register in written(self.words[-1]):
                self._writers.setdefault(register, []).append(step)
        if "store" in did:
            place = did.index("store") + len("store ")
            stores = self._ineffective if "ignored" in did or "isolated" in did else self._stores
            stores.setdefault(int(did[place:place + len("0x00000000")], 16), []).append(step)
        if "exception" in did:
            self.exceptions[step] = int(did.rpartition(" ")[2])

    def step(self, number: int) -> Traced:
        return _read(self._lines[number - self.first])

    def word(self, number: int) -> int:
        return self.words[number - self.first]

    def counter(self, number: int) -> int:
        return self.counters[number - self.first]

    @property
    def turns(self) -> List[Tuple[int, Turn, int]]:
        """The steps that may not go on behind themselves, from the last one back, with their PCs."""
        if self._turns is None:
            self._turns = []
            for step in range(self.first + len(self.words) - 1, self.first - 1, -1):
                turn = Turn.EXCEPTION if step in self.exceptions else turn_of(self.word(step))
                if turn is not None:
                    self._turns.append((step, turn, self.counter(step)))
        return self._turns

    def writer(self, register: int, end: int, position: int) -> Optional[int]:
        """The last step of these below `end` that wrote a register with what it holds at a position, if one did."""
        steps = self._writers.get(register, [])
        for at in range(bisect_left(steps, end) - 1, -1, -1):
            step = steps[at]
            if step + 1 + is_late(self.word(step)) <= position:
                return step
        return None

    def store(self, physical: int, end: int) -> Optional[int]:
        """The last step of these below `end` that stored into a word, if one did."""
        steps = self._stores.get(physical, [])
        at = bisect_left(steps, end)
        return steps[at - 1] if at else None

    def ineffective(self, physical: int, begin: int, end: int) -> List[int]:
        """The steps of these from `begin` to below `end` that stored to a word and changed nothing there, from the last one back."""
        return [it for it in reversed(self._ineffective.get(physical, [])) if begin <= it < end]

    def address(self, number: int) -> int:
        """The virtual address of a load or store."""
        word = self.word(number)
        return self.value(rs(word), number) + immediate(word) & ALL

    def value(self, register: int, position: int) -> int:
        """What a general register holds at a position of these steps."""
        step = self.writer(register, position, position)
        if step is not None:
            write = self.step(step).write
            assert write
            return write[1]
        load = self.registers.load
        if position > self.first and load and load[0] == register:
            return load[1]
        return self.registers.general[register]


_read = lru_cache(1 << 14)(tracing.read)


class Blocks:
    """The blocks of a run. They are asked for from later to earlier ones, and the more of them follow one another the more are asked
    for together."""

    def __init__(self, driver: Driver) -> None:
        self._driver = driver
        self._kept: Dict[int, Block] = {}
        self._lowest = 0  # of those that were asked for last
        self._together = 1

    def of(self, step: int) -> Block:
        """The block that has a step."""
        number = step // SIZE
        found = self._kept.get(number)
        if found is None:
            self._together = min(2 * self._together, _MOST) if number + 1 == self._lowest else 1
            self._ask(max(number + 1 - self._together, 0), number + 1)
            found = self._kept[number]
        return found

    def known(self, end: int) -> Iterator[Block]:
        """The blocks that are known without a gap, from that of the step before `end` back."""
        number = (end - 1) // SIZE
        while number in self._kept:
            yield self._kept[number]
            number -= 1

    def _ask(self, first: int, end: int) -> None:
        for number in sorted(self._kept)[_KEPT:]:
            del self._kept[number]
        self._lowest = first
        counts = [min(SIZE, GREATEST_POSITION - number * SIZE) for number in range(first, end)]
        commands = [command for count in counts for command in ("regs", f"trace {count}", f"step {count}")]
        lines = self._driver.text(first * SIZE, commands).decode().split("\n")
        for number, count in zip(range(first, end), counts):
            state = replies.registers(lines[:_LINES])
            lines = lines[_LINES:]
            self._kept[number] = Block(number * SIZE, state, lines[:count])
            lines = lines[count + 1:]
        self._driver.tell(first * SIZE)
