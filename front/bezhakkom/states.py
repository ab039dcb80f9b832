"""What the machine holds at several positions, asked together. The driver stands at the last of them afterwards."""
from __future__ import annotations

from typing import Iterable, Iterator, Sequence, Tuple

from . import replies
from .driver import Driver
from .instruction import has_slot, is_late
from .limits import FINDS, PCS
from .replies import Registers
from .tracing import Traced


def replies_at(driver: Driver, positions: Iterable[int], command: str) -> list[list[str]]:
    """The reply to a command at each position."""
    return driver.values([line for position in positions for line in (f"goto {position}", command)])[1::2]


def registers_at(driver: Driver, positions: Iterable[int]) -> list[Registers]:
    return [replies.registers(lines) for lines in replies_at(driver, positions, "regs")]


def counters_at(driver: Driver, positions: range) -> list[int]:
    """The PC at positions that follow one another."""
    asked = [line for first, command in of_counters(positions) for line in (f"goto {first}", command)]
    return [counter for lines in driver.values(asked)[1::2] for _, counter in replies.timed(lines)]


def of_counters(positions: Sequence[int]) -> Iterator[Tuple[int, str]]:
    """Questions for the PC at positions in ascending order, each with its own position: those that follow one another are asked for
    together. The run is gone along once more for them than for what else is asked there."""
    for it in stretches(positions, PCS):
        yield it.start, f"pcs 1 {len(it)}"


def of_steps(line: int, places: Sequence[int]) -> Iterator[str]:
    """Questions for the steps that sent the bytes of a line at places in ascending order."""
    for it in stretches(places, FINDS):
        yield f"finds {line} {it.start} {len(it)}"


def stretches(numbers: Sequence[int], most: int) -> Iterator[range]:
    """Numbers in ascending order, as ranges of at most so many that follow one another."""
    at = 0
    while at < len(numbers):
        end = at + 1
        while end < len(numbers) and end - at < most and numbers[end] == numbers[end - 1] + 1:
            end += 1
        yield range(numbers[at], numbers[end - 1] + 1)
        at = end


def followed(driver: Driver, first: int, state: Registers, count: int) -> Iterator[Tuple[Traced, Registers]]:
    """What so many steps do from one on, before which the state is known, each with the state after it. The steps are asked for, and not
    the states, of which each has nine lines."""
    steps = list(driver.traced(first, first + count + 2))
    for step, after, later in zip(steps, steps[1:], steps[2:]):
        general, write, load = list(state.general), step.write, None
        if state.load:
            general[state.load[0]] = state.load[1]
        if write and step.word is not None and is_late(step.word):
            load = write
        elif write:
            general[write[0]] = write[1]
        delay = step.exception is None and step.word is not None and has_slot(step.word)
        if after.exception is None:
            following = later.pc
        elif delay:  # the exception hides where the branch leads
            following = registers_at(driver, [after.step])[0].next_pc
        else:
            following = after.pc + 4 & 0xFFFF_FFFF
        hi, lo = step.hi_lo or (state.hi, state.lo)
        state = Registers(after.pc, following, hi, lo, delay, load, general)
        yield step, state
