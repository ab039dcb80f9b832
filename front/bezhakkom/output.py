"""What the serial lines sent between two positions, in the order of time."""
from __future__ import annotations

from typing import Iterable

from . import instruction, replies
from .driver import Driver
from .limits import LINES

SENDS = range(0x1FE0_0018, 0x1FE0_001C)  # the register of the serial part that sends what is stored


def counts(driver: Driver, position: int) -> list[int]:
    """How many bytes each line sent before a position. The driver stands there afterwards."""
    driver.goto(position)
    return [replies.console(reply)[0] for reply in driver.values([f"console {line} 0 1" for line in range(LINES)])]


def between(driver: Driver, first: int, last: int) -> list[tuple[int, int]]:
    """The bytes sent in the steps from `first` to below `last`, each with its line. The driver stands at `last`
    afterwards."""
    if last == first + 1 and not _may_send(driver, first):
        driver.goto(last)
        return []
    before = counts(driver, first)
    after = counts(driver, last)
    pieces = {line: driver.console(line, before[line]) for line in range(LINES) if after[line] > before[line]}
    if len(pieces) < 2:
        return [(line, byte) for line, piece in pieces.items() for byte in piece]
    timed = [(driver.find(line, before[line] + at), line, byte) for line, piece in pieces.items() for at,
             byte in enumerate(piece)]
    return [(line, byte) for _, line, byte in sorted(timed)]


def _may_send(driver: Driver, step: int) -> bool:
    """Whether a step stores into the register that sends. That takes less time than asking how much was sent before."""
    driver.goto(step)
    registers = driver.registers()
    word = instruction.next_word(driver, registers)
    return instruction.code(word) in instruction.STORES and driver.physical(instruction.address(word,
                                                                                                registers)) in SENDS


class Transcript:
    """Serial output as text for one reader: a line is named where it differs from the one before."""

    def __init__(self) -> None:
        self._line = 0

    def text(self, sent: Iterable[tuple[int, int]]) -> bytes:
        shown = bytearray()
        for line, byte in sent:
            if line != self._line:
                self._line = line
                shown += b"\n[serial line %d]\n" % line
            shown.append(byte)
        return bytes(shown)
