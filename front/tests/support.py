"""What several tests use: random programs for the machine, and drivers on them."""
from __future__ import annotations

import random
import unittest
from pathlib import Path
from typing import Optional, Sequence

from bezhakkom.driver import Driver
from bezhakkom.image import Image
from bezhakkom.limits import GREATEST_POSITION, READS
from bezhakkom.log import Event
from bezhakkom.replies import Registers, is_refusal, registers

ROOT = Path(__file__).resolve().parents[2]

# Registers of the random programs: r8 has the data in kseg1, r9 to r12 are counted and compared.
DATA = 0x100
_BASE = 8
_COUNTERS = range(9, 13)
_STORES = {0x28: "sb", 0x29: "sh", 0x2B: "sw"}


def immediate(op: int, rs: int, rt: int, value: int) -> int:
    """The word of an instruction with an immediate operand."""
    return op << 26 | rs << 21 | rt << 16 | value & 0xFFFF


def rom(words: Sequence[int]) -> Image:
    return Image("test.rom", "rom", b"".join(word.to_bytes(4, "little") for word in words))


def start(image: Image, log: Sequence[Event] = (), most_reads: int = READS) -> Driver:
    return Driver.start(image, log, most_reads=most_reads)


def needs_kinds(test: unittest.TestCase) -> None:
    """Skips a test where the program that is started has neither framing errors nor external lines."""
    _needs(test, "framing errors and external lines", "wire 0 0 0")


def needs_erase(test: unittest.TestCase) -> None:
    """Skips a test where the program that is started does not erase ranges of the log, or does not go as far as this one."""
    _needs(test, "erased ranges and long runs", "erase 0 0", f"goto {GREATEST_POSITION}")


def needs_questions(test: unittest.TestCase) -> None:
    """Skips a test where the program that is started does not say who wrote a register, and what the devices hold."""
    _needs(test, "writers of registers and devices", "regwriter 1", "devices")


def _needs(test: unittest.TestCase, what: str, *commands: str) -> None:
    driver = start(rom([]))
    try:
        if any(is_refusal(lines[0]) for lines in driver.ask_all(commands)):
            test.skipTest(f"the program has no {what}")
    finally:
        driver.close()


def random_rom(source: random.Random) -> list[int]:
    """A program that runs in a random circle for ever, counts, and stores into four words at DATA."""
    begin = [immediate(0x0F, 0, _BASE, 0xA000)] + [immediate(0x09, 0, it, source.randrange(9)) for it in _COUNTERS]
    count = source.randrange(6, 30)

    def one(at: int) -> int:
        first, second = source.choice(_COUNTERS), source.choice(_COUNTERS)
        kind = source.random()
        if kind < 0.3:
            return immediate(0x09, first, second, source.randrange(-3, 4))
        if kind < 0.4:
            return immediate(0x0C, first, second, source.choice((1, 3, 7, 15)))
        if kind < 0.6:
            op = source.choice(tuple(_STORES))
            return immediate(op, _BASE, first, DATA + 4 * source.randrange(4))
        if kind < 0.8:
            return immediate(source.choice((4, 5)), first, second, source.randrange(count) - at - 1)
        return 0

    body = [one(at) for at in range(count)]
    return [*begin, *body, immediate(4, 0, 0, -count - 1), 0]


def states(driver: Driver, end: int) -> list[Registers]:
    """The processor at each position before an end, asked one by one."""
    commands = [it for position in range(end) for it in (f"goto {position}", "regs")]
    return [registers(lines) for lines in driver.ask_all(commands)[1::2]]


def stored(words: Sequence[int], state: Registers) -> Optional[int]:
    """The physical word that the instruction of a random program at a state stores into."""
    word = words[(state.pc - 0xBFC0_0000) // 4]
    if word >> 26 not in _STORES:
        return None
    return state.general[word >> 21 & 31] + (word & 0xFFFF) & 0x1FFF_FFFC
