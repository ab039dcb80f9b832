"""What differs between two pasts: the present one and another.

- *Registers*: the first position at which a reply to `regs` differs, up to the present position, found by looking at each step.
- *Sent*: of each line, the first place at which what it sent up to the position differs, and the steps that sent these bytes.
- *Words*: the words of RAM that differ at the position.
"""
from __future__ import annotations

import re
from dataclasses import dataclass, field
from typing import Iterator, List, Optional, Sequence, Tuple

from .. import replies
from ..driver import Driver
from ..errors import STOPPED
from ..limits import LINES, RAM, TRACED, WORDS
from ..log import Event
from ..replies import WORD_LINE, Registers
from . import pasts, questions
from .pasts import PRESENT, Past, kept

_STEPS = (64, 256, 1024, 4096, 16_384)  # that are compared together, at first and later on
_ACCESS = re.compile(rb" (?:load|store) 0x\w{8} 0x\w{8}")
_WORDS = 4096 * WORDS  # that are shown together
_BLOCK = 1024 * WORD_LINE  # bytes of what is shown that are compared together


@dataclass(frozen=True)
class OtherByte:
    """The first place at which a line sent something else: the bytes with their steps, or None where it sent less."""

    line: int
    place: int
    here: Optional[Tuple[int, int]]
    there: Optional[Tuple[int, int]]


@dataclass(frozen=True)
class OtherWord:
    physical: int
    here: int
    there: int


@dataclass
class Comparison:
    """What differs between the present past and another. `compared` is up to which position registers were, `words_to` up to which
    address words were: less than all where Ctrl-C came."""

    position: int
    first_event: Optional[int]  # the first step whose events differ, if there is one
    compared: int = 0
    registers: Optional[Tuple[int, Registers, Registers]] = None
    sent: List[OtherByte] = field(default_factory=list)
    words: List[OtherWord] = field(default_factory=list)
    words_to: int = 0
    is_stopped: bool = False


def compare(driver: Driver, log: Sequence[Event], patches: Sequence[Tuple[int, int]]) -> Comparison:
    """What differs between the present past and one with another log, up to the position. Of the patches that were made it has the
    first ones, as an edit left them."""
    here = driver.position
    begin = _first_event(driver.log, log)
    other = _past(driver, log, patches)
    found = Comparison(here, begin)
    if not other.there:
        found.compared, found.words_to = here, RAM.stop
        return found
    with kept(driver):
        try:
            _sent(driver, other, found)
            begin = 0 if begin is None or len(patches) < len(driver.patches) else min(begin, here)
            _registers(driver, other, found, begin)
            _words(driver, other, found)
        except STOPPED:
            found.is_stopped = True
    return found


def _first_event(one: Sequence[Event], two: Sequence[Event]) -> Optional[int]:
    """The first step whose events differ between two logs."""
    for first, second in zip(one, two):
        if first != second:
            return min(first.time, second.time)
    longer = max(one, two, key=len)[min(len(one), len(two)):]
    return longer[0].time if longer else None


def _past(driver: Driver, log: Sequence[Event], patches: Sequence[Tuple[int, int]]) -> Past:
    """The past with a log and the first ones of the patches."""
    past = pasts.with_log(driver.log, log)
    undone = driver.patches[len(patches):]
    if not undone:
        return past
    with kept(driver):
        # What stood there before the patches, only the program knows of a source.
        driver.revert(driver.log, patches)
        driver.goto(0)
        places = sorted({address for address, _ in undone})
        words = [replies.memory(lines)[0] for lines in driver.values([f"mem {it} 1" for it in places])]
        driver.values([f"patch {address} {word}" for address, word in undone])
    return Past((*(f"patch {address} {word}" for address, word in zip(places, words)), *past.there),
                (*(f"patch {address} {word}" for address, word in undone), *past.back))


def _both(driver: Driver, other: Past, commands: Sequence[str]) -> Iterator[Tuple[list[str], list[str]]]:
    """The replies to commands here and in the other past, in one stream."""
    answered = driver.values([*commands, *other.there, *commands, *other.back])
    there = len(commands) + len(other.there)
    return zip(answered[:len(commands)], answered[there:there + len(commands)])


def _sent(driver: Driver, other: Past, found: Comparison) -> None:
    asked = questions.At(found.position, tuple(questions.Console(line) for line in range(LINES)))
    here, there = pasts.answers(driver, [(PRESENT, asked), (other, asked)])
    for line, (one, two) in enumerate(zip(here, there)):
        if one != two:
            place = next((at for at, (first, second) in enumerate(zip(one, two)) if first != second), min(len(one), len(two)))
            byte = questions.At(found.position, (questions.SentIn(line, place),))
            (first,), (second,) = pasts.answers(driver, [(PRESENT, byte), (other, byte)])
            found.sent.append(OtherByte(line, place, first, second))


def _registers(driver: Driver, other: Past, found: Comparison, begin: int) -> None:
    """Where steps did the same from the same registers on, these stay the same. So what steps did is compared, as text, and the registers
    themselves only around a step that did something else, and at the end."""
    low, sizes = begin, iter(_STEPS)
    size = next(sizes)
    if _differs_at(driver, other, found, [low]):
        return
    while low < found.position:
        high = min(low + size, found.position)
        one, two = _traced_in_both(driver, other, low, high)
        step = next((low + at for at, (here, there) in enumerate(zip(one, two)) if here != there), high)
        if _differs_at(driver, other, found, [step, min(step + 1, high)]):
            return
        low, size = min(step + 1, high), next(sizes, size)
        driver.tell(low, (begin, found.position))


def _traced_in_both(driver: Driver, other: Past, low: int, high: int) -> Tuple[List[bytes], List[bytes]]:
    """What the steps from one on and before another did to registers, here and in the other past."""
    commands = [it for at in range(low, high, TRACED) for count in (min(TRACED, high - at),) for it in (f"trace {count}", f"step {count}")]
    one = driver.text(low, commands)
    driver.values(other.there)
    two = driver.text(low, commands)
    driver.values(other.back)
    return ([], []) if one == two else (_of_registers(one), _of_registers(two))


def _of_registers(text: bytes) -> List[bytes]:
    """The lines of steps without the word that was loaded or stored, of which a byte may be all that matters."""
    return [_ACCESS.sub(b"", line) for line in text.split(b"\n") if line[:1].isdigit()]


def _differs_at(driver: Driver, other: Past, found: Comparison, positions: Sequence[int]) -> bool:
    """Notes the first of some positions at which registers differ, or that they do not."""
    pairs = list(_both(driver, other, [command for it in positions for command in (f"goto {it}", "regs")]))[1::2]
    for position, (one, two) in zip(positions, pairs):
        if one != two:
            found.registers = position, replies.registers(one), replies.registers(two)
            return True
        found.compared = position
    return False


def _words(driver: Driver, other: Past, found: Comparison) -> None:
    driver.goto(found.position)
    for first in range(RAM.start, RAM.stop, 4 * _WORDS):
        count = min(_WORDS, (RAM.stop - first) // 4)
        one = driver.shown(first, count)
        driver.values(other.there)
        two = driver.shown(first, count)
        driver.values(other.back)
        for at in _other_lines(one, two):
            here, there = replies.memory([text[at:at + WORD_LINE].decode() for text in (one, two)])
            found.words.append(OtherWord(first + 4 * (at // WORD_LINE), here, there))
        found.words_to = first + 4 * count
        driver.tell(found.position, (0, found.position))


def _other_lines(one: bytes, two: bytes) -> Iterator[int]:
    """Where lines begin in which two shown pieces of memory differ."""
    for block in range(0, len(one), _BLOCK):
        end = min(block + _BLOCK, len(one))
        if one[block:end] != two[block:end]:
            yield from (at for at in range(block, end, WORD_LINE) if one[at:at + WORD_LINE] != two[at:at + WORD_LINE])
