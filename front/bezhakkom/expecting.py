"""Going on until a serial line has sent a text."""
from __future__ import annotations

from dataclasses import dataclass
from typing import Optional

from . import ticks
from .driver import Driver
from .idle import Idleness
from .limits import GREATEST_POSITION
from .log import quoted
from .standstill import Standstill, standstill

_PIECE = 1 << 20  # steps after which it is looked at what was sent
_SHOWN = 200  # the most bytes that are shown of what was sent


@dataclass(frozen=True)
class Silence:
    """Why a line does not send a text, and what it sent. The run may go on from where it `pauses`. `is_idle` says that it pauses as
    nothing was done for long."""

    why: str
    sent: bytes
    pauses: bool = False
    is_idle: bool = False

    def sentence(self, line: int, text: bytes, advice: str = "") -> str:
        """What is said of it to who waits for a text."""
        return not_sent(line, text, f": {self.why}{advice}", self.sent)


def not_sent(line: int, text: bytes, when: str, sent: bytes) -> str:
    """That a line did not send a text, and the end of what it sent."""
    return f"line {line} did not send {quoted(text)}{when}. It sent {quoted(sent[-_SHOWN:]) if sent else 'nothing'}"


def until_sent(driver: Driver, line: int, first: int, text: bytes, end: int, idle: int) -> Optional[Silence]:
    """Goes on until a line sent a text from place `first` on, at most to a position, or reports why it does not. Without an end it
    pauses after so many idle steps, if that is not 0. The driver stands right after the text, or where it was looked for last."""
    idleness = Idleness(driver, idle if end == GREATEST_POSITION else 0)
    sent = driver.console(line, first)
    while driver.position < end:
        driver.goto(idleness.piece(min(driver.position + _PIECE, end)))
        sent += driver.console(line, first + len(sent))
        place = sent.find(text)
        if place >= 0:
            driver.goto(driver.find(line, first + place + len(text) - 1) + 1)
            return None
        still = standstill(driver)
        # Where an end is named an alarm is waited for up to there.
        if still and (still.kind is not Standstill.ALARM or end == GREATEST_POSITION):
            return Silence(f"at step {driver.position:,} the program {still.kind.value}", sent)
        if idleness.is_over():
            if ticks.period(driver):
                return Silence(f"from step {driver.position:,} on the program {Standstill.ALARM.value}", sent, pauses=True)
            return Silence(f"the run pauses at step {driver.position:,}, as nothing was sent in the last {idle:,} steps, and the log has no "
                           "more events", sent, pauses=True, is_idle=True)
        driver.tell(driver.position)
    return Silence(f"that was looked for up to step {end:,}", sent)
