"""Runs and steps both ways as gdb asks for them, and the replies that say where they stopped."""
from __future__ import annotations

import os
from contextlib import suppress
from dataclasses import replace
from typing import Callable

from . import output, through, travel
from .driver import Driver
from .errors import Interrupted, Problem
from .interrupts import Interrupts
from .limits import GREATEST_POSITION
from .progress import TERMINAL, TerminalProgress
from .rsp import PACKET_BYTES, Link
from .travel import Reason, Stop, Stops

TRAP, INTERRUPTED, ARRIVED = b"T05", b"T02", b"T00"
REPLIES = {
    Reason.BEGIN: b"T05replaylog:begin;",
    Reason.END: b"T05replaylog:end;",
    Reason.LIMIT: ARRIVED,
    Reason.IDLE: ARRIVED,
    Reason.INTERRUPTED: INTERRUPTED,
    **{reason: b"T05replaylog:end;" for reason in travel.STILL},
}


class Motion:
    """The run of one driver, under one debugger."""

    def __init__(self, driver: Driver, link: Link, *, exceptions_whole: bool) -> None:
        self.stops = Stops()
        self._driver = driver
        self._link = link
        self._exceptions_whole = exceptions_whole
        self._transcript = output.Transcript()
        self._end = GREATEST_POSITION  # of the next run
        self._told = 0  # what was sent before this position has been shown
        self._moving = False
        self._interrupted = False  # the debugger wants the present move to end
        self.interrupts = Interrupts()

    def wants_stop(self) -> bool:
        """Whether the debugger wants the present move to end, or the user what is answered besides."""
        if not self._moving:
            return self.interrupts.end_answer()
        self._interrupted = self._interrupted or self._link.interrupted() or self.interrupts.end_run()
        return self._interrupted

    def go_on(self, idle: int, from_here: bool) -> bytes:
        """Runs to the next stop, and pauses after `idle` steps in which nothing happens. With `from_here` a breakpoint at the position
        stops the run at once: gdb steps off a breakpoint before it continues, unless it means to hit that one (`run`, `jump`)."""
        stops = replace(self.stops, end=self._end, idle=idle)
        self._end = GREATEST_POSITION
        if from_here and travel.is_at_breakpoint(self._driver, stops):
            return TRAP
        return self._forward(lambda: travel.forward(self._driver, stops, self._pause))

    def go_until(self, position: int) -> None:
        """Lets the next run end at a position at the latest."""
        if not self._driver.position < position <= GREATEST_POSITION:
            raise Problem(f"position {position:,} is not ahead: this is {self._driver.position:,}")
        self._end = position

    def leave(self, addresses: range) -> bytes:
        return self._forward(lambda: travel.leave(self._driver, addresses, self.stops, self._pause))

    def step(self) -> bytes:
        return self._forward(self._one_step)

    def go_back(self) -> bytes:
        return self._backward(lambda: travel.backward(self._driver, self.stops, self.wants_stop))

    def step_back(self) -> bytes:
        return self._backward(self._one_step_back)

    def show_progress(self) -> None:
        """Shows in the debugger's console how far long runs are."""
        self._driver.report = TerminalProgress(_Console(self))

    def obey(self, command: Callable[[], str]) -> bytes:
        """A command that goes on by itself, and gives why it could not, or ''."""
        self._told = self._driver.position
        self._moving = True
        try:
            refusal = command()
            interrupted = self._interrupted
        finally:
            self._moving = self._interrupted = False
        self._tell(self._driver.position)
        if interrupted:
            return INTERRUPTED
        if refusal:
            self.say(f"\n[{refusal.replace('`idle N`', '`wb idle N`')}]\n".encode("utf-8", "surrogateescape"))
        return ARRIVED

    def say(self, text: bytes) -> None:
        """Shows a text in the debugger's console."""
        if text and self._driver.report:
            self._driver.report.clear()
        self.write(text)

    def write(self, text: bytes) -> None:
        half = PACKET_BYTES // 2 - 1
        for first in range(0, len(text), half):
            self._link.send(b"O" + text[first:first + half].hex().encode())

    @property
    def is_moving(self) -> bool:
        return self._moving

    def _one_step(self) -> Stop:
        here = self._driver.position
        if here == GREATEST_POSITION:
            return Stop(Reason.END, here)
        end = Stop(Reason.STEPPED, here + 1)
        if not self._exceptions_whole:
            return travel.step_to(self._driver, self.stops, here, end)
        end = Stop(Reason.STEPPED, through.after(self._driver))
        self._driver.goto(here)
        return travel.within(self._driver, self.stops, end.position) or end

    def _one_step_back(self) -> Stop:
        here = self._driver.position
        if not here:
            return Stop(Reason.BEGIN, here)
        if not self._exceptions_whole:
            return travel.step_to(self._driver, self.stops, here - 1, Stop(Reason.STEPPED, here - 1))
        begin = Stop(Reason.STEPPED, through.before(self._driver))
        self._driver.goto(here)
        return travel.backward(self._driver, self.stops, self.wants_stop, begin)

    def _forward(self, run: Callable[[], Stop]) -> bytes:
        """A move on. gdb takes MIPS watches to stop before the store, and steps over it by itself."""
        self._told = self._driver.position
        stop = self._moved(run)
        self._tell(stop.position)
        return self._reply(stop)

    def _backward(self, run: Callable[[], Stop]) -> bytes:
        """A move back. It stops after the store, so that gdb's step back over the store ends before it."""
        self._told = self._driver.position
        stop = self._moved(run)
        self._driver.goto(stop.position + (stop.reason is Reason.WATCH))
        return self._reply(stop)

    def _moved(self, run: Callable[[], Stop]) -> Stop:
        """Where a move stops. An interrupted one stops where its last piece ended."""
        self._moving = True
        try:
            if self.wants_stop():  # since gdb began what this is a step of
                return Stop(Reason.INTERRUPTED, self._told)
            return run()
        except Interrupted:
            return Stop(Reason.INTERRUPTED, self._told)
        finally:
            self._moving = self._interrupted = False

    def _pause(self) -> bool:
        self._tell(self._driver.position)
        return self.wants_stop()

    def _tell(self, position: int) -> None:
        """Shows what was sent up to a position, and goes there."""
        if position > self._told:
            self.say(self._transcript.text(output.between(self._driver, self._told, position)))
            self._told = position
        self._driver.goto(position)

    def _reply(self, stop: Stop) -> bytes:
        if stop.watch:
            return b"T05watch:%x;" % stop.watch.address
        if stop.reason in travel.STILL:
            self.say(f"\n[{stop.note().replace('from step', 'From position')}.]\n".encode())
        elif stop.reason is Reason.IDLE:
            note = stop.note().replace("the run", "The run")
            self.say(f"\n[{note}. `continue` goes on, and `wb idle N` changes that number, 0 for never.]\n".encode())
        return REPLIES.get(stop.reason, TRAP)


class _Console:
    """The debugger's console as a stream, while a run goes on. While a line of `monitor` is answered, which gdb shows when that ends, it is
    the terminal that gdb has."""

    def __init__(self, motion: Motion) -> None:
        self._motion = motion
        self._terminal = os.environ.get(TERMINAL)

    def write(self, text: str) -> None:
        if self._motion.is_moving:
            self._motion.write(text.encode())
        elif self._terminal:
            with suppress(OSError), open(self._terminal, "w") as terminal:
                terminal.write(text)

    def flush(self) -> None:
        pass
