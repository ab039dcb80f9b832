"""Going on and back along a run, to the nearest place where it is to stop."""
from __future__ import annotations

from dataclasses import dataclass, field
from enum import Enum
from itertools import count
from typing import Callable, Optional

from . import conditions, memory, search, ticks
from .conditions import Conditions
from .driver import Driver
from .errors import Interrupted
from .idle import IDLE_STEPS, Idleness
from .limits import GREATEST_POSITION, VISIT_STEPS
from .standstill import TURN, VECTORS, Quiet, Standstill, quiet, standstill

# A run goes in pieces. After each one `pause` is called, and may end the run.
FIRST_PIECE = 1 << 16
LONGEST_PIECE = 1 << 22

IDLE_STORES = 64  # stores that change nothing are passed over, this many in a piece
# After this many of them it is checked whether the run stands still. If so, all of them can be passed over at once.
QUIET_AFTER = (1, 4, 16, 64)
QUIET_TURN = 128
FAR = 16 * VISIT_STEPS  # steps that a search back looks at together
BATCH = 64  # single steps that are asked for together
STEPS_A_STATE = 4096  # looking at the states of a loop costs more than running it: this many steps are run for each state

Pause = Callable[[], bool]


class Reason(Enum):
    """Why a run stops."""

    BREAKPOINT = "a breakpoint"
    WATCH = "a watch"
    STEPPED = "the end of a step"
    BEGIN = "the beginning of the run"
    END = "the greatest position"
    LIMIT = "the position to which it was to go"
    IDLE = "nothing sent, and nothing to come"
    STUCK = Standstill.STUCK.value
    WAITING = Standstill.WAITING.value
    LISTENING = Standstill.LISTENING.value
    ALARM = Standstill.ALARM.value
    INTERRUPTED = "Ctrl-C"


STILL = (Reason.STUCK, Reason.WAITING, Reason.LISTENING, Reason.ALARM)


@dataclass(frozen=True)
class Watch:
    """Bytes that are watched: their virtual address, and where they stand in memory."""

    address: int
    size: int
    place: int

    def words(self) -> range:
        return range(self.place & ~3, self.place + self.size, 4)

    def changes(self, driver: Driver, step: int) -> bool:
        """Whether a step changes one of the bytes. Memory before and after the step is read in one turn."""
        before, after = memory.at_both(driver, self.place, self.size, step)
        return before != after


@dataclass
class Stops:
    """Where a run is to stop: at addresses of instructions, some with conditions, and where bytes are changed. One that goes on
    stops at position `end` at the latest. Without that it stops after `idle` steps in which it does nothing, if that is not 0."""

    breakpoints: set[int] = field(default_factory=set)
    watches: set[Watch] = field(default_factory=set)
    conditions: Conditions = field(default_factory=dict)
    end: int = GREATEST_POSITION
    idle: int = IDLE_STEPS


@dataclass(frozen=True)
class Stop:
    """Where a run stops, and why. For a watch `position` is the step that changes its bytes: the change shows one
    further on. `steps` are those in which nothing was done, or those of a turn of a standstill that does more than go round."""

    reason: Reason
    position: int
    watch: Optional[Watch] = None
    steps: Optional[int] = None

    def note(self) -> str:
        """What is said of a stop that is neither a breakpoint nor a watch."""
        if self.reason in STILL:
            turn = f"; every {self.steps:,} steps all is as before, but Random and the clock" if self.steps else ""
            return f"from step {self.position:,} on the program {self.reason.value}{turn}"
        if self.reason is Reason.IDLE:
            return f"the run pauses: nothing was sent in the last {self.steps:,} steps, and the log has no more events"
        if self.reason is Reason.LIMIT:
            return f"reached step {self.position:,}"
        return f"that is {self.reason.value}"


def forward(driver: Driver, stops: Stops, pause: Pause) -> Stop:
    """The first stop above the position, or a watch that is changed from it on; the driver stands there afterwards.
    `pause` is called at the end of each piece, and reports whether the run is to end there."""
    return _at(driver, _forward(driver, stops, pause))


def leave(driver: Driver, addresses: range, stops: Stops, pause: Pause) -> Stop:
    """The same for a run that also ends where the PC is none of the addresses."""
    return _at(driver, _leave(driver, addresses, stops, pause))


def backward(driver: Driver, stops: Stops, pause: Pause, otherwise: Stop = Stop(Reason.BEGIN, 0)) -> Stop:
    """The last breakpoint below the position, or the last step below it that changes a watch; or another stop, where
    both would be below that one. The driver stands there afterwards."""
    return _at(driver, _backward(driver, stops, pause, otherwise))


def within(driver: Driver, stops: Stops, end: int) -> Optional[Stop]:
    """The first stop that forward() would come to, if it is before a position that is near."""
    here = driver.position
    while here < end:
        stop, here = _first(driver, stops, here, end)
        if stop:
            return stop if stop.position < end else None
    return None


def is_at_breakpoint(driver: Driver, stops: Stops) -> bool:
    """Returns whether a breakpoint stops the run at the position itself: its instruction is next, and its condition holds."""
    here, pc = driver.position, driver.registers().pc
    return pc in stops.breakpoints and here in conditions.all_hits(driver, [pc], stops.conditions, here, here)


def step_to(driver: Driver, stops: Stops, step: int, end: Stop) -> Stop:
    """The end of a single step, one way or the other, or the watch that the step changes."""
    watch = next((watch for watch in stops.watches if watch.changes(driver, step)), None)
    return Stop(Reason.WATCH, step, watch) if watch else end


def _at(driver: Driver, stop: Stop) -> Stop:
    driver.goto(stop.position)
    return stop


def _forward(driver: Driver, stops: Stops, pause: Pause) -> Stop:
    start, length = driver.position, FIRST_PIECE
    idleness = Idleness(driver, stops.idle if stops.end == GREATEST_POSITION else 0)
    with driver.long_run(start, stops.end if stops.end < GREATEST_POSITION else None):
        while True:
            here = driver.position
            stop, end = _first(driver, stops, here, idleness.piece(min(here + length, stops.end)))
            if stop:
                return stop
            driver.goto(end)
            driver.tell(end)
            if end == stops.end:
                return Stop(Reason.LIMIT if end < GREATEST_POSITION else Reason.END, end)
            if pause():
                return Stop(Reason.INTERRUPTED, end)
            stop = _standstill(driver, start, min(length // STEPS_A_STATE, TURN))
            if stop:
                return stop
            if idleness.is_over():
                second = ticks.period(driver)
                return Stop(Reason.ALARM, end, steps=second) if second else Stop(Reason.IDLE, end, steps=stops.idle)
            length = min(4 * length, LONGEST_PIECE)


def _leave(driver: Driver, addresses: range, stops: Stops, pause: Pause) -> Stop:
    """Looks at each step, in batches."""
    begin = driver.position
    for batch in count(1):
        start = driver.position
        end = min(start + BATCH, GREATEST_POSITION)
        counters = [step.pc for step in driver.traced(start + 1, end + 1)]
        outside = next((start + at for at, pc in enumerate(counters, 1) if pc not in addresses), None)
        stop, reached = _first(driver, stops, start, outside or end)
        if stop and stop.position != outside:
            return stop
        driver.goto(reached)
        if reached == outside:
            return Stop(Reason.STEPPED, reached)
        if reached == GREATEST_POSITION:
            return Stop(Reason.END, reached)
        if pause():
            return Stop(Reason.INTERRUPTED, reached)
        stop = _standstill(driver, begin, TURN) if batch * BATCH % STEPS_A_STATE == 0 else None
        if stop:
            return stop
    raise AssertionError("a run has an end")


def _backward(driver: Driver, stops: Stops, pause: Pause, otherwise: Stop) -> Stop:
    start, stop, lowest = driver.position, otherwise, otherwise.position
    for watch in stops.watches:
        step = _last_change(driver, watch, lowest, start, pause)
        if step is not None:
            stop, lowest = Stop(Reason.WATCH, step, watch), step + 1
    driver.goto(start)
    if stops.breakpoints:
        found = _last_hit(driver, stops, lowest)
        if found is not None:
            stop = Stop(Reason.BREAKPOINT, found)
    return stop


def _last_hit(driver: Driver, stops: Stops, lowest: int) -> Optional[int]:
    """The last breakpoint below the position, and not below `lowest`. Looking for one runs all steps again, so those of a loop that stands
    still and has none are passed over, and with them what is known."""
    with driver.long_run(driver.position, lowest):
        while True:
            far = driver.position - FAR
            known = far if stops.conditions else max(driver.visits.since(it, far) for it in stops.breakpoints)
            begin = max(lowest, known)
            found = conditions.last_hit(driver, stops.breakpoints, stops.conditions, begin)
            if found is not None or begin == lowest:
                return found
            driver.goto(begin)
            if known == far:
                _pass_over(driver, stops.breakpoints, lowest)


def _pass_over(driver: Driver, addresses: set[int], lowest: int) -> None:
    """Goes back to the begin of a loop that stands still and has none of the addresses, if the run is in one."""
    here, still = driver.position, quiet(driver, QUIET_TURN)
    # An alarm leaves its loop and comes back to it.
    if still and not still.turn and still.kind is not Standstill.ALARM and still.addresses and not still.addresses & addresses:
        driver.goto(_begin(driver, lowest, still, QUIET_TURN))
        for it in addresses:
            driver.visits.note(it, driver.position, here, None)


def _first(driver: Driver, stops: Stops, start: int, end: int) -> tuple[Optional[Stop], int]:
    """The first stop above `start`, at most at `end`, and up to where that is known."""
    stop = None
    driver.goto(start)
    if stops.breakpoints and start < end:
        found = conditions.next_hit(driver, stops.breakpoints, stops.conditions, end - start)
        if found is not None:
            stop, end = Stop(Reason.BREAKPOINT, found), found
    for watch in stops.watches:
        changed, known = _first_change(driver, watch, start, end)
        if changed is not None:
            stop = Stop(Reason.WATCH, changed, watch)
        elif known < end:
            stop = None
        end = known
    return stop, end


def _first_change(driver: Driver, watch: Watch, start: int, end: int) -> tuple[Optional[int], int]:
    """The first step from `start` to below `end` that changes the bytes, and up to where that is known."""
    for idle in range(1, IDLE_STORES + 1):
        driver.goto(start)
        found = [search.first_store(driver, word, end - start) for word in watch.words()] if start < end else []
        stores = [step for step in found if step is not None]
        if not stores:
            return None, end
        start = min(stores)
        if watch.changes(driver, start):
            return start, start
        driver.goto(start)
        still = quiet(driver, QUIET_TURN) if idle in QUIET_AFTER else None
        start = _left(driver, still, end) if still and not still.turn else start + 1
    return None, start


def _left(driver: Driver, still: Quiet, end: int) -> int:
    """Up to where a loop that stands still from the position on goes round, at most up to an end."""
    end = min(still.end, end)
    if still.kind is not Standstill.ALARM:
        return end
    # An alarm leaves its loop and comes back to it.
    return search.next_visit(driver, VECTORS, end - driver.position) or end


def _last_change(driver: Driver, watch: Watch, lowest: int, end: int, pause: Pause) -> Optional[int]:
    """The last step below `end`, and not below `lowest`, that changes the bytes."""
    for idle in count(1):
        driver.goto(end)
        found = [search.last_store(driver, word) for word in watch.words()]
        stores = [step for step in found if step is not None and step >= lowest]
        if not stores:
            return None
        end = max(stores)
        if watch.changes(driver, end):
            return end
        driver.goto(end)
        still = quiet(driver, QUIET_TURN) if idle % IDLE_STORES in QUIET_AFTER else None
        if still and not still.turn:
            left = search.last_visit(driver, VECTORS, lowest) if still.kind is Standstill.ALARM else None
            end = _begin(driver, lowest if left is None else left, still, QUIET_TURN)
        if pause():
            raise Interrupted
    raise AssertionError("a run has a begin")


def _standstill(driver: Driver, low: int, turn: int) -> Optional[Stop]:
    """The first position, not below `low`, from which the run stands still for ever, if it does so from the present
    one on."""
    still = standstill(driver, turn)
    if still and still.kind is Standstill.ALARM and still == _quiet_at(driver, low, turn):
        return None  # that is known already, and the run goes on to an alarm
    return Stop(Reason(still.kind.value), _begin(driver, low, still, 2 * turn + TURN), steps=still.turn) if still else None


def _quiet_at(driver: Driver, position: int, turn: int) -> Optional[Quiet]:
    here = driver.position
    try:
        driver.goto(position)
        return quiet(driver, turn)
    finally:
        driver.goto(here)


def _begin(driver: Driver, low: int, still: Quiet, turn: int) -> int:
    """The first position, not below `low`, from which the run stands still as it does from the present one on."""
    high = driver.position
    while low < high:
        middle = (low + high) // 2
        if _quiet_at(driver, middle, turn) == still:
            high = middle
        else:
            low = middle + 1
    return high
