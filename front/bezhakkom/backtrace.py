"""The calls that are under way at a position. No frame is guessed from the stack: where a function was entered, and from where, is looked up
in the run. An entry counts if control has not come back to its return address with the stack pointer of the entry."""
from __future__ import annotations

from dataclasses import dataclass
from typing import Iterator, Optional, Tuple

from . import search
from .driver import Driver
from .instruction import RETURN
from .limits import RETURN_ADDRESS, STACK_POINTER
from .replies import Registers
from .states import registers_at
from .symbols import Symbols
from .tracing import Traced

_MOST_ENTRIES = 256  # of a function, that are looked at for one frame
_LARGEST = 1 << 20  # bytes of the stack that one function has


@dataclass(frozen=True)
class Frame:
    """A function that has not returned: the position and the PC of its instruction that called the frame before it, or at which the run is;
    and the code of the exception that was taken there, if it was no call. `is_last` if how the function was entered is not known, or if no
    function called it: it was `begun` by an rfe that returned to no interrupted instruction, as a task is."""

    position: int
    pc: int
    exception: Optional[int] = None
    is_last: bool = False
    begun: Optional[Traced] = None


def frames(driver: Driver, symbols: Symbols) -> Iterator[Frame]:
    """The frames at the position of the driver, from the present function to that at reset. The driver is elsewhere meanwhile."""
    position = driver.position
    state, = registers_at(driver, [position])
    pc, stack = state.pc, state.general[STACK_POINTER]
    exception: Optional[int] = None
    while True:
        entry = _entry(driver, symbols, pc, position, stack)
        if entry is None or entry[0] < 1:
            yield Frame(position, pc, exception, entry is None)
            return
        begun, state = entry
        last, = driver.traced(begun - 1, begun)
        if _is_return(last):
            yield Frame(position, pc, exception, True, last)
            return
        yield Frame(position, pc, exception)
        exception, position = last.exception, begun - 1
        if exception is None and begun > 1:
            position = begun - 2  # of the call or the jump, before its delay slot
        before, = registers_at(driver, [position])
        pc, stack = before.pc, state.general[STACK_POINTER]


def _entry(driver: Driver, symbols: Symbols, pc: int, position: int, stack: int) -> Optional[Tuple[int, Registers]]:
    """The position at which the function of a PC was entered that has not returned up to a position, and the state there."""
    function = symbols.function(pc)
    if function is None:
        return None
    begin, end = function
    found: Optional[int] = position if pc == begin else None
    at = position
    for _ in range(_MOST_ENTRIES):
        if found is None:
            driver.goto(at)
            found = search.last_visit(driver, [begin], 0)
        if found is None:
            return None
        state, before = registers_at(driver, [found, max(found - 2, 0)])
        called = _called(driver, state, found, begin) if found > 1 and begin <= before.pc < end else None
        if called is not None:  # `found` is a turn of a loop at the begin of the function
            found = called
            state, before = registers_at(driver, [found, found - 2])
        interrupted = _interrupted(driver, state, found, begin)
        if interrupted is not None:  # at its first instruction, to which an rfe returned
            found = interrupted
            continue
        is_call = found < 2 or before.pc + 8 & 0xFFFF_FFFF == state.general[RETURN_ADDRESS]
        is_of_stack = 0 <= state.general[STACK_POINTER] - stack <= _LARGEST
        if found < 2 or is_of_stack and (is_call or not begin <= before.pc < end) and not _has_returned(driver, state, found, position):
            return found, state
        at, found = found, None
    return None


def _is_return(step: Traced) -> bool:
    """Whether a step returns from an exception."""
    return step.word == RETURN and step.exception is None


def _interrupted(driver: Driver, state: Registers, position: int, begin: int) -> Optional[int]:
    """The position at which an exception was taken at the begin of a function, if one returned from it at another position."""
    if position < 2 or not _is_return(*driver.traced(position - 1, position)):
        return None
    driver.goto(position)
    before = search.last_visit(driver, [begin], 0)
    if before is None or next(driver.traced(before, before + 1)).exception is None:
        return None
    return before if registers_at(driver, [before])[0].general[STACK_POINTER] == state.general[STACK_POINTER] else None


def _called(driver: Driver, state: Registers, position: int, begin: int) -> Optional[int]:
    """The last position at which a function was entered by the call to which its return address belongs."""
    back = state.general[RETURN_ADDRESS]
    if back % 4:
        return None
    driver.goto(position)
    call = search.last_visit(driver, [back - 8 & 0xFFFF_FFFF], 0)
    entered = None if call is None else call + 2
    if entered is None or entered > position or registers_at(driver, [entered])[0].pc != begin:
        return None
    return entered


def _has_returned(driver: Driver, state: Registers, entered: int, position: int) -> bool:
    """Whether control came back from a function, up to a position."""
    back, at = state.general[RETURN_ADDRESS], entered
    for _ in range(_MOST_ENTRIES):
        driver.goto(at)
        found = search.next_visit(driver, [back], position - at) if at < position and not back % 4 else None
        if found is None:
            return False
        after, = registers_at(driver, [found])
        if after.general[STACK_POINTER] == state.general[STACK_POINTER]:
            return True
        at = found
    return False
