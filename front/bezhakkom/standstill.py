"""Where a run stands still: it comes to the same state again and again, for ever or until something arrives.

That is exact. It holds where after a turn all is as before that its steps look at: the processor, the control registers but
Random, the translation entries, and memory. What else the machine has can't count: no step of the turn reads Random, the lines of
devices in Cause, or a device, but for the serial part once what that shows can't change before a byte arrives; none stores into a
device; caches are not isolated; and where devices can interrupt, they are quiet until the next event of the log. So a loop stands
still that an interrupt of the serial part will leave, and so do faults in empty ROM. A loop that reads the clock, that the clock
interrupts, or that counts in memory, does not.
"""
from __future__ import annotations

from dataclasses import dataclass, field
from enum import Enum
from typing import Optional

from . import instruction, search
from .driver import Driver, unmapped
from .limits import GREATEST_POSITION, RAM, ROM
from .log import Kind
from .replies import Registers
from .states import followed, registers_at
from .tracing import Access, Traced

TURN = 1024  # the most that a turn may take to be seen: an asked state counts 1
BATCH = 30  # states that are asked for together
ASKED = 4  # what a question besides counts, as the program runs some steps again for it
EMPTY = 64  # empty words of ROM are passed over where there are at least so many

INTERRUPTS_ON, BOARD_MASK, CLOCK_MASK, ISOLATED = 0x1, 0x400, 0x800, 0x1_0000  # bits of Status
LINES = 0xFC00  # of Cause, which follow the devices
RANDOM, CAUSE = 1, 13  # numbers of control registers
INTERRUPT = 0  # as the exception in Cause
VECTORS = (0x8000_0080, 0xBFC0_0180)  # where interrupts lead, before and after the boot code has its way
SECOND = 8192  # units of the clock

# Of a word, by each load; lwl and lwr count as none.
SHOWN = {0x20: 0xFF, 0x21: 0xFFFF, 0x23: 0xFFFF_FFFF, 0x24: 0xFF, 0x25: 0xFFFF}

SERIAL = range(0x1FE0_0000, 0x1FE0_0020)
CSR, RBUF = 0x1FE0_0000, 0x1FE0_0008
READY = VALID = 0x8000  # of CSR, that a byte can be sent; of RBUF, that there is one


class Standstill(Enum):
    """What a run does that stands still for ever."""

    STUCK = "goes round in a loop that nothing can leave"
    WAITING = "waits for a byte, and the log has no more"
    LISTENING = "goes round in a loop that only an interrupt from outside can leave, and the log has no more events"
    # That the clock has no other interrupt shows in a second without one; what its alarm is set to does not show.
    ALARM = "goes round in a loop that only an alarm of the clock can leave, as the log has no more events"


@dataclass(frozen=True)
class Quiet:
    """That a run stands still up to a step, where something arrives, or for ever, and what it would then be said to do; and the
    steps of a turn, where it does more than go round: it takes exceptions, or changes what it sets right again. `addresses` are those
    of all its instructions, where they are known."""

    end: int
    kind: Standstill
    turn: Optional[int] = None
    addresses: Optional[frozenset[int]] = field(default=None, compare=False)


def standstill(driver: Driver, turn: int = TURN) -> Optional[Quiet]:
    """Whether the run stands still for ever from the position on, which stays."""
    found = quiet(driver, turn)
    return found if found and found.end == GREATEST_POSITION else None


def quiet(driver: Driver, turn: int) -> Optional[Quiet]:
    """How long the run stands still from the position on, which stays, in a loop whose turns take at most `turn` to be seen."""
    start = driver.position
    try:
        return Loop(driver).judge(turn)
    finally:
        driver.goto(start)


class Loop:
    """The states of a run from a position on, as far as they keep what they must."""

    def __init__(self, driver: Driver) -> None:
        self._driver = driver
        self._start = driver.position
        self._control = control_of(driver)
        self._states = [driver.registers()]
        self._passed = 0  # steps through empty ROM, whose states are not asked for
        self._cost = 1
        self._steps: dict[int, Traced] = {}  # those that were looked at last
        self._first_words: dict[int, int] = {}  # what the words that are stored to hold at the first state
        self._last_words: dict[int, int] = {}  # and at the last one
        self._changed: set[int] = set()  # those that hold something else
        self._known = {key_of(self._states[0])}  # the states since the last step that changed more than the processor
        self._asks_serial = False
        self._unready = False  # the serial part was seen not to be ready: it may be later
        self._listens = False  # devices may interrupt
        self._hears_clock = False  # the clock too
        self._is_deep = False  # a step changes more than the processor
        self._maps = False  # a step sets a translation entry

    def judge(self, most: int) -> Optional[Quiet]:
        if not self._can_take(self._control["status"]):
            return None
        turn = self._turn(most)
        if not turn:
            return None
        shown = turn if self._is_deep else None
        if not self._asks_serial and not self._listens:
            return Quiet(GREATEST_POSITION, Standstill.STUCK, shown, self._addresses())
        if (self._unready or self._listens) and not self._stays(turn, self._driver.boot().byte_time + 1):
            return None
        if self._hears_clock and not self._has_quiet_second():
            return None
        # A loop that takes no interrupts sees no external line.
        arrives = (event.time for event in self._driver.log
                   if event.time >= self._start and (self._listens or event.kind != Kind.WIRE))
        end = next(arrives, GREATEST_POSITION)
        # A step that meets an event says nothing of the steps before it.
        kind = (Standstill.ALARM if self._hears_clock else Standstill.WAITING if self._asks_serial else Standstill.LISTENING)
        return Quiet(end, kind, shown, self._addresses()) if self._here <= end else None

    def _addresses(self) -> Optional[frozenset[int]]:
        return None if self._passed else frozenset(state.pc for state in self._states)

    @property
    def _here(self) -> int:
        """The position of the last state."""
        return self._start + self._passed + len(self._states) - 1

    def _turn(self, most: int) -> Optional[int]:
        """The steps of a turn, if the first state comes again. It does not if another state comes again before it."""
        while self._cost <= most:
            for after in self._ahead():
                if not self._keeps(after):
                    return None
                self._states.append(after)
                if after == self._states[0] and self._is_all_as_before():
                    return self._here - self._start
                if key_of(after) in self._known:
                    return None
                self._known.add(key_of(after))
            if not self._pass_over_empty():
                return None
        return None

    def _stays(self, turn: int, steps: int) -> bool:
        """Whether the turns are the same for this many steps. After them each line has sent its byte, and is ready or
        never will be."""
        while not self._passed and len(self._states) <= steps:
            for after in self._ahead():
                if not self._keeps(after):
                    return False
                self._states.append(after)
        return not self._passed and self._states[turn:] == self._states[:-turn]

    def _has_quiet_second(self) -> bool:
        """Whether no interrupt comes in the next second of the clock: then there comes none but of an alarm."""
        self._driver.goto(self._start)
        return search.next_visit(self._driver, VECTORS, SECOND * self._driver.boot().unit + 1) is None

    def _ahead(self) -> list[Registers]:
        """The states of the next steps."""
        self._cost += BATCH
        if self._here + BATCH + 2 > GREATEST_POSITION:
            self._cost += TURN
            return []
        found = list(followed(self._driver, self._here, self._states[-1], BATCH))
        self._steps = {step.step: step for step, _ in found}
        return [state for _, state in found]

    def _is_all_as_before(self) -> bool:
        """Whether at the last state all but the processor is as at the first one."""
        if self._changed:
            return False
        self._ask_at(self._here)
        if control_of(self._driver) != self._control:
            return False
        return not self._maps or entries_of(self._driver, self._here) == entries_of(self._driver, self._start)

    def _pass_over_empty(self) -> bool:
        """Passes over empty ROM, up to shortly before its end, or before where the first state was. What comes after the same
        number of steps as there are words has taken no exception."""
        state = self._states[-1]
        if self._listens or not _is_in_rom(state.pc) or any(it.word != 0 for it in self._steps.values()):
            return True
        count = _empty_words(self._driver, state.pc & 0x1FFF_FFFF) - 1
        first = self._states[0].pc
        if state.pc < first <= state.pc + 4 * count:
            count = (first - state.pc) // 4 - 1
        if state.next_pc != state.pc + 4 or count < EMPTY or self._here + count >= GREATEST_POSITION:
            return True
        self._passed += count - 1
        self._states += registers_at(self._driver, [self._here + 1])
        self._begin_anew()
        return self._states[-1].pc == state.pc + 4 * count

    # Steps

    def _keeps(self, after: Registers) -> bool:
        """Whether the step from the last state to `after` keeps what it must."""
        step = self._step()
        if step.exception is not None:
            return not self._listens and self._can_go_on()
        assert step.word is not None
        code = instruction.code(step.word)
        if code == instruction.COPROCESSOR_0:
            return self._can_do(step.word) and self._can_go_on()
        if step.access is None:
            return code not in instruction.LOADS and code not in instruction.STORES
        if step.access.kind == "store":
            return self._stores(step.access)
        return self._loads(step.word, step.access.address | instruction.address(step.word, self._states[-1]) & 3, after)

    def _ask_at(self, position: int) -> None:
        self._cost += ASKED
        self._driver.goto(position)

    def _step(self) -> Traced:
        """What the step from the last state does."""
        return self._steps[self._here]

    def _can_do(self, word: int) -> bool:
        """Whether an instruction of coprocessor 0 neither reads nor uses what counts by itself."""
        self._maps |= word == instruction.WRITE_ENTRY
        if word in instruction.ENTRIES or word == instruction.RETURN:
            return True
        move, register = word >> 21 & 31, word >> 11 & 31
        return move == instruction.MOVE_TO or move == instruction.MOVE_FROM and self._can_move(register)

    def _can_move(self, register: int) -> bool:
        """Whether a control register that is read holds nothing that counts by itself, or follows devices."""
        return register not in (RANDOM, CAUSE)

    def _can_go_on(self) -> bool:
        """Whether the machine can be compared after a step that may change how it takes addresses and interrupts."""
        self._is_deep = True
        self._begin_anew()
        self._ask_at(self._here + 1)
        return self._can_take(self._driver.control()["status"])

    def _can_take(self, status: int) -> bool:
        """Whether with this Status loads and stores reach memory. Notes which devices may interrupt."""
        if status & INTERRUPTS_ON:
            self._listens |= bool(status & (BOARD_MASK | CLOCK_MASK))
            self._hears_clock |= bool(status & CLOCK_MASK)
        return not status & ISOLATED

    def _begin_anew(self) -> None:
        """States that were known say nothing of the rest, as a step changed more than the processor."""
        self._known.clear()

    def _stores(self, access: Access) -> bool:
        """Notes what a store changes."""
        word = access.address
        if word not in RAM:
            return access.mark == "ignored"
        if word not in self._last_words:
            self._ask_at(self._here)
            self._last_words[word] = self._first_words[word] = self._driver.words(word, 1)[0]
        if access.word != self._last_words[word]:
            self._is_deep = True
            self._begin_anew()
        self._last_words[word] = access.word
        if access.word == self._first_words[word]:
            self._changed.discard(word)
        else:
            self._changed.add(word)
        return True

    def _loads(self, word: int, place: int, after: Registers) -> bool:
        """Whether a load will always give what it gives here."""
        if place not in SERIAL:
            return place in RAM or place in ROM
        self._asks_serial = True
        shift = 8 * (place & 3)
        shown = SHOWN.get(instruction.code(word), 0) << shift if after.load else 0
        value = (after.load[1] << shift if after.load else 0) & shown
        if place & ~3 == CSR and not value & READY:
            self._unready = True
        return place & ~3 != RBUF or bool(shown & VALID and not value & VALID)


def key_of(state: Registers) -> tuple[object, ...]:
    return state.pc, state.next_pc, state.hi, state.lo, state.delay, state.load, *state.general


def control_of(driver: Driver) -> dict[str, int]:
    """The control registers, but for Random, which counts in each step, and the lines of devices."""
    control = driver.control()
    return {**control, "random": 0, "cause": control["cause"] & ~LINES}


def entries_of(driver: Driver, position: int) -> list[list[str]]:
    """The translation entries at a position."""
    driver.goto(position)
    return driver.values([f"tlb {number}" for number in range(64)])


def _is_in_rom(address: int) -> bool:
    return unmapped(address) in ROM


def _empty_words(driver: Driver, place: int) -> int:
    """How many words of ROM from a place on are 0. No step changes ROM."""
    for start, run in driver.boot().runs():
        begin = max(start, place)
        content = run[begin - start:]
        rest = content.lstrip(b"\0")
        if rest:
            return (begin + len(content) - len(rest) - place) // 4
    return (ROM.stop - place) // 4
