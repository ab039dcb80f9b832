"""The library: one run of a machine, whose past can be edited. `docs/LIBRARY.md` shows it by example.

    with bezhakkom.boot("login.elf") as machine:
        machine.until(console="password: ")
        machine.send("sesame\\r")
        machine.until(console="Welcome")

A place is an address, or a text as the shell takes it: a symbol, a register, a sum (`session+0x20`, `sp-16`), or what memory holds
(`[line]+4`). Texts are UTF-8, in both directions, and bytes stay bytes. What goes wrong is a Problem with the sentence that the shell has
for it.
"""
from __future__ import annotations

import os
import sys
from concurrent.futures import Executor
from contextlib import contextmanager
from dataclasses import dataclass
from functools import wraps
from threading import RLock
from typing import Any, Callable, Iterable, Iterator, Mapping, Optional, Sequence, TypeVar, Union, cast, overload
from weakref import finalize

from . import arriving, checked, expecting, expressions, joining, loading, memory, places, saved, travel
from . import log as logs
from .checked import Path, Place, Results, Text
from .commands import words_of
from .conditions import all_hits
from .driver import Driver
from .errors import Problem
from .exceptions import Catch
from .expressions import REGISTERS, register_number, written
from .jumping import Jumps
from .jumps import Jump
from .limits import GREATEST_POSITION
from .loading import Opening
from .log import Event, Kind
from .saving import save
from .session import Session, counted
from .symbols import symbols_of
from .tracing import Traced
from .travel import Reason, Stops, Watch
from .whatif import causes as _causes
from .whatif import compare as _compare
from .whatif import futures as _futures
from .whatif import fuzz as _fuzz
from .whatif import shrink as _shrink
from .whatif import when as _when
from .whatif import why as _why_of
from .whatif.causes import Causes
from .whatif.compare import Comparison
from .whatif.conditions import Condition
from .whatif.futures import Futures
from .whatif.fuzz import Fuzzed
from .whatif.pasts import Question, undisturbed
from .whatif.shrink import Shrunk
from .whatif.when import When
from .whatif.why import Why
from .whatif.words import Words

_LONGEST_TEXT = 4096  # bytes of a text in memory
_MOST_TRACED = 100_000  # steps, which take some 100 MB


Call = TypeVar("Call", bound=Callable[..., Any])


def _alone(call: Call) -> Call:
    """A public call of a machine or its memory: no other thread is in one meanwhile."""
    @wraps(call)
    def made(self: Union[Machine, Memory], *arguments: Any, **named: Any) -> Any:
        with self.alone():
            return call(self, *arguments, **named)
    return cast(Call, made)


class NotReached(Problem, AssertionError):
    """A run does not come to what it was to go on to. In a test that is a failure."""


@dataclass(frozen=True)
class Step:
    """A step of a run: its number, and the instruction that it runs, with its address, the name of its place, and its source line as
    `login.c:44`, where the image has that."""

    number: int
    pc: int
    place: str
    instruction: str
    source: str = ""

    def __str__(self) -> str:
        return f"step {self.number:,}, {self.place}: {self.instruction}"


def boot(files: Union[Path, Sequence[Path]], *, log: Union[Path, Sequence[Event], None] = None, kind: Optional[str] = None,
         symbols: Sequence[Path] = (), unit: Optional[int] = None, byte_time: Optional[int] = None,
         clock: Optional[str] = None) -> Machine:
    """A machine at reset, on an image or several files that make one, or on a session that the shell saved. The options are those
    of the command line. A log is a file, or its events."""
    names = checked.paths("files", files)
    if not names:
        raise Problem("there is no file to boot")
    name, arrived = (None, None) if log is None else (os.fspath(log), None) if isinstance(log, (str, os.PathLike)) else (None, _log_of(log))
    clock = None if clock is None else checked.text("clock", clock)
    opening = Opening(tuple(names), name, kind, tuple(checked.paths("symbols", symbols)), _text_of("unit", unit),
                      _text_of("byte_time", byte_time), clock)
    notes: list[str] = []
    machine = _on_session(opening, notes) if joining.is_one(names) else _on_files(opening, notes)
    if arrived is not None:
        machine.log = tuple(arrived)
    return machine


def _text_of(name: str, number: Optional[int]) -> Optional[str]:
    return None if number is None else str(checked.whole(name, number))


def _log_of(events: Iterable[Event]) -> list[Event]:
    """The events of an argument `log`, which the program would take."""
    made = checked.events("log", events)
    logs.check(made, "the log")
    return made


def _on_session(opening: Opening, notes: list[str]) -> Machine:
    """A machine on an image or a session."""
    with saved.opened(opening, notes.append) as found:
        driver = loading.start(loading.booted(found.opening, notes.append), found.opening.log)
    machine = Machine(Session(driver, symbols_of(driver.image), tell=notes.append, origin=found.origin), notes)
    driver.values(found.edits())
    return machine


def _on_files(opening: Opening, notes: list[str]) -> Machine:
    driver = loading.start(joining.image_of(opening, notes.append), opening.log)
    return Machine(Session(driver, symbols_of(driver.image), tell=notes.append), notes)


def events(text: str) -> tuple[Event, ...]:
    """The events of a log as text: `events("20000 0 'sesame\\\\r' 10000")`."""
    return tuple(logs.make(checked.text("text", text).splitlines() if text else (), "the log"))


class Machine:
    """One run, at a position. Each answer is that of the machine run from reset, with the image and the log as they stand."""

    def __init__(self, session: Session, notes: Sequence[str] = ()) -> None:
        self._session = session
        self._lock = RLock()
        self._process = os.getpid()
        self._is_closed = False
        self.memory = Memory(self)
        self.notes = notes  # on the files, such as where the image begins that has nothing at reset
        finalize(self, _end, session.driver, self._process)  # where nobody closes it

    @contextmanager
    def alone(self) -> Iterator[Machine]:
        """Makes other threads wait, so that several calls stay together, such as `goto` and the queries at the new position. Each single
        call does so by itself, and so do `edits` and `what_if` up to their ends."""
        if os.getpid() != self._process:
            raise Problem(f"this machine belongs to process {self._process}, of which this one is a fork: boot another machine here")
        with self._lock:
            if self._is_closed:
                raise Problem("the machine is closed: `boot` starts another one")
            yield self

    @property
    def session(self) -> Session:
        """What the shell knows of a run. A lock is not taken: see `alone`."""
        with self.alone():
            return self._session

    @property
    def driver(self) -> Driver:
        """What all front ends ask; see `docs/WORKING.md`. A lock is not taken: see `alone`."""
        return self.session.driver

    def __enter__(self) -> Machine:
        return self

    def __exit__(self, *_: object) -> None:
        self.close()

    def __repr__(self) -> str:
        driver = self._session.driver
        return f"<Machine {driver.image.name} {'that is closed' if self._is_closed else f'at position {driver.position:,}'}>"

    def close(self) -> None:
        """Ends the program. What is asked after that is a Problem."""
        if os.getpid() == self._process:
            with self._lock:
                self._is_closed = True
                self._session.driver.close()

    # Where it is

    @property
    @_alone
    def position(self) -> int:
        """How many steps the machine has made since reset."""
        return self.driver.position

    @_alone
    def goto(self, position: int) -> int:
        """Goes to a position, on or back."""
        position = checked.position("position", position)
        self.driver.goto(position)
        return position

    @_alone
    def step(self, steps: int = 1) -> int:
        """Goes on by steps, or back by negative ones, and gives the position."""
        position = self.position + checked.whole("steps", steps)
        if not 0 <= position <= GREATEST_POSITION:
            raise Problem(f"`steps` leads from position {self.position:,} to {position:,}: a position is 0 to {GREATEST_POSITION:,}")
        return self.goto(position)

    @_alone
    def next_step(self) -> Step:
        """The step that comes next."""
        return self._step(self.position)

    def _step(self, number: int) -> Step:
        with self.session.at(number):
            pc = self.driver.registers().pc
            return Step(number, pc, self.session.place(pc), self.session.instruction(pc), self.session.symbols.line(pc))

    # Going on

    @_alone
    def until(self, *, console: Optional[Text] = None, pc: Optional[Place] = None, word: Optional[Place] = None,
              position: Optional[int] = None, steps: Optional[int] = None, line: int = 0,
              value: Union[int, Callable[[int], bool], None] = None) -> int:
        """Goes on to the first position that is wanted, and gives it:

        - console: right after the serial line has sent the text, all of it from here on;
        - pc: above this one, where the instruction at that place comes next, or at the nearest of several places with one name;
        - word: from this one on, where the word at that place has a value, or one for which a function holds, or, without a value,
          right after it has changed;
        - position: that one.

        It goes on at most so many steps. Without a number it ends where the run stands still, or has done nothing for long. Where it
        finds nothing the machine stays at its position, and NotReached is raised.
        """
        wanted = {"console": console, "pc": pc, "word": word, "position": position}
        if sum(it is not None for it in wanted.values()) != 1:
            raise Problem(f"`until` takes one of {', '.join(wanted)}")
        if value is not None and word is None:
            raise Problem("`value` is that of a word: name this as `word`")
        here = self.position
        steps = checked.whole_or_none("steps", steps, 0)
        end = GREATEST_POSITION if steps is None else min(here + steps, GREATEST_POSITION)
        try:
            if console is not None:
                self._until_sent(checked.whole("line", line), checked.content("console", console), end)
            elif pc is not None:
                self._until_pc(self._addresses("pc", pc), end)
            elif word is not None:
                self._until_word(word, value, end)
            elif position is not None:
                self._until_position(checked.position("position", position), end)
        except BaseException:
            self.driver.goto(here)
            raise
        return self.position

    def _until_sent(self, line: int, text: bytes, end: int) -> None:
        arriving.check_line(line)
        silence = expecting.until_sent(self.driver, line, self.driver.sent(line), text, end, self.session.idle)
        if silence:
            raise NotReached(silence.sentence(line, text))

    def _until_pc(self, addresses: Sequence[int], end: int) -> None:
        here = self.position
        stop = travel.forward(self.driver, Stops(set(addresses), end=end, idle=self.session.idle), lambda: False)
        if stop.reason is not Reason.BREAKPOINT:
            raise NotReached(f"the run does not come to {' or '.join(map(self.session.address, addresses))}: {_why(stop, here)}")

    def _until_word(self, place: Place, value: Union[int, Callable[[int], bool], None], end: int) -> None:
        here, driver = self.position, self.driver
        if value is not None and not callable(value):
            value = checked.whole("value", value)
        address, physical = self._word_at("word", place)
        watch = Watch(address, 4, physical)
        before = driver.words(physical, 1)[0]

        def is_wanted(word: int) -> bool:
            return word != before if value is None else value(word) if callable(value) else word == value

        while not is_wanted(driver.words(physical, 1)[0]):
            stop = travel.forward(driver, Stops(watches={watch}, end=end, idle=self.session.idle), lambda: False)
            if stop.watch is None:
                how = "change" if value is None else "become what is wanted" if callable(value) else f"become {value:#x}"
                raise NotReached(f"the word at {self.session.address(address)} does not {how}: {_why(stop, here)}")
            driver.goto(stop.position + 1)

    def _until_position(self, position: int, end: int) -> None:
        if position < self.position:
            raise NotReached(f"position {position:,} is not ahead: this is {self.position:,}")
        if position > end:
            raise NotReached(f"position {position:,} is more than {counted(end - self.position, 'step')} ahead")
        self.goto(position)

    # What it holds

    @_alone
    def value(self, text: str) -> int:
        """The number that a text means here, as the shell takes it: `v0`, `main+8`, `[sp+16]`, `byte[session+9]`."""
        return self.session.number(checked.text("text", text))

    @_alone
    def address(self, place: Place) -> int:
        """The virtual address of a place."""
        place = checked.place("place", place)
        address = place if isinstance(place, int) else self.value(place)
        places.check(address)
        return address

    def _addresses(self, name: str, place: Place) -> list[int]:
        """The virtual addresses of code that an argument names."""
        place = checked.place(name, place)
        found = [place] if isinstance(place, int) else expressions.places_of(place, self.driver, self.session.symbols)[0]
        for address in found:
            places.check(address)
        return found

    def _word_at(self, name: str, place: Place) -> tuple[int, int]:
        """The virtual and the physical address of the word that an argument names."""
        return self.session.word_at(str(checked.place(name, place)))

    @property
    @_alone
    def registers(self) -> Mapping[str, int]:
        """The registers here by their names: `v0` and `r2`, `pc`, `next`, `hi`, `lo`, and the control registers, such as `epc`."""
        state = self.driver.registers()
        names = [*REGISTERS, "s8", *(f"r{number}" for number in range(len(state.general)))]
        general = {name: state.general[number] for name in names if (number := register_number(name)) is not None}
        return Results({**general, "pc": state.pc, "next": state.next_pc, "hi": state.hi, "lo": state.lo, **self.driver.control()})

    @_alone
    def console(self, line: int = 0) -> str:
        """All that a serial line sent before this position, as a text of UTF-8. A byte that is none of that is shown as `\\xNN`."""
        return self.sent(line).decode("utf-8", "backslashreplace")

    @_alone
    def sent(self, line: int = 0) -> bytes:
        """The bytes that a serial line sent before this position."""
        arriving.check_line(checked.whole("line", line))
        return self.driver.console(line)

    @_alone
    def writer(self, place: Place) -> Optional[Step]:
        """The step before this position that stored into the word at a place last, or wrote a register, as in `writer("$a0")`; or None
        where no step did."""
        if isinstance(place, str) and place.startswith("$"):
            step = self.driver.register_writer(written(place))
        else:
            step = self.driver.writer(self._word_at("place", place)[1]).step
        return None if step is None else self._step(step)

    @_alone
    def stores(self, place: Place, most: int = 16) -> list[tuple[Step, int]]:
        """The last stores before this position into the word at a place, from the last one back, each with the word after it."""
        physical, most = self._word_at("place", place)[1], checked.whole("most", most, 0)
        return [(self._step(step), word) for step, word in self.driver.stores(physical, most)]

    @property
    @_alone
    def devices(self) -> Mapping[str, Any]:
        """What the devices hold here, as `devices --json` of the shell says it. Nothing is read."""
        return cast(Results, Results.of(self.driver.devices()))

    @_alone
    def trace(self, steps: int = 1) -> list[Traced]:
        """What the next steps do, at most 100,000 of them. The position stays."""
        checked.whole("steps", steps, 0, _MOST_TRACED)
        if self.position + steps > GREATEST_POSITION:
            raise Problem(f"{steps:,} steps can't be followed: a position is 0 to {GREATEST_POSITION:,}")
        return list(self.driver.traced(self.position, self.position + steps))

    @_alone
    def jumps(self, local: bool = False, *, steps: Optional[int] = None, most: Optional[int] = None) -> Iterator[Jump]:
        """Returns an iterator over the next steps that transfer control: calls, returns and other jumps by register, `rfe`, exceptions and
        interrupts, and with `local` also taken branches and `j`. The iterator follows each step once, and the position stays.

        `steps` limits the search to the next steps, and `most` the number of results. Without `steps` the iterator ends when the machine
        is stuck, or after many steps without a result. An edit counts for the results after it.
        """
        here = self.position
        steps, most = checked.whole_or_none("steps", steps, 0), checked.whole_or_none("most", most, 0)
        end = GREATEST_POSITION if steps is None else min(here + steps, GREATEST_POSITION)
        return self._walk(Jumps(self.driver, here, local, end, sys.maxsize if most is None else most, self.session.idle))

    def _walk(self, found: Jumps) -> Iterator[Jump]:
        while not found.is_over:
            with self.alone():
                more = found.more()
            yield from more

    @_alone
    def hits(self, place: Place) -> list[int]:
        """All positions up to this one at which the instruction at a place comes next. A name of several places, such as a static function of
        two sources, means all of them, as `break` of the shell does; `a.c:NAME` is one."""
        return list(all_hits(self.driver, self._addresses("place", place), {}, 0, self.position))

    @_alone
    def exceptions(self, kind: str = "") -> list[int]:
        """The steps before this position that took an exception, of a kind as the shell's `catch exception` names it, or of any."""
        kind = kind if kind == "" else checked.text("kind", kind)
        conditions = {handler: [it] for handler, it in Catch(kind).conditions().items()}
        return [it - 1 for it in all_hits(self.driver, list(conditions), conditions, 0, self.position)]

    # The past

    @property
    @_alone
    def log(self) -> tuple[Event, ...]:
        """What arrives, in order. It can be set to other events."""
        return tuple(self.driver.log)

    @log.setter
    @_alone
    def log(self, wanted: Iterable[Event]) -> None:
        self.driver.values(logs.changes(self.driver.log, _log_of(wanted)))

    @_alone
    def send(self, text: Text, *, line: int = 0, gap: int = 0) -> range:
        """Lets bytes arrive at a serial line from this position on, so far apart that a program loses none, or `gap` steps. What is
        sent before the last ones have arrived comes after these. Gives their steps."""
        arriving.check_line(checked.whole("line", line))
        content = checked.content("text", text)
        if not content:
            raise Problem("there is nothing to send")
        return arriving.type_in(self.driver, self.session.typed, line, content, checked.whole("gap", gap, 0))

    @_alone
    def arrive(self, step: int, value: Union[int, Text], *, line: int = 0, kind: Kind = Kind.BYTE) -> int:
        """Lets a byte arrive in a step, also one with a framing error; or an external line gets a level. Gives its number in the
        log."""
        step, line = checked.whole("step", step), checked.whole("line", line)
        return self.driver.add(step, line, checked.byte("value", value), checked.kind("kind", kind))

    @_alone
    def delete(self, event: int) -> None:
        """Takes an event out of the log, by its number."""
        self.driver.delete(checked.whole("event", event))

    @_alone
    def change(self, event: int, value: Union[int, Text]) -> None:
        """Gives an event another byte or level."""
        self.driver.set_byte(checked.whole("event", event), checked.byte("value", value))

    @_alone
    def move(self, event: int, step: int) -> int:
        """Moves an event to another step, and gives its number there."""
        return self.driver.move(checked.whole("event", event), checked.whole("step", step))

    @_alone
    def erase(self, first: int, end: int) -> None:
        """Takes out all events of the steps from one up to another, which is left out."""
        self.driver.erase(checked.whole("first", first), checked.whole("end", end))

    @_alone
    def patch(self, place: Place, word: int) -> None:
        """Starts the machine with a word at a place. What steps store there stands over it."""
        self.session.patch(str(checked.place("place", place)), checked.whole("word", word))

    @contextmanager
    def edits(self) -> Iterator[Machine]:
        """What is edited within is taken back at the end, where the machine also is at its position again. That is so also if the program
        died, or by Ctrl-C. Other threads wait up to the end."""
        with self.alone():
            session, driver = self._session, self._session.driver
            log, patches, here, typed = list(driver.log), list(driver.patches), driver.position, dict(session.typed)
            try:
                yield self
            finally:
                session.typed = typed
                if not self._is_closed:
                    with undisturbed(driver):
                        driver.restore(log, patches, here)

    @contextmanager
    def what_if(self, *, without: Iterable[int] = (), changed: Optional[Mapping[int, Union[int, Text]]] = None,
                moved: Optional[Mapping[int, int]] = None, log: Optional[Iterable[Event]] = None) -> Iterator[Machine]:
        """Another past, for a while: without events, by their numbers in the log as it stands; with other bytes, and at other steps;
        or with another log."""
        bytes_ = checked.mapping("changed", changed or {}, checked.byte)
        steps = checked.mapping("moved", moved or {}, checked.whole)
        out = frozenset(checked.wholes("without", without))
        with self.edits():
            before = list(self.log) if log is None else checked.events("log", log)
            for number in {*out, *bytes_, *steps}:
                self._check_event(number, before)
            made = [Event(steps.get(at, it.time), it.line, bytes_.get(at, it.byte), it.kind)
                    for at, it in sorted(enumerate(before), key=lambda pair: pair[0] in steps) if at not in out]
            self.log = tuple(sorted(made, key=lambda it: it.time))
            yield self

    @staticmethod
    def _check_event(number: int, log: Sequence[Event]) -> None:
        if not 0 <= number < len(log):
            raise Problem(f"there is no event {number}: the log has {counted(len(log), 'event')}")

    # What if: answers over many other pasts. Ctrl-C ends them with what they have. They leave all as it was.

    @_alone
    def causes(self, what: str, *, by: Sequence[str] = ("set", "del"), values: int = 1,
               executor: Optional[Executor] = None) -> Causes:
        """The events that decide what is asked for here: those that change it when they alone get another value (`set`), and those
        that do when they alone are taken out (`del`). What is asked for is as in the shell: a register, a place of a word, `console`,
        or `sent LINE PLACE`."""
        by = checked.texts("by", by)
        for way in by:
            if way not in (_causes.SET, _causes.DEL):
                raise Problem(f"`by` has `{_causes.SET}` or `{_causes.DEL}`, and not {checked.shortened(way)}")
        return _causes.causes(self.driver, self._question("what", what), self.position, by, checked.whole("values", values, 0), executor)

    @_alone
    def futures(self, event: int, *, values: Optional[Iterable[int]] = None, without: bool = False, steps: Iterable[int] = (),
                show: Sequence[str] = (), until: Optional[str] = None, at: Optional[int] = None,
                executor: Optional[Executor] = None, by_sent: bool = False) -> Futures:
        """What comes of an event with other values, without it, or at other steps, grouped by outcome; without any of these, of all
        its values. It is looked at here or at a position, or where a condition of the shell's holds first. With `by_sent` the function
        in which the program is, is no part of an outcome."""
        event, steps = checked.whole("event", event), checked.wholes("steps", steps)
        self._check_event(event, self.log)
        if values is None:
            values = () if without or steps else range(2 if self.log[event].kind == Kind.WIRE else 256)
        changes = _futures.values(self.log, event, checked.wholes("values", values))
        changes = (changes + _futures.taken_out(self.log, event) if without else changes) + _futures.moved(self.log, event, steps)
        condition = None if until is None else self._condition("until", until)
        asked = tuple(self._question("show", text) for text in checked.texts("show", show))
        return _futures.futures(self.driver, self.session.symbols, event, changes, self._at(at), asked, condition, executor, by_sent)

    @_alone
    def shrink(self, until: str, *, at: Optional[int] = None, executor: Optional[Executor] = None) -> Shrunk:
        """The smallest log in which a condition of the shell's comes true up to here, or a position: `pc fatal`, `console 'Sorry'`,
        `word count > 3`."""
        return _shrink.shrink(self.driver, self._condition("until", until), self._at(at), executor=executor)

    @_alone
    def fuzz(self, first: int, until: str, *, at: Optional[int] = None, seed: int = 1, tries: int = 100_000,
             executor: Optional[Executor] = None) -> Fuzzed:
        """Other bytes from step `first` on until a condition of the shell's comes true up to here, or a position. What does it is
        shrunk. The seed decides what is tried."""
        first, seed, tries = checked.position("first", first), checked.whole("seed", seed), checked.whole("tries", tries, 1)
        return _fuzz.fuzz(self.driver, self._condition("until", until), first, self._at(at), seed, tries, executor)

    @_alone
    def compare(self, log: Iterable[Event]) -> Comparison:
        """What differs up to here from the past with another log: the first registers, the first byte of each line, and words."""
        return _compare.compare(self.driver, _log_of(log), self.driver.patches)

    @_alone
    def when(self, condition: str, *, at: Optional[int] = None) -> When:
        """The first position, up to here or another one, at which a word has such a value, as in `count == 3`."""
        return _when.when(self.driver, self._condition("condition", f"word {checked.text('condition', condition)}"), self._at(at))

    @_alone
    def why(self, what: str, *, control: bool = False, address: bool = False) -> Why:
        """The steps that something here comes from, back to what arrived: a register, a place of a word, or `sent LINE PLACE`, as the
        shell's `why` takes it. With `control` also those that decided that a step was run, with `address` those that addresses come from."""
        return _why_of.why(self.driver, self.session.symbols, self._question("what", what), self.position, control=control, address=address)

    def _question(self, name: str, what: str) -> Question:
        line = Words(self.session, words_of(checked.text(name, what)), "WHAT, as the shell's `causes` takes it")
        _, question = line.question(line.rest)
        line.end()
        return question

    def _condition(self, name: str, text: str) -> Condition:
        return Words(self.session, (), "CONDITION, as the shell's `shrink` takes it").condition(words_of(checked.text(name, text)))[1]

    def _at(self, position: Optional[int]) -> int:
        """The position that `at` names, or this one."""
        return self.position if position is None else checked.position("at", position)

    @_alone
    def save_log(self, name: Path, force: bool = False) -> None:
        """Writes the log to a file. A file that is no log, or that another program changed since it was read or saved here, is overwritten
        only if `force` is true."""
        save(checked.path("name", name), logs.write(self.driver.log), logs.LOG, force, "force=True", self.session.seen)


class Memory:
    """What memory holds at the position of a machine: `memory[place]` is a word, and `memory[first:end]` bytes."""

    def __init__(self, machine: Machine) -> None:
        self._machine = machine
        self.alone = machine.alone

    @overload
    def __getitem__(self, place: Place) -> int:
        ...

    @overload
    def __getitem__(self, place: slice) -> bytes:
        ...

    @_alone
    def __getitem__(self, place: Union[Place, slice]) -> Union[int, bytes]:
        if not isinstance(place, slice):
            return self.words(place, 1)[0]
        if place.start is None or place.stop is None or place.step is not None:
            raise Problem("bytes of memory are memory[first:end]")
        first, end = self._address("first", place.start), self._address("end", place.stop)
        return self.read(first, max(end - first, 0))

    def __setitem__(self, place: object, value: object) -> None:
        Results()[place] = value  # refuses it

    @_alone
    def words(self, place: Place, count: int) -> list[int]:
        """Words from a place on."""
        address = self._machine._word_at("place", place)[0]
        content = self.read(address, 4 * checked.whole("count", count, 0))
        return [int.from_bytes(content[at:at + 4], "little") for at in range(0, len(content), 4)]

    @_alone
    def read(self, place: Place, count: int) -> bytes:
        """Bytes from a place on."""
        address, session, count = self._address("place", place), self._machine.session, checked.whole("count", count, 0)
        content = memory.read(session.driver, address, count)
        if len(content) < count:
            session.physical(address + len(content))  # a Problem that says what is missing
        return content

    @_alone
    def text(self, place: Place, most: int = _LONGEST_TEXT) -> str:
        """The text from a place on, up to a byte 0, or of so many bytes."""
        address, content = self._address("place", place), bytearray()
        for virtual, size in memory.pieces(address, checked.whole("most", most, 0)):
            content += self.read(virtual, size)
            if 0 in content:
                break
        return content.partition(b"\0")[0].decode("utf-8", "backslashreplace")

    def _address(self, name: str, place: Place) -> int:
        place = checked.place(name, place)
        return place if isinstance(place, int) else self._machine.session.number(place)


def _end(driver: Driver, process: int) -> None:
    """Ends a program, which a fork of its process shares but does not end."""
    if os.getpid() == process:
        driver.close()


def _why(stop: travel.Stop, here: int) -> str:
    """Why a run ended elsewhere."""
    if stop.reason is Reason.LIMIT:
        return f"that was looked for in {counted(stop.position - here, 'step')}, up to step {stop.position:,}"
    return stop.note()
