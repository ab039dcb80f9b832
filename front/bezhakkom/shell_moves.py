"""Commands of the shell that move along the run."""
from __future__ import annotations

from typing import Callable

from . import expressions, memory, travel
from .commands import MOVES, STOPS, command
from .driver import Driver
from .errors import Problem
from .exceptions import NAMES, TEXTS, Catch
from .limits import GREATEST_POSITION
from .log import quoted
from .search import next_visit
from .session import Mark, Session, counted
from .travel import Reason, Stop, Stops, Watch


@command("pos", "shows the position", MOVES)
def pos(session: Session, words: list[str]) -> None:
    session.show_position()


@command("goto N", "goes to position N", MOVES)
def goto(session: Session, words: list[str]) -> None:
    session.driver.goto(_position(session, words[0]))
    session.show_position()


def _position(session: Session, text: str) -> int:
    """The number of a step, which the name of a place is not."""
    found = expressions.read(text, session.driver, session.symbols)
    if found.is_named:
        raise Problem(f"{text} is a place, and a position is a number of steps: `visit {text}` goes on to where its instruction comes next")
    return found.value(session.driver)


@command("step [N]", "goes N steps on, or one", MOVES)
def step(session: Session, words: list[str]) -> None:
    _move(session, session.number(words[0]) if words else 1)


@command("back [N]", "goes N steps back, or one", MOVES)
def back(session: Session, words: list[str]) -> None:
    _move(session, -session.number(words[0]) if words else -1)


def _move(session: Session, steps: int) -> None:
    session.driver.goto(session.driver.position + steps)
    session.show_position()


@command("visit A [K]", "goes on to the next instruction at address A, at most K steps on", MOVES)
def visit(session: Session, words: list[str]) -> None:
    driver = session.driver
    addresses, _ = expressions.places_of(words[0], driver, session.symbols)
    nowhere = f"the run does not come to {' or '.join(map(session.address, addresses))}"
    if len(words) > 1:
        limit = session.number(words[1])
        found = next_visit(driver, addresses, limit)
        if found is None:
            raise Problem(f"{nowhere} in the next {counted(limit, 'step')}")
    else:
        here = driver.position
        stop = _travel(session, travel.forward, Stops(set(addresses), idle=session.idle))
        if stop.reason is Reason.IDLE:
            raise Problem(f"{nowhere} up to step {stop.position:,}; {_idle(stop, 'visit')}")
        if stop.reason is not Reason.BREAKPOINT:
            driver.goto(here)
            raise Problem(f"{nowhere}: {stop.note()}")
        found = stop.position
    driver.goto(found)
    session.show_position()


# Stops

@command("break A", "stops where the instruction at address A comes next: break main, break a.c:12, break a.c:helper", STOPS)
def break_(session: Session, words: list[str]) -> None:
    session.break_at(words[0])


@command("watch A [SIZE]", "stops where one of the SIZE bytes at address A changes; of a symbol all its bytes, or else 4", STOPS)
def watch(session: Session, words: list[str]) -> None:
    session.watch_at(words[0], session.number(words[1]) if len(words) > 1 else None)


@command("catch exception [KIND]", f"stops where an exception was taken, of a kind or of any: {', '.join(NAMES)}", STOPS)
def catch(session: Session, words: list[str]) -> None:
    if words[0] != "exception":
        raise Problem("the shell catches exceptions alone: catch exception [KIND]")
    found = Catch(*words[1:])
    session.put(Mark(0, found.text, catch=found))


_FEW = 4  # this many bytes are shown as a number


@command("stops", "lists breakpoints, watches and catches", STOPS)
def stops(session: Session, words: list[str]) -> None:
    for mark in session.marks:
        session.tell(f"{mark.number}: {mark.text}")
    for line in session.stops_of_gdb:
        session.tell(f"kept for gdb: {line}")
    if not session.marks and not session.stops_of_gdb:
        session.tell("there are none; `break A`, `watch A` and `catch exception` make one")


@command("delete [N]", "takes breakpoint, watch or catch N away, or all", STOPS)
def delete(session: Session, words: list[str]) -> None:
    number = session.number(words[0]) if words else None
    if number is not None and all(it.number != number for it in session.marks):
        raise Problem(f"there is no stop {number}; `stops` lists them")
    session.marks = [it for it in session.marks if number is not None and it.number != number]
    if number is None:
        session.stops_of_gdb.clear()


@command("continue [N]", "goes on to the next breakpoint or watch, at most N steps", STOPS)
def continue_(session: Session, words: list[str]) -> None:
    here = session.driver.position
    _go_on(session, min(here + session.number(words[0]), GREATEST_POSITION) if words else GREATEST_POSITION)


@command("until N", "goes on to position N, or the next breakpoint or watch: until 40,000, until last+1,000", STOPS)
def until(session: Session, words: list[str]) -> None:
    _go_on(session, _position(session, words[0]))


def _go_on(session: Session, end: int) -> None:
    here = session.driver.position
    if not here < end <= GREATEST_POSITION:
        raise Problem(f"position {end:,} is not ahead: this is {here:,}, and the greatest one is {GREATEST_POSITION:,}")
    _show_stop(session, _travel(session, travel.forward, _stops(session, end)), after=1)


@command("idle [N]", "pauses long runs after N steps in which nothing is sent or to come, or shows N; 0 for never", MOVES)
def idle(session: Session, words: list[str]) -> None:
    if words:
        session.idle = session.number(words[0])
    if session.idle:
        session.tell(f"long runs pause after {counted(session.idle, 'step')} in which nothing is sent and no event is to come")
    else:
        session.tell("long runs don't pause")


@command("reverse-continue", "goes back to the last breakpoint or watch", STOPS)
def reverse_continue(session: Session, words: list[str]) -> None:
    _show_stop(session, _travel(session, travel.backward, _stops(session)), after=0)


def _stops(session: Session, end: int = GREATEST_POSITION) -> Stops:
    plain = {it.address for it in session.marks if _is_breakpoint(it)}
    conditions: dict[int, list[bytes]] = {}
    for mark in session.marks:
        for handler, condition in mark.catch.conditions().items() if mark.catch else ():
            if handler not in plain:
                conditions.setdefault(handler, []).append(condition)
    return Stops(plain | set(conditions), {it.watch for it in session.marks if it.watch}, conditions, end, session.idle)


def _is_breakpoint(mark: Mark) -> bool:
    return not mark.watch and not mark.catch


def _travel(session: Session, go: Callable[[Driver, Stops, travel.Pause], Stop], stops: Stops) -> Stop:
    """Where the run stops. The position is there, or where the run was made when it was interrupted."""
    driver = session.driver
    reached = driver.position

    def pause() -> bool:
        nonlocal reached
        reached = driver.position
        return False

    try:
        with driver.long_run():
            stop = go(driver, stops, pause)
        reached = stop.position
        return stop
    finally:
        driver.goto(reached)


def _show_stop(session: Session, stop: Stop, after: int) -> None:
    """Shows a stop. A watch stops after its step where the run went on, and before it where it went back."""
    if stop.watch:
        session.driver.goto(stop.position + after)
        _show_change(session, stop.watch, stop.position)
    elif stop.reason is Reason.BREAKPOINT:
        pc = session.driver.registers().pc
        mark = next((it for it in session.marks if _is_breakpoint(it) and it.address == pc), None)
        if mark:
            session.tell(f"{mark.number}: {mark.text}")
        else:
            _show_exception(session, stop.position - 1)
    else:
        session.tell(_idle(stop, "continue") if stop.reason is Reason.IDLE else stop.note())
    session.show_position()


def _show_exception(session: Session, step: int) -> None:
    """The exception that a step took, for which the run stopped."""
    taken, = session.driver.traced(step, step + 1)
    assert taken.exception is not None
    wanted = ("", NAMES[taken.exception])
    mark = next(it for it in session.marks if it.catch and it.catch.name in wanted)
    session.tell(f"{mark.number}: exception {NAMES[taken.exception]}, {TEXTS[taken.exception]}, in step {step:,}, {session.code(taken.pc)}")


def _idle(stop: Stop, command: str) -> str:
    """Why a run pauses that does nothing, and how it goes on."""
    return f"{stop.note()}. `{command}` goes on, and `idle N` changes that number, 0 for never"


def _show_change(session: Session, watched: Watch, step: int) -> None:
    """The bytes of a watch that a step changed: all of a few, or else from the first to the last of them."""
    mark = next(it for it in session.marks if it.watch == watched)
    before, after = (_bytes_at(session, watched, at) for at in (step, step + 1))
    differ = [place for place in range(watched.size) if before[place] != after[place]]
    part = slice(differ[0], differ[-1] + 1) if watched.size > _FEW else slice(0, watched.size)
    where = session.address(watched.address + part.start)
    session.tell(f"{mark.number}: {where}: {_shown(before[part])} became {_shown(after[part])}")
    session.tell(f"   in {session.step(step)}")


def _bytes_at(session: Session, watched: Watch, position: int) -> bytes:
    with session.at(position):
        return memory.at(session.driver, watched.place, watched.size)


def _shown(content: bytes) -> str:
    """A few bytes as a number, with its character if it is one, or more of them as text."""
    if len(content) > _FEW:
        return quoted(content)
    number = int.from_bytes(content, "little")
    return f"{number:#0{2 + 2 * len(content)}x}" + (f" {quoted(content)}" if len(content) == 1 and 32 <= number < 127 else "")
