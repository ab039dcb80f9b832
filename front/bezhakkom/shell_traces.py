"""Commands of the shell that follow the run step by step, and list what it did before."""
from __future__ import annotations

import json
from typing import Any, Dict, Iterator, List, Optional, Tuple, Union

from . import expressions
from .commands import BEFORE, STEPS, command
from .conditions import Conditions, all_hits, last_hit
from .driver import Driver
from .errors import STOPPED, Problem
from .exceptions import NAMES, TEXTS, Catch
from .jumping import Jumps
from .jumps import Jump
from .jumps import value_of as value_of_jump
from .limits import GREATEST_POSITION, RAM, ROM, TRACED
from .saving import FORCE_WORD, Form, is_forced, name_of, save
from .session import Session, counted
from .step_lines import StepLines
from .tracing import Traced, read, value_of

# How many are shown where the line has no number.
_STEPS = 8
_JUMPS = 16
_IO_STEPS = 1000
_STORES = 16

_JSON, _ALL = "--json", "all"
_BEGIN, _BEGIN_JUMPS = "# what steps ", "# jumps from step "
_FORM = Form("trace", (_BEGIN.encode(), _BEGIN_JUMPS.encode()))


_TRACE = "trace [C] [--json], or trace [C] to FILE"
_JUMP_LINE = "jumps [N] [all] [--json], or jumps [N] [all] to FILE"


@command("trace [C] [to] [FILE] [..]", "shows what the next C steps do, or writes it: trace 100000 to FILE", STEPS,
         more=f"{_TRACE}; with --json each step is an object on its line")
def trace(session: Session, words: list[str]) -> None:
    is_json, numbers, to = _listing(words, _TRACE)
    count, first = _count(session, numbers, _STEPS), session.driver.position
    steps, lines = _next(session, count), StepLines(session)
    shown = (json.dumps({**value_of(it), **_named(session, it.pc)}) if is_json else lines.of(it) for it in steps)
    _show(session, shown, to, f"{_BEGIN}{first:,} to {first + count - 1:,} do", f"trace {count}")


@command("jumps [N] [all] [to] [FILE] [..]", f"shows the next N steps, or {_JUMPS}, that call, return or take exceptions; `all` has taken branches too",
         STEPS, more=f"{_JUMP_LINE}; with --json each step is an object on its line")
def jumps(session: Session, words: list[str]) -> None:
    is_json, numbers, to = _listing([it for it in words if it != _ALL], _JUMP_LINE)
    local, count, first = _ALL in words, _count(session, numbers, _JUMPS), session.driver.position
    found, lines = Jumps(session.driver, first, local, GREATEST_POSITION, count, session.idle), StepLines(session)
    shown = (_jump_value(session, it) if is_json else lines.of_jump(it) for it in _jumps(session.driver, found))
    if _show(session, shown, to, f"{_BEGIN_JUMPS}{first:,} on", f"jumps {count}{' all' if local else ''}") < count and not is_json:
        session.tell(f"there are no more: {found.ended or f'a position is 0 to {GREATEST_POSITION:,}'}")


def _jumps(driver: Driver, found: Jumps) -> Iterator[Jump]:
    with driver.long_run(driver.position):
        while not found.is_over:
            yield from found.more()


def _jump_value(session: Session, it: Jump) -> str:
    target = {f"to_{name}": value for name, value in _named(session, it.to).items()}
    return json.dumps({**value_of_jump(it), **_named(session, it.pc), **target})


def _listing(words: list[str], usage: str) -> Tuple[bool, List[str], Optional[List[str]]]:
    """Whether a list is shown as JSON, the words with its number, and those after `to`, if it goes to a file."""
    is_json, words = _JSON in words, [it for it in words if it != _JSON]
    numbers, to = (words[:words.index("to")], words[words.index("to") + 1:]) if "to" in words else (words, None)
    if len(numbers) > 1 or to == [] or is_json and to is not None:
        raise Problem(f"usage: {usage}")
    return is_json, numbers, to


def _show(session: Session, lines: Iterator[str], to: Optional[List[str]], heading: str, line: str) -> int:
    """Shows the lines of steps, or writes them to a file, below a heading, and gives how many there are. `line` is that of the command."""
    count = 0
    if to is None:
        for count, shown in enumerate(lines, 1):
            session.tell(shown)
        return count
    name, forced, written = name_of(to[0]), is_forced(to[1:]), list(lines)
    save(name, "\n".join([heading, *written, ""]).encode(), _FORM, forced, f"{line} to {to[0]} {FORCE_WORD}", session.seen)
    session.tell(f"{name} has {counted(len(written), 'step')}")
    return len(written)


@command("io [C]", f"shows which of the next C steps, or {_IO_STEPS:,}, load from devices or store into them", STEPS)
def io(session: Session, words: list[str]) -> None:
    count, lines, found = _count(session, words, _IO_STEPS), StepLines(session), False
    for step in _next(session, count):
        if step.access and step.access.mark != "isolated" and step.access.address not in RAM and step.access.address not in ROM:
            session.tell(lines.of(step))
            found = True
    if not found:
        session.tell(f"none of the next {counted(count, 'step')} does")


@command("stores A [C] [--json]", f"lists the last C stores, or {_STORES}, into the word at virtual address A before the position", BEFORE)
def stores(session: Session, words: list[str]) -> None:
    is_json, words = _JSON in words, [it for it in words if it != _JSON]
    if not 1 <= len(words) <= 2:
        raise Problem("usage: stores A [C] [--json]")
    address, physical = session.word_at(words[0])
    if is_json:
        made = session.driver.stores(physical, _count(session, words[1:], _STORES))
        session.tell(json.dumps([{"step": step, "word": word, **_stood(session, step)} for step, word in made]))
        return
    found = False
    for step, word in session.driver.stores(physical, _count(session, words[1:], _STORES)):
        session.tell(f"{word:#010x} by {session.step(step)}")
        found = True
    if not found:
        session.tell(f"no step before this position stored at {session.address(address)}")


_MOST_LISTED = 1_000  # of hits, where no number is given
_HITS = "hits A [last C] [--json], where A is an address, the number of a breakpoint or a catch, or `exception [KIND]`"


@command("hits A ..", "lists all positions up to here at which breakpoint A stops: its number, an address, or `exception [KIND]`", BEFORE, more=_HITS)
def hits(session: Session, words: list[str]) -> None:
    most = None
    is_json, words = _JSON in words, [it for it in words if it != _JSON]
    if words[-2:-1] == ["last"]:
        most = _count(session, words[-1:], 0)
        words = words[:-2]
    if not words or len(words) > 1 and words[0] != "exception" or len(words) > 2:
        raise Problem(f"usage: {_HITS}")
    stop = Catch(*words[1:]) if words[0] == "exception" else _stop(session, words[0])
    conditions = {it: [condition] for it, condition in stop.conditions().items()} if isinstance(stop, Catch) else {}
    places = list(conditions) if isinstance(stop, Catch) else stop
    name = stop.text if isinstance(stop, Catch) else f"visits of {' and '.join(map(session.code, stop))}"
    driver, found, is_ended = session.driver, [], False
    try:
        for position in _hits(driver, places, conditions, most):
            found.append(position)
    except STOPPED:
        is_ended = True
    found.sort()
    if is_json:
        listed_as = [_exception_value(session, it) for it in _taken(session, found)] if isinstance(stop, Catch) else [{"step": it} for it in found]
        session.tell(json.dumps({"position": driver.position, "hits": listed_as, "stopped": is_ended}))
        return
    session.tell(f"{name}, up to step {driver.position:,}: {len(found):,}" + (", and Ctrl-C came before all were found" if is_ended else ""))
    listed = found if most is not None else found[:_MOST_LISTED]
    for line in _exceptions(session, listed) if isinstance(stop, Catch) else (f"step {it:,}" for it in listed):
        session.tell(f"  {line}")
    if len(listed) < len(found):
        session.tell(f"  and {len(found) - len(listed):,} later ones: `hits {' '.join(words)} last C` lists as many as C says")


def _hits(driver: Driver, places: list[int], conditions: Conditions, most: Optional[int]) -> Iterator[int]:
    """The positions up to this one where a breakpoint stops, or the last ones of so many."""
    here = driver.position
    if most is None:
        yield from all_hits(driver, places, conditions, 0, here)
        return
    try:
        driver.goto(min(here + 1, GREATEST_POSITION))
        for _ in range(most):
            found = last_hit(driver, places, conditions, 0)
            if found is None:
                return
            yield found
            driver.goto(found)
    finally:
        driver.goto(here)


def _stop(session: Session, text: str) -> Union[List[int], Catch]:
    """The addresses of a breakpoint, or a catch."""
    mark = next((it for it in session.marks if str(it.number) == text), None)
    if mark and mark.watch:
        raise Problem(f"{mark.number} is a watch; `stores` lists the stores into a word")
    if mark:
        return mark.catch or [mark.address]
    addresses, _ = expressions.places_of(text, session.driver, session.symbols)
    if any(address % 4 or not 0 <= address < 1 << 32 for address in addresses):
        raise Problem(f"{text} is no stop, and no address of an instruction: these are multiples of 4, below 0x100000000")
    return addresses


def _exceptions(session: Session, positions: list[int]) -> Iterator[str]:
    """The exceptions that were taken right before some positions, as text."""
    for step, code in _taken(session, positions):
        yield f"step {step.step:,}, {session.code(step.pc)}: {NAMES[code]}, {TEXTS[code]}"


def _taken(session: Session, positions: list[int]) -> Iterator[Tuple[Traced, int]]:
    """The steps right before some positions, each with the code of the exception that it took."""
    for first in range(0, len(positions), TRACED):
        steps = [it - 1 for it in positions[first:first + TRACED]]
        with session.at(session.driver.position):
            answers = session.driver.values([line for it in steps for line in (f"goto {it}", "trace 1")])[1::2]
        for step in map(read, (lines[0] for lines in answers)):
            assert step.exception is not None
            yield step, step.exception


def _exception_value(session: Session, taken: Tuple[Traced, int]) -> Dict[str, Any]:
    step, code = taken
    return {"step": step.step, "pc": step.pc, **_named(session, step.pc), "exception": NAMES[code]}


def _stood(session: Session, step: int) -> Dict[str, Any]:
    """The PC of a step, with its name."""
    with session.at(step):
        pc = session.driver.registers().pc
    return {"pc": pc, **_named(session, pc)}


def _named(session: Session, pc: int) -> Dict[str, Any]:
    """The name of an address of code and its source line, as far as they are known."""
    return {"place": session.symbols.name(pc) or None, "source": session.symbols.line(pc) or None}


def _count(session: Session, words: list[str], usual: int) -> int:
    count = session.number(words[0]) if words else usual
    if count < 1:
        raise Problem("how many are shown is 1 or more")
    return count


def _next(session: Session, count: int) -> Iterator[Traced]:
    """What the next steps do."""
    here = session.driver.position
    if here + count > GREATEST_POSITION:
        raise Problem(f"a position is 0 to {GREATEST_POSITION:,}")
    return session.driver.traced(here, here + count)
