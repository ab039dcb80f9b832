"""Commands of the shell that show sources, and calls by their lines."""
from __future__ import annotations

from itertools import islice

from . import backtrace as calls
from . import expressions
from .commands import BEFORE, HOLDS, command
from .errors import Problem
from .exceptions import NAMES
from .lines import Line
from .session import Session, counted

_LINES = 10
_FRAMES = 32


@command("list [A]", "shows the source around the position, or around A: list main, list a.c:12; again `list` goes on", HOLDS)
def list_(session: Session, words: list[str]) -> None:
    pc = session.driver.registers().pc
    address = expressions.places_of(words[0], session.driver, session.symbols)[0][0] if words else pc
    line = session.symbols.lines.at(address)
    if line is None:
        raise Problem(f"no source line of {session.address(address)} is known: compile it with -g, or give the ELF that has them by --symbols")
    first = max(line.number - _LINES // 2, 1)
    if not words and session.listed and session.listed[:2] == (session.driver.position, line):
        first = session.listed[2]
    text = session.symbols.sources.of(line)
    if not text:
        raise Problem(f"the source of {line} is not found: {line.file} is neither beside the ELF nor in a folder of --sources DIR")
    here = session.symbols.lines.at(pc)
    last = min(first + _LINES - 1, len(text))
    if first > last:
        raise Problem(f"{Line(line.file, len(text))} is the last line")
    for number in range(first, last + 1):
        mark = "=>" if here == Line(line.file, number) else "  "
        session.tell(f"{mark} {number:5}  {text[number - 1]}".rstrip())
    session.listed = (session.driver.position, session.symbols.lines.at(pc) or line, last + 1)


@command("backtrace [C]", "shows the calls that are under way, at most C of them, with the steps that made them", BEFORE)
def backtrace(session: Session, words: list[str]) -> None:
    most = session.number(words[0]) if words else _FRAMES
    if most < 1:
        raise Problem("how many are shown is 1 or more")
    with session.at(session.driver.position):
        found = list(islice(calls.frames(session.driver, session.symbols), most + 1))
    for number, frame in enumerate(found[:most]):
        taken = f", where exception {NAMES[frame.exception]} was taken" if frame.exception is not None else ""
        session.tell(f"#{number:<2} {session.code(frame.pc)}" + (f", in step {frame.position:,}{taken}" if number else ""))
    if len(found) > most:
        session.tell(f"there are more: `backtrace C` shows at most {counted(most, 'call')} where C is {most:,}")
    elif found[-1].begun:
        begun, function = found[-1].begun, session.symbols.at(found[-1].pc)
        name = function[0].name if function else f"{found[-1].pc:#010x}"
        session.tell(f"no function called {name}: an exception handler began it, by the rfe of step {begun.step:,}, {session.code(begun.pc)}")
    elif found[-1].is_last:
        session.tell(f"how {session.place(found[-1].pc)} was entered is not found")
