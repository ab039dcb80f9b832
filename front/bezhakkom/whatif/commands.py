"""The commands of the shell and of gdb that ask what if, and why."""
from __future__ import annotations

import json
import os
from typing import Iterable, List, Optional

from .. import log as logs
from .. import saved
from ..commands import BEFORE, WHAT_IF, command
from ..errors import Problem
from ..log import Event, changes
from ..reading import content_of
from ..saving import FORCE_WORD, name_of, save
from ..session import Session
from . import compare as comparing
from . import futures as futures_of
from . import fuzz as fuzzing
from . import shown
from . import shrink as shrinking
from . import when as first_time
from .causes import DEL, SET
from .causes import causes as causes_of
from .futures import Changes
from .jobs import pool
from .pasts import answer, undisturbed
from .words import CONDITION, WHAT, Words

_WAYS = {"set": (SET,), "del": (DEL,), "both": (SET, DEL)}
_TRIES = 100_000
_MOST_PASTS = 1 << 20  # that one line tries
_SENT, _PLACE = "sent", "place"  # by which `try` groups

_CAUSES = "causes WHAT .. [by set|del|both] [values N] [--jobs N] [--json]"


@command("causes WHAT ..", f"shows the events that decide WHAT here: {WHAT}", WHAT_IF, more=_CAUSES)
def causes(session: Session, words: list[str]) -> None:
    line = Words(session, words, _CAUSES, "by", "values")
    by, values = line.after("by") or "both", line.number_after("values", 1)
    if by not in _WAYS:
        raise line.problem(f"`by` is followed by {', '.join(_WAYS)}")
    if not 1 <= values <= 255:
        raise Problem(f"1 to 255 other values can be tried, and not {values:,}")
    if not line.rest:
        raise line.problem(f"causes of what? That is {WHAT}")
    name, question = line.question(line.rest)
    line.end()
    with pool(line.jobs) as executor:
        found = causes_of(session.driver, question, session.driver.position, _WAYS[by], values, executor)
    _tell(session, line, shown.causes(session, name, question, _WAYS[by], values, found), shown.causes_value(session, question, found, _WAYS[by]))


_TRY = ("try I [all] [A..B] [del] [moved A..B [by K]] [show WHAT ..] [until CONDITION] [at N] [by sent|place] [--jobs N] [--json]; "
        "`by sent` leaves the function in which the program stands out of outcomes, as `show` and `until console` do without `by place`")


@command("try I ..", "shows what comes of event I with other values, without it, or at other steps: all, A..B, del, moved A..B", WHAT_IF,
         more=_TRY)
def try_(session: Session, words: list[str]) -> None:
    line = Words(session, words, _TRY, "all", "del", "moved", "by", "show", "until", "at")
    by = next((it for it in (_SENT, _PLACE) if line.has_pair("by", it)), None)
    position, asked, until = line.position(), line.following("show"), line.following("until")
    by_sent = by == _SENT if by else bool(asked) or until[:1] == ["console"]
    names = []
    while asked:
        names.append(line.question(asked))
    condition = line.condition(until)[1] if until else None
    if not line.rest or line.rest[0] in ("all", "del", "moved"):
        raise line.problem("which event? `log` lists them")
    log = session.driver.log
    index = session.number(line.rest.pop(0))
    if not 0 <= index < len(log):
        raise Problem(f"there is no event {index:,}: " + (f"they are 0 to {len(log) - 1:,}" if log else "the log is empty"))
    tried = _changes(session, line, index)
    with pool(line.jobs) as executor:
        found = futures_of.futures(session.driver, session.symbols, index, tried, position, [it for _, it in names], condition, executor,
                                   by_sent)
    _tell(session, line, shown.futures(session, index, names, position, found), shown.futures_value(index, names, position, found))


def _changes(session: Session, line: Words, index: int) -> Changes:
    """The changes of an event that the words name, or else all values."""
    log = session.driver.log
    moved, by, out = line.after("moved"), line.number_after("by", 1), line.has("del")
    steps = _range(session, line, moved, by) if moved else range(0)
    values: List[int] = []
    if line.has("all") or not (line.rest or moved or out):
        values += range(256 if log[index].kind != logs.Kind.WIRE else 2)
    while line.rest:
        values += _range(session, line, line.rest.pop(0), 1)
    made = futures_of.values(log, index, list(dict.fromkeys(values)))
    return (made + futures_of.taken_out(log, index) if out else made) + futures_of.moved(log, index, steps)


def _range(session: Session, line: Words, text: str, by: int) -> range:
    """`A..B`, or one number."""
    low, dots, high = text.partition("..")
    first = session.number(low)
    last = session.number(high) if dots else first
    if last < first or by < 1:
        raise line.problem(f"{text} has nothing in it")
    if (last - first) // by >= _MOST_PASTS:
        raise Problem(f"at most {_MOST_PASTS:,} pasts are tried together")
    return range(first, last + 1, by)


_SHRINK = f"shrink until CONDITION [at N] [as NAME] [--jobs N] [--json]; a condition is {CONDITION}"


@command("shrink until ..", f"makes the log the smallest in which a condition comes true up to here: {CONDITION}", WHAT_IF, edits=True,
         more=_SHRINK)
def shrink(session: Session, words: list[str]) -> None:
    line = Words(session, words, _SHRINK, "until", "at", "as")
    end, name, until = line.position(), line.after("as") or "before-shrink", line.following("until")
    line.end()
    if not until:
        raise line.problem("a condition is missing")
    text, condition = line.condition(until)
    with pool(line.jobs) as executor:
        found = shrinking.shrink(session.driver, condition, end, executor=executor)
    session.logs[name] = found.before
    with undisturbed(session.driver):
        session.driver.values(changes(found.before, found.log))
    _tell(session, line, shown.shrunk(found, text, name), shown.shrunk_value(found))


_COMPARE = "compare [LOG] [--json]; LOG is a file, or a log that `shrink` kept"


@command("compare [LOG] [--json]", "shows what the last edit changed up to here, or what differs with another log", WHAT_IF, more=_COMPARE)
def compare(session: Session, words: list[str]) -> None:
    line = Words(session, words, _COMPARE)
    driver = session.driver
    if line.rest:
        name = line.rest.pop(0)
        line.end()
        log, patches, other = _log(session, name), driver.patches, "there"
    elif session.edits:
        edit = session.edits[-1]
        log, patches, other = edit.log, edit.patches, "before"
    else:
        raise Problem("there is no edit to compare with; `compare LOG` compares with a log")
    found = comparing.compare(driver, log, patches)
    text = shown.comparison(session, found, other)
    _tell(session, line, text if line.is_json or other == "there" else [*text, f"`undo` goes back to before `{edit.line}`"],
          shown.comparison_value(session, found))


def _log(session: Session, name: str) -> List[Event]:
    return session.logs[name] if name in session.logs else logs.read(content_of(name_of(name)), name)


_WHEN = "when ADDRESS OP VALUE [at N] [--json]"


@command("when A ..", "shows the first step up to here after which the word at A has a value: when count == 3, when count > 8", WHAT_IF,
         more=_WHEN)
def when(session: Session, words: list[str]) -> None:
    line = Words(session, words, _WHEN, "at")
    end = line.position()
    condition = line.comparison(line.rest)
    text = " ".join(line.rest)
    found = first_time.when(session.driver, condition, end)
    _tell(session, line, shown.when(session, text, found), shown.when_value(session, found))


_WHY = "why WHAT [control] [address] [to input] [at N] [steps N] [--json]; WHAT is a register, an address of a word, or `sent L K`"
_STEPS = 40  # that are shown, where the line has no number


@command("why WHAT ..", "shows the steps that WHAT comes from here, back to what arrived: a register, an address of a word, `sent L K`",
         BEFORE, more=_WHY)
def why(session: Session, words: list[str]) -> None:
    line = Words(session, words, _WHY, "at", "steps")
    position, most = line.position(), line.number_after("steps", _STEPS)
    if most < 1:
        raise Problem("how many steps are shown is 1 or more")
    name, question, found = line.why(position)
    with session.at(position):
        value = answer(session.driver, question)
    _tell(session, line, shown.why(session, name, shown.value_of(session, question, value), found, most),
          shown.why_value(session, name, value, found))


_FUZZ = f"fuzz FROM until CONDITION [seed S] [steps N] [tries N] [save FILE [force]] [--jobs N] [--json]; a condition is {CONDITION}"


@command("fuzz FROM until ..", "tries other bytes from step FROM on until a condition comes true, and saves what does it, shrunk", WHAT_IF,
         more=_FUZZ)
def fuzz(session: Session, words: list[str]) -> None:
    line = Words(session, words, _FUZZ, "until", "seed", "steps", "tries", "save", FORCE_WORD)
    seed, tries = line.number_after("seed", 1), line.number_after("tries", _TRIES)
    file, until = name_of(line.after("save") or f"crash-{seed}.session"), line.following("until")
    steps, is_forced = line.number_after("steps", 0), line.has(FORCE_WORD)
    if not until or len(line.rest) != 1:
        raise line.problem("a position and a condition are wanted")
    begin = session.number(line.rest.pop())
    if session.origin is None:
        raise Problem("a session is saved by what has opened an image")
    end = begin + steps if steps else session.driver.position
    text, condition = line.condition(until)
    with pool(line.jobs) as executor:
        found = fuzzing.fuzz(session.driver, condition, begin, end, seed, tries, executor)
    saved_in: Optional[str] = None
    why: Optional[Problem] = None
    if found.shrunk:
        patches = [f"wb patch {address:#010x} {word:#010x}" for address, word in session.driver.patches]
        content = saved.text_of(session.origin, os.path.dirname(file), found.shrunk.log, [*patches, f"goto {found.shrunk.position:,}"], False)
        try:
            save(file, content.encode("utf-8", "surrogateescape"), saved.FORM, is_forced, f"fuzz .. save {file} {FORCE_WORD}", session.seen)
            saved_in = file
        except Problem as problem:
            why = problem
    _tell(session, line, shown.fuzzed(found, text, saved_in), shown.fuzzed_value(found, saved_in))
    if why:
        raise why  # what was found is shown before


def _tell(session: Session, line: Words, text: Iterable[str], value: shown.Value) -> None:
    """Shows what was found: as lines, or as one object of JSON."""
    if line.is_json:
        session.tell(json.dumps(value))
    else:
        for it in text:
            session.tell(it)
