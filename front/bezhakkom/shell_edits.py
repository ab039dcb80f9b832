"""Commands of the shell that edit the past, and save what was edited."""
from __future__ import annotations

import os
import re

from . import log as logs
from . import reloading, saved
from .arriving import check_line, type_in
from .commands import CHECKS, FILES, PAST, SERIAL, SHELL, command
from .errors import Problem
from .expecting import not_sent, until_sent
from .expressions import closed, condition
from .image_command import file_for
from .installed import NAME
from .limits import GREATEST_POSITION
from .log import Kind, unquoted
from .replies import refusal_of
from .reading import MOST_BYTES
from .saving import FORCE_WORD, as_argument, is_forced, name_of, save
from .session import Paused, Session, counted

_TEXT = re.compile(r"""'(?:[^'\\]|\\.)+'|"(?:[^"\\]|\\.)+\"""")

# What an `expect` that pauses is told.
_GOES_ON = ". The same line goes on, and `idle N` changes that number, 0 for never"


@command("add T L B", "lets byte B arrive at line L in step T", PAST, edits=True)
def add(session: Session, words: list[str]) -> None:
    time, line, byte = map(session.number, words)
    session.tell(f"event {session.driver.add(time, line, byte)}")


@command("ferr T L B", "lets byte B arrive at line L in step T with a framing error", PAST, edits=True)
def ferr(session: Session, words: list[str]) -> None:
    time, line, byte = map(session.number, words)
    session.tell(f"event {session.driver.add(time, line, byte, Kind.FRAMING)}")


@command("arrive T L 'TEXT' [GAP] [framing]", "lets TEXT arrive at line L from step T on, GAP steps apart or all at once", PAST,
         edits=True)
def arrive(session: Session, words: list[str]) -> None:
    numbers = [str(session.number(it)) for it in (*words[:2], *(it for it in words[3:] if it != "framing"))]
    text = " ".join([*numbers[:2], words[2], *numbers[2:], *(it for it in words[3:] if it == "framing")])
    events = logs.make([text], "arrive")
    session.driver.values([it.command for it in events])
    until = f" from step {events[0].time:,} to step {events[-1].time:,}" if events else ""
    session.tell(f"{counted(len(events), 'byte')}{until}")


@command("wire T K V", "gives external line K the level V in step T", PAST, edits=True)
def wire(session: Session, words: list[str]) -> None:
    time, line, level = map(session.number, words)
    session.tell(f"event {session.driver.add(time, line, level, Kind.WIRE)}")


@command("del I", "takes event I out of the log", PAST, edits=True)
def del_(session: Session, words: list[str]) -> None:
    session.driver.delete(session.number(words[0]))
    session.tell(f"{counted(len(session.driver.log), 'event')} left")


@command("erase F T", "takes all events from step F on and before step T out of the log", PAST, edits=True)
def erase(session: Session, words: list[str]) -> None:
    session.driver.erase(*map(session.number, words))
    session.tell(f"{counted(len(session.driver.log), 'event')} left")


@command("set I B", "changes the byte or the level of event I to B", PAST, edits=True)
def set_(session: Session, words: list[str]) -> None:
    session.tell(f"event {session.driver.set_byte(*map(session.number, words))}")


@command("move I T", "moves event I to step T", PAST, edits=True)
def move(session: Session, words: list[str]) -> None:
    session.tell(f"event {session.driver.move(*map(session.number, words))}")


@command("patch A W", "starts the machine with word W at virtual address A", PAST, edits=True)
def patch(session: Session, words: list[str]) -> None:
    address = session.patch(words[0], session.number(words[1]))
    session.tell(f"the image sets {session.address(address)}; what steps before this position stored stands over it")


@command("undo", "takes the last edit back", PAST)
def undo(session: Session, words: list[str]) -> None:
    session.undo()


@command("type [L] 'TEXT' [GAP]", "lets TEXT arrive at line L, or 0, from this position on, GAP steps apart", SERIAL, edits=True)
def type_(session: Session, words: list[str]) -> None:
    line, content, rest = _line_and_text(session, words, "type [L] 'TEXT' [GAP]")
    steps = type_in(session.driver, session.typed, line, content, rest)
    session.tell(f"{counted(len(content), 'byte')} for line {line}, from step {steps[0]:,} to step {steps[-1]:,}, "
                 f"{steps.step:,} steps apart")


@command("expect [L] 'TEXT' [K]", "goes on until line L, or 0, sent TEXT from here on, at most K steps", SERIAL)
def expect(session: Session, words: list[str]) -> None:
    line, text, limit = _line_and_text(session, words, "expect [L] 'TEXT' [K]")
    driver, here = session.driver, session.driver.position
    limit = limit or session.limit
    end = min(here + limit, GREATEST_POSITION) if limit else GREATEST_POSITION
    paused = session.paused
    # What goes on where it paused looks at all that was sent since it began.
    first = paused.first if paused and (paused.line, paused.text, paused.position) == (line, text, here) else driver.sent(line)
    session.paused = None
    try:
        with driver.long_run(here, end if limit else None):
            silence = until_sent(driver, line, first, text, end, session.idle)
    except BaseException:
        driver.goto(here)
        raise
    if silence:
        if silence.pauses:
            session.paused = Paused(line, text, first, driver.position)
        else:
            driver.goto(here)
        raise Problem(silence.sentence(line, text, _GOES_ON if silence.is_idle else ""))
    session.show_position()


@command("limit [N]", "lets `expect` go on at most N steps where it has no K, or shows N; 0 for no limit", SERIAL)
def limit_(session: Session, words: list[str]) -> None:
    if words:
        session.limit = session.number(words[0])
    session.tell(f"`expect` goes on at most {counted(session.limit, 'step')}" if session.limit else "`expect` has no limit")


@command("assert CONDITION ..", "fails where a condition does not hold: assert v0 == 5, assert [length] < 32, assert pc == main",
         CHECKS)
def assert_(session: Session, words: list[str]) -> None:
    text = " ".join(words)
    why = condition(closed(words)).check(session.driver, session.symbols)
    if why:
        raise Problem(f"it does not hold that {text}: {why}")
    session.tell("that holds")


@command("assert-console [L] 'TEXT'", "fails where line L, or 0, did not send TEXT before this position", CHECKS)
def assert_console(session: Session, words: list[str]) -> None:
    line, text, _ = _line_and_text(session, words, "assert-console [L] 'TEXT'")
    sent = session.driver.console(line)
    if text not in sent:
        raise Problem(not_sent(line, text, " before this position", sent))
    session.tell("that was sent")


def _line_and_text(session: Session, words: list[str], usage: str) -> tuple[int, bytes, int]:
    """The line, the text, and the number after it, or 0."""
    _refuse_text_without_quotes(words, usage)
    line = session.number(words.pop(0)) if words[0][0] not in "'\"" else 0
    if not words or not _TEXT.fullmatch(words[0]):
        raise Problem(f"usage: {usage}; put the text in quotes: 'help\\r'")
    check_line(line)
    return line, unquoted(words[0][1:-1]), session.number(words[1]) if len(words) > 1 else 0


def _refuse_text_without_quotes(words: list[str], usage: str) -> None:
    """Refuses a text that is not quoted, and shows the quoted form."""
    first = int(len(words) > 1 and words[0].isdigit())  # after the number of a line
    if not any(it[0] in "'\"" for it in words) and not words[first].isdigit():
        begin = " ".join([usage.split()[0], *words[:first]])
        raise Problem(f'put the text in quotes: {begin} "{" ".join(words[first:])}"')


# Files

@command("save-log FILE [force]", "saves the log, with all edits; `force` overwrites a file that is no log or was changed", FILES)
def save_log(session: Session, words: list[str]) -> None:
    save(name_of(words[0]), logs.write(session.driver.log), logs.LOG, is_forced(words[1:]), f"save-log {words[0]} force", session.seen)
    session.saved_log = list(session.driver.log)
    session.tell(f"{counted(len(session.driver.log), 'event')} saved in {words[0]}")


@command("save-image FILE [force]", "saves the image, with all patches: a name that ends in .img, or a raw ROM", FILES)
def save_image(session: Session, words: list[str]) -> None:
    name = name_of(words[0])
    form, content = file_for(name, session.driver.boot())
    save(name, content, form, is_forced(words[1:]), f"save-image {words[0]} force", session.seen)
    session.saved_patches = list(session.driver.patches)
    session.tell(f"{counted(len(content), 'byte')} saved in {words[0]}")


@command("load [FILE]", "starts the machine with an ELF, or with the present one built anew; the log stays", FILES, edits=True)
def load(session: Session, words: list[str]) -> None:
    name = name_of(words[0]) if words else session.driver.image.name
    session.tell(f"{counted(reloading.load(session, name), 'word')} of the image changed by {name}")
    session.saved_patches = list(session.driver.patches)


@command("save FILE [whole] [force]", "saves the session: image, log, edits, stops and position; `whole` packs the image in",
         FILES)
def save_(session: Session, words: list[str]) -> None:
    word, *rest = words
    name = name_of(word)
    is_whole = "whole" in rest[:1]
    content = session.text(os.path.dirname(name), is_whole).encode("utf-8", "surrogateescape")
    if len(content) > MOST_BYTES:
        raise Problem(f"a session of {len(content):,} bytes could not be opened: it has at most {MOST_BYTES:,}"
                      + (". Without `whole` it names its files" if is_whole else ""))
    how = " ".join(["save", word, *rest[:is_whole], FORCE_WORD])
    save(name, content, saved.FORM, is_forced(rest[is_whole:]), how, session.seen)
    session.saved_log, session.saved_patches = list(session.driver.log), list(session.driver.patches)
    session.tell(f"the session is saved in {name}; `{NAME} shell {as_argument(name)}` opens it")


@command("gdb [STOP] ..", "keeps a stop of gdb's for a session that gdb opens, or shows those that are kept; `gdb none` drops them", FILES)
def gdb(session: Session, words: list[str]) -> None:
    if words == ["none"]:
        session.stops_of_gdb.clear()
    elif words:
        session.stops_of_gdb.append(re.sub(r"[\r\n]", " ", " ".join(words)))  # one line of a session
    else:
        for it in session.stops_of_gdb:
            session.tell(it)


@command("unsaved", "shows what was edited and is not saved", FILES)
def unsaved(session: Session, words: list[str]) -> None:
    for it in session.unsaved():
        session.tell(f"not saved: {it}")


@command("wb LINE ..", "gives a line to the workbench as it is, with physical addresses, and shows its reply", SHELL, edits=True)
def wb(session: Session, words: list[str]) -> None:
    line = " ".join(words)
    lines = session.driver.ask(line)
    if refusal_of(line, lines):
        raise Problem(lines[0])
    for it in lines:
        session.tell(it)
