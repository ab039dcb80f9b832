"""Random lines of the shell: none ends it, none that is refused edits, and the session is the same after it is saved and opened."""
from __future__ import annotations

import os
import random
import tempfile
from pathlib import Path
from typing import List

from bezhakkom import loading, saved
from bezhakkom.command_examples import EXAMPLES as WALKS
from bezhakkom.commands import COMMANDS, find, words_of
from bezhakkom.errors import Problem
from bezhakkom.loading import Opening
from bezhakkom.session import Session
from bezhakkom.shell import Shell
from bezhakkom.symbols import symbols_of
from front.fuzzing.cases import NUMBERS, STRANGE, cases, check_told, stop_after, tried

LOGIN = Path(__file__).resolve().parents[2] / "examples/login"
LONGEST = 0.1  # seconds of a line
WORDS = ("main", "login.c:44", "session+0x20", "[sp+4]", "byte[session]", "$a0", "pc", "pos", "last", "p:0x1000", "'ab\\r'", "'x'", "''", "\"a b\"", "force",
         "whole", "all", "to", "show", "until", "at", "by", "console", "sent", "exception", "sys", "framing", "--json", "==", "session+0x20 == 3", "A..B",
         "1..3", "f", "'f g'", ".", "none/f", "x" * 5000, "[[[", "]", "&main", "main+", "-", "read_line", "*main", "(int)x")
NEVER = ("quit",)


def run(seconds: float, seed: int) -> int:
    here = os.getcwd()
    with tempfile.TemporaryDirectory() as folder:
        os.chdir(folder)
        try:
            count = 0
            while count == 0 or seconds > 0:
                used, lines = _session(min(seconds, 5), f"{seed} {count}", seed, count)
                seconds, count = seconds - used, count + lines
        finally:
            os.chdir(here)
    return count


def _session(seconds: float, chosen: str, seed: int, first: int) -> "tuple[float, int]":
    """Random lines in one shell. Returns the seconds that it took and the number of lines."""
    import time
    begun, said, lines = time.monotonic(), [], []  # type: float, List[str], List[str]
    opening = Opening((str(LOGIN / "login.elf"),), str(LOGIN / "log"))
    with saved.opened(opening) as found, loading.running(found.opening) as driver:
        session = Session(driver, symbols_of(driver.image), said.append, origin=found.origin)
        shell = Shell(session)
        for number, source in cases(seconds, hash_of(chosen)):
            line = _line(source)
            lines.append(line)
            tried("shell", first + number, seed, lambda: "\n".join(lines).encode("utf-8", "surrogateescape"), lambda: _do(session, shell, line, said))
        tried("shell", first + number, seed, lambda: "\n".join(lines).encode("utf-8", "surrogateescape"), lambda: _same(session))
    return time.monotonic() - begun, number


def hash_of(text: str) -> int:
    return random.Random(text).randrange(1 << 62)


def _line(source: random.Random) -> str:
    """An example of a command or its name, and words of all kinds."""
    name = source.choice([it for it in COMMANDS if it not in NEVER])
    words = words_of(WALKS[name]) if source.random() < 0.5 else [name]
    for _ in range(source.choice((0, 1, 1, 2, 4))):
        word = source.choice(source.choice((WORDS, NUMBERS, STRANGE)))
        at = source.randrange(1, len(words) + 1)
        words[at:at + source.randrange(2)] = [word]
    return source.choice((" ", " ", "\t", "  ")).join(words)


def _do(session: Session, shell: Shell, line: str, said: List[str]) -> None:
    driver = session.driver
    before = list(driver.log), list(driver.patches)
    said.clear()
    stop_after(driver, LONGEST)
    is_done = shell.do(line.strip())
    driver.wants_stop = lambda: False
    for it in said:
        check_told(it)
    if not is_done and not any("interrupted" in it for it in said):
        assert (driver.log, driver.patches) == before, f"{line!r} was refused, and edited"


def _same(session: Session) -> None:
    driver = session.driver
    Path("session").write_bytes(session.text("", True).encode("utf-8", "surrogateescape"))
    with saved.running(Opening(("session",))) as again:
        assert (again.log, again.patches, again.position) == (driver.log, driver.patches, driver.position), "it is another one after it was saved and opened"
