"""Damaged sessions, with packed images and logs: each opens, or is refused in one line; and what opens is the same after it is saved."""
from __future__ import annotations

import base64
import hashlib
import os
import random
import tempfile
import zlib
from pathlib import Path
from typing import Callable, List

from bezhakkom import loading, log, saved
from bezhakkom.errors import Problem
from bezhakkom.loading import Opening
from bezhakkom.session import Session
from bezhakkom.shell import Shell
from bezhakkom.symbols import symbols_of
from front.fuzzing.cases import NUMBERS, STRANGE, cases, check_shown, check_told, damaged, stop_after, tried

EXAMPLES = Path(__file__).resolve().parents[2] / "examples"
ROM = (EXAMPLES / "login/login.rom").read_bytes()
LOG = (EXAMPLES / "login/log").read_bytes()
LONGEST = 0.2  # seconds of a run
LINES = ("add 5 0 7", "ferr 9 1 2", "wire 50 1 1", "del 0", "move 0 19,000", "set 1 0x41", "erase 30 40,000", "arrive 90 0 'ab\\r' 7", "goto 5,555",
         "wb patch 0x1fc00358 0x24040001", "break 0xbfc00200", "watch 0xa0001020 8", "catch exception sys", "gdb break *0x80000000 if $a0 == 1",
         "idle 7,000", "limit 9", "# type 'x'", "wb log 0 9", "wb quit", "goto 1,099,511,627,775")


def run(seconds: float, seed: int) -> int:
    with tempfile.TemporaryDirectory() as folder:
        file = Path(folder, "s")
        for number, source in cases(seconds, seed):
            content = _made(source)
            file.write_bytes(content)
            way = source.randrange(8)
            if way == 0:
                tried("sessions", number, seed, lambda: content, lambda: _refused_or_read(lambda: log.read(damaged(source, LOG), "log")))
            elif way == 1:
                file.write_bytes(content := _image(source))
                tried("sessions", number, seed, lambda: content, lambda: _opened(str(file)))
            else:
                tried("sessions", number, seed, lambda: content, lambda: _opened(str(file)))
    return number


def _image(source: random.Random) -> bytes:
    """A damaged image of this project's format: two words of RAM, and a loop in ROM."""
    image = (b"R3KIMG1\n" + (16).to_bytes(4, "little") + (1).to_bytes(4, "little") + bytes([0, 0, 0, 0, 0, 0, 1, 1, 1, 0, 0x20, 6]) + b"\2\0\0\0"
             + b"\0\1\0\0\2\0\0\0" + bytes(8) + b"\0\0\xc0\x1f\2\0\0\0" + b"\xff\xff\0\x10\0\0\0\0")
    return damaged(source, image)


def _made(source: random.Random) -> bytes:
    """The text of a session, of which lines and words are replaced, and bytes are damaged."""
    packed = base64.b64encode(zlib.compress(ROM)).decode()
    names = [source.choice(("x", "a/x", "..", "-x", " x ", "x@5", *STRANGE)) for _ in range(2)]
    digest = hashlib.sha256(ROM).hexdigest()
    head = [f"image {names[0]}", "option --kind rom", *(f"sha256 {digest} {name}" for name in names), "log 20000 0 'x\\b\\bsesame\\r' 10000"]
    head += source.sample(["option --unit 3", "option --sources .", f"option --symbols {names[1]}", "log 5 1 1 wire", "escaped names", "# note"], 2)
    lines = [source.choice(LINES) for _ in range(source.randrange(9))]
    if source.random() < 0.5:
        lines = [" ".join(source.choice((*NUMBERS, *STRANGE)) if source.random() < 0.1 else word for word in line.split(" ")) for line in lines]
    text = "\n".join(["bezhakkom session 1", *head, "", *lines, "contents", *(it for name in names for it in (f"file {name}", packed)), ""])
    content = text.encode("utf-8", "surrogateescape")
    return b"bezhakkom session " + damaged(source, content)[18:] if source.random() < 0.7 else content


def _refused_or_read(read: Callable[[], object]) -> None:
    try:
        read()
    except Problem as problem:
        check_shown(str(problem))


def _opened(name: str) -> None:
    said: List[str] = []
    try:
        _same_after_it_is_saved(name, said.append)
    except Problem as problem:
        said += str(problem).split("\n")
    for it in said:
        check_told(it)


def _same_after_it_is_saved(name: str, tell: Callable[[str], None]) -> None:
    with saved.opened(Opening((name,)), tell) as found:
        driver = loading.start(loading.booted(found.opening, tell), found.opening.log)
        try:
            session = Session(driver, symbols_of(driver.image), tell, origin=found.origin)
            stop_after(driver, LONGEST)
            Shell(session).open(found.commands)
            driver.wants_stop = lambda: False
            before = list(driver.log), list(driver.patches), driver.position
            text = session.text(os.path.dirname(name), True)
        finally:
            driver.close()
    Path(name).write_bytes(text.encode("utf-8", "surrogateescape"))
    with saved.running(Opening((name,))) as again:
        assert (again.log, again.patches, again.position) == before, "it is another one after it was saved and opened"
