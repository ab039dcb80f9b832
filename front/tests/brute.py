"""Other pasts without tricks, for tests: a program that runs from reset for each log, and answers one question after another."""
from __future__ import annotations

import random
import shutil
import subprocess
import unittest
from contextlib import contextmanager
from dataclasses import replace
from functools import lru_cache
from typing import Any, Iterator, Optional, Sequence

from bezhakkom import loading
from bezhakkom import log as logs
from bezhakkom import program, replies
from bezhakkom.driver import Driver
from bezhakkom.image import Image
from bezhakkom.limits import LINES
from bezhakkom.log import Event, Kind
from bezhakkom.states import registers_at
from front.tests.support import ROOT, start

@lru_cache(None)
def image(name: str) -> Image:
    """The image of an example."""
    return loading.image(str(ROOT / "examples" / name), tell=lambda note: None)


def log_of(name: str) -> list[Event]:
    file = ROOT / "examples" / name / "log"
    return logs.read(file.read_bytes(), str(file))


@contextmanager
def fresh(guest: Image, log: Sequence[Event]) -> Iterator[Driver]:
    """A new program with a log."""
    driver = start(guest, log)
    try:
        yield driver
    finally:
        driver.close()


@lru_cache(None)
def _plain() -> str:
    """Where the plain workbench is."""
    return subprocess.run([ROOT / "bench/plain/build"], capture_output=True, text=True, check=True).stdout.strip()


def plain(test: unittest.TestCase, guest: Image, log: Sequence[Event], commands: Sequence[str]) -> list[str]:
    """What the plain workbench shows for a script: another machine, which was written apart from the program."""
    if not shutil.which("rustc"):
        test.skipTest("rustc is not on the PATH")
    content = logs.write(log) if log else b""
    words = [_plain(), *program.words(guest.kind, len(guest.content), len(content))[1:]]
    script = "".join(f"{it}\n" for it in commands).encode()
    done = subprocess.run(words, input=guest.content + content + script, capture_output=True, check=True)
    return done.stdout.decode().splitlines()


# Logs

def with_byte(log: Sequence[Event], index: int, byte: int) -> list[Event]:
    return [replace(it, byte=byte) if at == index else it for at, it in enumerate(log)]


def without(log: Sequence[Event], index: int) -> list[Event]:
    return [it for at, it in enumerate(log) if at != index]


def moved(log: Sequence[Event], index: int, step: int) -> list[Event]:
    """An event moved after all of a step."""
    rest = without(log, index)
    return [*(it for it in rest if it.time <= step), replace(log[index], time=step), *(it for it in rest if it.time > step)]


def random_log(source: random.Random, count: int, last: int) -> list[Event]:
    """Events of all kinds, of which some come in one step."""
    made = []
    for time in sorted(source.randrange(last) // 7 * 7 for _ in range(count)):
        kind = source.choice((Kind.BYTE, Kind.BYTE, Kind.BYTE, Kind.FRAMING, Kind.WIRE))
        line, byte = (source.randrange(3), source.randrange(2)) if kind == Kind.WIRE else (source.randrange(2), source.randrange(256))
        made.append(Event(time, line, byte, kind))
    return made


# Questions

def register(driver: Driver, position: int, number: int) -> int:
    driver.goto(position)
    return driver.registers().general[number]


def register_pc(driver: Driver, position: int) -> int:
    driver.goto(position)
    return driver.registers().pc


def word(driver: Driver, position: int, physical: int) -> int:
    driver.goto(position)
    return driver.words(physical, 1)[0]


def words(driver: Driver, end: int, physical: int) -> list[int]:
    """A word at each position before an end."""
    return replies.memory(driver.text(0, [f"mem {physical} 1", "step 1"] * end).decode().splitlines()[::2])


def sent(driver: Driver, position: int) -> tuple[bytes, ...]:
    driver.goto(position)
    return tuple(driver.console(line) for line in range(LINES))


def comes(driver: Driver, address: int, begin: int, end: int) -> Optional[int]:
    """The first position at which an instruction comes next: each is looked at."""
    states = registers_at(driver, range(begin, end + 1))
    return next((begin + at for at, it in enumerate(states) if it.pc == address), None)


def kept(test: unittest.TestCase, driver: Driver, before: Any) -> None:
    """Log, patches, position and journal are as they were."""
    test.assertEqual(of(driver), before)
    lines = driver.value("log 0 32")
    test.assertEqual([int(it.split()[1]) for it in lines[1:]], [it.time for it in driver.log[:32]])


def of(driver: Driver) -> Any:
    return list(driver.log), list(driver.patches), driver.position, list(driver.journal)
