"""What all fuzzers use: cases up to a time, a limit for what one may take, and a file for one that fails."""
from __future__ import annotations

import random
import tempfile
import time
import traceback
from typing import Callable, Iterator, NoReturn, Tuple

from bezhakkom.driver import Driver
from bezhakkom.printable import TAB, printable

Case = Tuple[int, random.Random]

# What is put into text: control characters, escape sequences, line ends of all kinds, marks of direction, and characters of no alphabet.
STRANGE = ("\0", "\x1b]0;x\x07", "\r", "\n", "\x0b", "\x0c", "\x85", "\u2028", "\u202e", "\ufeff", "\udcff", "é", "漢", "\U0001f600", "'", '"', "\\", "`", "-", "@")
NUMBERS = ("0", "1", "-1", "31", "255", "256", "4095", "65536", "0x80000000", "0xffffffff", "0x100000000", "1099511627775", "1099511627776",
           "18446744073709551616", "9" * 5000, "0x" + "f" * 5000, "1,000", "1,00", "08", "1e9", "1.5", "")


def cases(seconds: float, seed: int) -> Iterator[Case]:
    """Numbers of cases, from 1 on, each with what chooses it, until so many seconds are over."""
    end, number = time.monotonic() + seconds, 0
    while not number or time.monotonic() < end:
        number += 1
        yield number, random.Random(f"{seed} {number}")


def damaged(source: random.Random, content: bytes) -> bytes:
    """Bytes of which some are changed, cut out, doubled or moved."""
    made = bytearray(content)
    for _ in range(source.choice((1, 1, 2, 8))):
        at = source.randrange(len(made) + 1)
        way = source.randrange(5)
        if way == 0:
            made[at:at + 4] = source.choice((bytes(4), b"\xff" * 4, b"\0\0\0\x80", source.randbytes(4)))
        elif way == 1:
            made[at:at + 1] = source.randbytes(1)
        elif way == 2:
            del made[at:at + source.choice((1, 4, 100))]
        elif way == 3:
            made[at:at] = made[at:at + source.choice((1, 16, 400))]
        else:
            made[at:at] = source.choice(STRANGE).encode("utf-8", "surrogateescape") * source.choice((1, 1, 300))
    return bytes(made[:source.randrange(len(made) + 1)] if source.random() < 0.1 else made)


def stop_after(driver: Driver, seconds: float) -> None:
    """Interrupts the queries of a driver after a time, as Ctrl-C does."""
    end = time.monotonic() + seconds
    driver.wants_stop = lambda: time.monotonic() > end


def check_shown(text: str) -> None:
    """Fails if text that is shown is not printable."""
    assert printable(text, f"\n{TAB}") == text, f"it shows {text[:200]!r}"


def check_told(line: str) -> None:
    """Fails if a line that a front end shows, which makes it printable, has several lines or reports a fault of the front end itself."""
    assert "\n" not in line, f"it shows {line[:200]!r}"
    assert "a fault of " not in line, line


def tried(name: str, number: int, seed: int, content: Callable[[], bytes], case: Callable[[], None]) -> None:
    """Runs a case. One that fails is kept, with all that repeats it."""
    try:
        case()
    except BaseException as error:
        if isinstance(error, KeyboardInterrupt):
            raise
        _fail(f"{name}: case {number} of seed {seed}", content(), error)


def _fail(what: str, content: bytes, error: BaseException) -> NoReturn:
    with tempfile.NamedTemporaryFile(prefix="bezhakkom-fuzz-", suffix=".case", delete=False) as file:
        file.write(content)
    raise AssertionError(f"{what}, which is kept in {file.name}: {''.join(traceback.format_exception(type(error), error, error.__traceback__))[-3000:]}")
