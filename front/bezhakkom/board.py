"""The constants of the board, as an argument line gives them: the unit of the clock, the time of a byte, and how the clock starts."""
from __future__ import annotations

import re
from dataclasses import dataclass, replace
from typing import Optional

from .arguments import Parser
from .initial import CLOCK, Boot, boot_of
from .errors import Problem
from .image import Image
from .limits import ROM

_CONSTANTS = range(1, 65_536)  # of the unit, and of the time of a byte
_REGISTERS = range(256)
_BYTE_TIME, _UNIT, _CLOCK, _END = 8, 12, 16, 28  # where they stand in an image


@dataclass(frozen=True)
class Constants:
    """The constants that an argument line gives. The others are those of the image."""

    byte_time: Optional[int] = None
    unit: Optional[int] = None
    clock: Optional[bytes] = None

    def put_on(self, image: Image) -> Image:
        """An image with these constants. One that the program refuses stays as it is."""
        if self == Constants():
            return image
        if image.kind == "source":
            raise Problem(f"{image.name} is source, which says by .bytetime, .unit and .clock what --unit, --byte-time, --clock would say")
        if image.kind == "rom":
            if len(image.content) > len(ROM):
                return image
            image = replace(image, kind="image", content=boot_of(image, lambda places: []).write())
        content = image.content
        if len(content) < _END:
            return image
        parts = (
            content[:_BYTE_TIME],
            content[_BYTE_TIME:_UNIT] if self.byte_time is None else self.byte_time.to_bytes(4, "little"),
            content[_UNIT:_CLOCK] if self.unit is None else self.unit.to_bytes(4, "little"),
            content[_CLOCK:_END] if self.clock is None else self.clock,
            content[_END:])
        return replace(image, content=b"".join(parts))


def add_options(parser: Parser) -> None:
    """Puts the options for the constants into a parser. Their values stay texts, since a session has them as they were typed."""
    parser.add_argument("--unit", metavar="N", help="a second of the clock is 8192 * N steps; without it N is 1, or what the image says")
    parser.add_argument("--byte-time", metavar="N", help="a byte takes N ticks to be sent; without it 16, or what the image says")
    parser.add_argument("--clock", metavar="TIME",
                        help="the clock starts at 'YY-MM-DD HH:MM:SS', or with the 12 numbers of its registers 0 to 11")


def constants_of(unit: Optional[str], byte_time: Optional[str], clock: Optional[str]) -> Constants:
    """The constants that options give."""
    return Constants(_constant("--byte-time", byte_time), _constant("--unit", unit), None if clock is None else clock_of(clock))


def _constant(name: str, text: Optional[str]) -> Optional[int]:
    if text is None:
        return None
    try:
        number = int(text.replace(",", ""), 0)
    except ValueError:
        number = 0
    if number not in _CONSTANTS:
        raise Problem(f"{name} wants a number from 1 to {_CONSTANTS[-1]:,}, and {text[:40]} is none")
    return number


def clock_of(text: str) -> bytes:
    """Registers 0 to 11 of the clock by a time, which the machine has at reset, or by their numbers."""
    if re.search("[-:]", text):
        return _registers_at(text)
    try:
        numbers = [int(word, 0) for word in text.split()]
    except ValueError:
        numbers = []
    if len(numbers) != len(CLOCK) or any(it not in _REGISTERS for it in numbers):
        raise Problem(f"--clock wants a time, 'YY-MM-DD HH:MM:SS', or registers 0 to 11, such as '{' '.join(map(str, CLOCK))}'")
    if numbers[10] & 0x80 or numbers[11] & 1:
        raise Problem("--clock: bit 7 of register 10 and bit 0 of register 11 are 0 when the clock starts")
    return bytes(numbers)


def _registers_at(text: str) -> bytes:
    """The registers at a time: in binary, with 24 hours, without an alarm."""
    from datetime import datetime  # here, as it takes a while that every other start would wait

    try:
        time = datetime.strptime(text, "%y-%m-%d %H:%M:%S")
    except ValueError:
        raise Problem(f"--clock wants a time, 'YY-MM-DD HH:MM:SS', and {text[:40]} is none") from None
    weekday = time.isoweekday() % 7 + 1  # 1 is Sunday
    return bytes([time.second, 0, time.minute, 0, time.hour, 0, weekday, time.day, time.month, time.year % 100, *CLOCK[10:]])


def joined(boots: list[tuple[str, Boot]]) -> Boot:
    """Several images as one. No two set the same word, and their constants are the same, but for those that a raw ROM has."""
    made = Boot()
    for number, (name, boot) in enumerate(boots):
        for start, run in boot.runs():
            for other, before in boots[:number]:
                both = next((at for at, words in before.runs() if at < start + len(run) and start < at + len(words)), None)
                if both is not None:
                    raise Problem(f"{other} and {name} both set the word at {max(start, both):#010x}")
            made.put(start, run)
        if boot.constants() != Boot().constants():
            if made.constants() not in (Boot().constants(), boot.constants()):
                raise Problem(f"{name} has another byte time, unit or clock than an image before it")
            made.byte_time, made.unit, made.clock = boot.constants()
    return made
