"""Numbers as people write them in the shell: with names of registers and symbols, characters, words of memory, sums and
differences. And conditions, which compare two of them."""
from __future__ import annotations

import operator
import re
from dataclasses import dataclass
from typing import Callable, Iterable, List, Optional, Sequence, Tuple, Union

from . import memory, places
from .driver import Driver
from .errors import Problem
from .limits import HI, LO
from .log import unquoted
from .replies import CONTROL_NAMES
from .symbols import Symbols

REGISTERS = ("zero at v0 v1 a0 a1 a2 a3 t0 t1 t2 t3 t4 t5 t6 t7 "
             "s0 s1 s2 s3 s4 s5 s6 s7 t8 t9 k0 k1 gp sp fp ra").split()
_NUMBERS = {name: number for number, name in enumerate(REGISTERS)}
_NUMBERS.update({f"{sign}{number}": number for sign in "r$" for number in range(32)}, s8=30)

_TERM = re.compile(r"[\w./]*\.\w+:[0-9]+|0x[0-9a-fA-F]+|[0-9]{1,3}(?:,[0-9]{3})+(?![0-9,])|[0-9]+(?![0-9,])|'(?:[^'\\]|\\.)+'"
                   r"|[&$]?(?:[\w./]*\.\w+:)?[A-Za-z_.][\w.$]*|\$[0-9]+(?!\w)")
_OPENED = re.compile(r"(byte|half|)\[")
_PART = re.compile(r"[&*]*([A-Za-z_]\w*)(?:\.|->|\[)[\w.\[\]>-]*")
_LINE = re.compile(r"([\w./+-]*[A-Za-z_][\w./+-]*):([0-9]{1,9})")
_IDENTIFIER = re.compile(r"[A-Za-z_]\w*")
_SIZES = {"byte": 1, "half": 2, "": 4}
_DEEPEST = 16  # brackets within each other
_SHOWN = 8  # locations of one name that a refusal lists

_GREATEST = (1 << 64) - 1
_MOST_DIGITS = 64  # zeros before a number count too

HELP = """\
Wherever a number may stand: 4096, 40,017, 0x1000, 'a', the name of a register (sp, r29, pc, hi, epc), of a symbol
(main) or of a line (a.c:12), `pos` for the position, `last` for the step of the log's last event, and sums and
differences of these: main+0x78, sp-16. [A] is the word of memory at address A, half[A] two bytes and byte[A] one:
[sp+16], byte[[line]+3].
A name that is both a symbol and a word of the shell (a register, `pos`, `last`) is refused: &NAME is the symbol, and
$NAME the word of the shell. Of several symbols with one name, a.c:NAME is that of the source a.c.
""" + places.HELP


def register_number(word: str) -> Optional[int]:
    """The number of a register of the processor, by one of its names."""
    return _NUMBERS.get(word, _NUMBERS.get(word.lstrip("$")))


def written(word: str) -> int:
    """The number of the register that instructions write, of a word such as $a0."""
    found = {"hi": HI, "lo": LO}.get(word.lstrip("$"), register_number(word))
    if found is None:
        raise Problem(f"who wrote {shortened(word.lstrip('$'))} is not noted: that is known of r0 to r31, hi and lo")
    return found


def names() -> Iterable[str]:
    """All names of registers, `pos` and `last`."""
    return [*REGISTERS, *(f"r{number}" for number in range(32)), "pc", "hi", "lo", *CONTROL_NAMES, "pos", "last"]


_OWN = frozenset((*names(), *_NUMBERS, "next", "position"))  # the words of the shell


@dataclass(frozen=True)
class Sum:
    """A number, and pieces of memory that are added to it or subtracted from it: each with 1 or -1, its virtual address and its size. One
    is `is_named` if it consists of symbols and numbers alone, so that it moves with the symbols."""

    constant: int
    pieces: Tuple[Tuple[int, int, int], ...] = ()
    is_named: bool = False

    def value(self, driver: Driver) -> int:
        """What it is at the position of the driver."""
        return self.constant + sum(sign * _in_memory(driver, address, size) for sign, address, size in self.pieces)


def number(text: str, driver: Driver, symbols: Symbols) -> int:
    """The number that a text means at the position."""
    return read(text, driver, symbols).value(driver)


def read(text: str, driver: Driver, symbols: Symbols) -> Sum:
    """What a text means, where registers, symbols and the addresses within brackets are those of the position."""
    _refuse_types(text, symbols)
    reader = _Reader(text, driver, symbols)
    total = reader.total()
    if reader.rest:
        raise Problem(f"in {shortened(text)} a + or - is missing after {shortened(text[:-len(reader.rest)])}")
    return total


def places_of(text: str, driver: Driver, symbols: Symbols) -> Tuple[List[int], bool]:
    """The addresses of code that a text means, a line of a source (`a.c:12`), a name that several sources have, or a number; and whether
    they move with the symbols."""
    line = _LINE.fullmatch(text)
    if line and not text.startswith(places.PHYSICAL):
        return symbols.addresses_of_line(line[1], int(line[2])), True
    name = text.lstrip("&")
    if _IDENTIFIER.fullmatch(name) and not _is_own(text, symbols):
        addresses = {it.address for it in symbols.found(name)} | set(symbols.inlined.named(name))
        if len(addresses) > 1 or addresses and not symbols.found(name):
            return sorted(addresses), True
    several = symbols.found(name)
    if len(several) > 1 and not _is_own(text, symbols):
        return [it.address for it in several], True
    total = read(text, driver, symbols)
    return [total.value(driver)], total.is_named


def _is_own(name: str, symbols: Symbols) -> bool:
    """Whether a name means a word of the shell, and no symbol. A name that may be either is refused."""
    plain = name.lstrip("&$")
    if name[0] in "&$" or plain not in _OWN:
        return name[0] == "$"
    if symbols.found(plain):
        raise Problem(f"{plain} is a symbol of the image and a word of the shell: &{plain} is the symbol, and ${plain} the word of the shell")
    return True


def _refuse_types(text: str, symbols: Symbols) -> None:
    """Refuses a part of a variable by the name that C has for it."""
    part = _PART.match(text)
    address = symbols.address(part[1]) if part else None
    if not part or address is None or symbols.found(part[0].lstrip("&*")) or text[part.end():].startswith(":"):
        return
    found = symbols.at(address)
    size = f" of {found[0].size:,} bytes" if found and found[0].size else ""
    raise Problem(f"{shortened(text)} is C, whose types the shell does not know. {part[1]} is at {address:#010x}{size}: "
                  f"name the part by its distance, as in {part[1]}+4, and for `watch` its size after that. "
                  f"gdb shows the address: print &{text.lstrip('&*')}")


@dataclass(frozen=True)
class Condition:
    """Two numbers that are compared, or one that is to be no 0."""

    left: str
    sign: str = ""
    right: str = ""

    def check(self, driver: Driver, symbols: Symbols) -> str:
        """Why it does not hold at the position, or nothing."""
        left = number(self.left, driver, symbols)
        if not self.sign:
            return "" if left else f"{self.left} is 0"
        right = number(self.right, driver, symbols)
        if holds(left, self.sign, right):
            return ""
        shown = [f"{text} is {_value(value)}" for text, value in ((self.left, left), (self.right, right)) if not text[0].isdigit()]
        return " and ".join(shown) or "these are other numbers"


COMPARED: dict[str, Callable[[int, int], bool]] = {
    "==": operator.eq, "!=": operator.ne, "<=": operator.le, ">=": operator.ge, "<": operator.lt, ">": operator.gt, "=": operator.eq}
_CHARACTER = r"'(?:[^'\\]|\\.)+'"
_COMPARES = re.compile(f"{_CHARACTER}|(==|!=|<=|>=|<|(?<!-)>|=)")
_SIGNS = "+-[]=!<>"


def holds(left: int, sign: str, right: int) -> bool:
    """Whether two numbers compare so. A number below 0 is equal to the word with these bits."""
    if COMPARED[sign] in (operator.eq, operator.ne) and min(left, right) < 0:
        left, right = left & 0xFFFF_FFFF, right & 0xFFFF_FFFF
    return COMPARED[sign](left, right)


def closed(words: Sequence[str]) -> str:
    """The text of words, without the blanks that stand beside signs."""
    text = words[0]
    for word in words[1:]:
        text += word if text[-1] in _SIGNS or word[0] in _SIGNS else f" {word}"
    return text


def condition(text: str) -> Condition:
    """The condition that a text is, such as `v0 == 5` and `[tx] != [tx+4] - [tx+8]`."""
    signs = [it for it in _COMPARES.finditer(text) if it[1]]
    if not signs:
        return Condition(text)
    sign, *more = signs
    left, right = text[:sign.start()].strip(), text[sign.end():].strip()
    if more or not left or not right:
        raise Problem(f"{shortened(text)} is no condition: one of {' '.join(COMPARED)} stands between two numbers")
    return Condition(left, sign[1], right)


def shortened(text: str) -> str:
    """A text that is shown in a sentence."""
    return text if len(text) <= 80 else f"{text[:60]}.."


def _value(value: int) -> str:
    return f"{value:,}" if -10 < value < 10 else f"{value:#x} ({value:,})"


class _Reader:
    """Reads numbers from the begin of a text."""

    def __init__(self, text: str, driver: Driver, symbols: Symbols) -> None:
        self.rest = text
        self._text = text
        self._driver = driver
        self._symbols = symbols
        self._depth = 0
        self._has_symbols = self._has_state = False  # whether symbols, and whether registers and positions are among what was read

    def total(self) -> Sum:
        """A sum, up to what is no part of it. One after `p:` is a physical address, and gives a virtual one."""
        if self.rest.startswith(places.PHYSICAL):
            self.rest = self.rest[len(places.PHYSICAL):]
            return Sum(places.always_at(self.total().value(self._driver)))
        constant, sign = 0, 1
        if self.rest.startswith("-"):  # as gdb shows what is below 0
            sign, self.rest = -1, self.rest[1:]
        pieces: List[Tuple[int, int, int]] = []
        while True:
            term = self._term()
            if isinstance(term, int):
                constant += sign * term
            else:
                pieces.append((sign, *term))
            if self.rest[:1] not in ("+", "-"):
                return Sum(constant, tuple(pieces), self._has_symbols and not self._has_state and not pieces)
            sign = 1 if self.rest[0] == "+" else -1
            self.rest = self.rest[1:]

    def _term(self) -> Union[int, Tuple[int, int]]:
        """A number, or the address and the size of a piece of memory."""
        opened = _OPENED.match(self.rest)
        term = _TERM.match(self.rest)
        if opened:
            return self._piece(opened)
        if not term:
            if "," in self.rest:
                raise Problem(f"{shortened(self._text)} is no number: a comma stands before three digits, as in 40,024")
            raise Problem(f"{shortened(self._text) or 'an empty word'} is no number and no name; `help numbers` says what may stand there")
        self.rest = self.rest[term.end():]
        return self._number(term[0])

    def _piece(self, opened: re.Match[str]) -> Tuple[int, int]:
        """The address between brackets, and the size of what is meant there."""
        self._depth += 1
        if self._depth > _DEEPEST:
            raise Problem(f"{shortened(self._text)} has more than {_DEEPEST} brackets within each other")
        self.rest = self.rest[opened.end():]
        address = self.total().value(self._driver)
        if not self.rest.startswith("]"):
            raise Problem(f"in {shortened(self._text)} a ] is missing")
        self.rest = self.rest[1:]
        self._depth -= 1
        return address, _SIZES[opened[1]]

    def _number(self, term: str) -> int:
        if _LINE.fullmatch(term):
            return self._line(*term.rsplit(":", 1))
        if term[0].isdigit() and ":" not in term:
            return _natural(term)
        if term[0] == "'":
            content = unquoted(term[1:-1])
            if len(content) != 1:
                raise Problem(f"{shortened(term)} is not one character")
            return content[0]
        name = term.lstrip("&$")
        if not _is_own(term, self._symbols):
            several = self._symbols.found(name)
            if len(several) > 1:
                raise Problem(self._which(name))
            if several:
                self._has_symbols = True
                return several[0].address
            if term[0] == "&":
                raise Problem(f"there is no symbol {shortened(name)}")
        self._has_state = True
        register = _register(term if term in _NUMBERS else name, self._driver)
        if register is None:
            if term[0] == "$":
                raise Problem(f"there is no register {shortened(name)}")
            copies = self._symbols.inlined.named(name)
            if copies:
                listed = ", ".join(map(self._symbols.code, copies[:_SHOWN])) + (" and more" if len(copies) > _SHOWN else "")
                raise Problem(f"{shortened(name)} has no address of its own: the compiler inlined it, at {listed}. `break {shortened(name)}` stops "
                              "at each copy")
            raise Problem(f"there is no symbol and no register {shortened(name)}")
        return register

    def _line(self, file: str, number: str) -> int:
        """The address of a line of a source."""
        found = self._symbols.addresses_of_line(file, int(number))
        if len(found) > 1:
            raise Problem(f"{file}:{number} has {len(found):,} locations: {', '.join(map(self._symbols.address_and_name, found))}. "
                          "Name the address that is meant")
        self._has_symbols = True
        return found[0]

    def _which(self, name: str) -> str:
        """That a name has several places, and how one of them is meant."""
        several = self._symbols.found(name)
        listed = ", ".join(map(self._symbols.location, several[:_SHOWN])) + (" and more" if len(several) > _SHOWN else "")
        apart = next((it.name for it in several if it.name != name), f"{several[0].address:#010x}")
        return f"{shortened(name)} has {len(several):,} locations: {listed}. Name the one that is meant, as in {apart}"


def _in_memory(driver: Driver, address: int, size: int) -> int:
    """What memory holds at a virtual address."""
    places.physical(driver, address)
    content = memory.read(driver, address, size)
    if len(content) < size:
        raise Problem(f"{address:#010x} leads to no memory at this position")
    return int.from_bytes(content, "little")


def _natural(term: str) -> int:
    digits = term.replace(",", "")
    base = 16 if term.startswith("0x") else 10
    value = int(digits, base) if len(digits) <= _MOST_DIGITS else _GREATEST + 1
    if value > _GREATEST:
        raise Problem(f"{shortened(term)} is too large: numbers are below 2^64")
    return value


def _register(name: str, driver: Driver) -> Optional[int]:
    """The value of a register at the position."""
    if name in ("pos", "position"):
        return driver.position
    if name == "last":
        return driver.log[-1].time if driver.log else 0
    if name in CONTROL_NAMES:
        return driver.control()[name]
    kept: dict[str, Callable[[], int]] = {
        "pc": lambda: driver.registers().pc, "next": lambda: driver.registers().next_pc,
        "hi": lambda: driver.registers().hi, "lo": lambda: driver.registers().lo}
    if name in kept:
        return kept[name]()
    place = register_number(name)
    return None if place is None else driver.registers().general[place]
