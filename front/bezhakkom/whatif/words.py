"""The words of the commands: what is asked, conditions, and where."""
from __future__ import annotations

import re
from typing import List, Optional, Sequence, Tuple

from .. import expressions
from ..errors import Problem
from ..expressions import closed, register_number
from ..limits import GREATEST_POSITION, LINES
from ..log import unquoted
from ..replies import CONTROL_NAMES
from ..session import Session
from . import why as reasons
from .conditions import Comes, Compares, Condition, Holds, Sends, Total
from .pasts import Question
from .questions import Console, Register, Sent, Word
from .why import Why

_KEPT = {"pc": "pc", "next": "next_pc", "hi": "hi", "lo": "lo"}
_TEXT = re.compile(r"""'(?:[^'\\]|\\.)+'|"(?:[^"\\]|\\.)+\"""")

CONDITION = "pc ADDRESS, console [L] 'TEXT', word ADDRESS OP VALUE, or [A] OP [B] - [C]"
WHAT = "a register, an address of a word, `sent L K`, or `console [L]`"


class Words:
    """The words of a line that are left, and the words that begin something in it."""

    def __init__(self, session: Session, words: Sequence[str], usage: str, *keys: str) -> None:
        self._session = session
        self._usage = usage
        self._keys = ("--json", "--jobs", *keys)
        self.rest: List[str] = list(words)
        self.is_json = self.has("--json")
        self.jobs = self.number_after("--jobs", 1)
        if not 1 <= self.jobs <= 64:
            raise Problem(f"1 to 64 processes can be used, and not {self.jobs:,}")

    def has(self, key: str) -> bool:
        """Whether a word stands somewhere. It is taken out."""
        found = key in self.rest
        if found:
            self.rest.remove(key)
        return found

    def has_pair(self, key: str, value: str) -> bool:
        """Whether a word stands somewhere with another one after it. Both are taken out."""
        place = next((at for at in range(len(self.rest) - 1) if self.rest[at:at + 2] == [key, value]), None)
        if place is not None:
            del self.rest[place:place + 2]
        return place is not None

    def after(self, key: str) -> Optional[str]:
        """The word after another one, if that is there. Both are taken out."""
        if key not in self.rest:
            return None
        place = self.rest.index(key)
        if place + 1 == len(self.rest):
            raise self.problem(f"a word is missing after `{key}`")
        _, found = self.rest[place:place + 2]
        del self.rest[place:place + 2]
        return found

    def number_after(self, key: str, otherwise: int) -> int:
        """The number after a word, or another one where that is not there."""
        word = self.after(key)
        return otherwise if word is None else self._session.number(word)

    def position(self) -> int:
        """The position after `at`, or the present one."""
        found = self.number_after("at", self._session.driver.position)
        if not 0 <= found <= GREATEST_POSITION:
            raise Problem(f"a position is 0 to {GREATEST_POSITION:,}")
        return found

    def following(self, key: str) -> List[str]:
        """The words after another one, up to the next that begins something. All are taken out."""
        if key not in self.rest:
            return []
        first = self.rest.index(key) + 1
        end = next((at for at in range(first, len(self.rest)) if self.rest[at] in self._keys), len(self.rest))
        found = self.rest[first:end]
        del self.rest[first - 1:end]
        if not found:
            raise self.problem(f"a word is missing after `{key}`")
        return found

    def end(self) -> None:
        """Refuses words that are left."""
        if self.rest:
            raise self.problem(f"{self.rest[0]} means nothing here")

    def problem(self, why: str) -> Problem:
        return Problem(f"{why}. usage: {self._usage}")

    # What is asked

    def question(self, words: List[str]) -> Tuple[str, Question]:
        """What the first of some words ask, with its name. They are taken out."""
        session, name = self._session, words.pop(0)
        if name == "console":
            line = self._line(words.pop(0)) if words and words[0].isdigit() else 0
            return f"what line {line} sent", Console(line, likely=session.driver.sent(line))
        if name == "sent":
            if len(words) < 2:
                raise self.problem("a line and a place stand after `sent`")
            line, place = self._line(words.pop(0)), session.number(words.pop(0))
            return f"byte {place:,} of line {line}", Sent(line, place)
        register = None if session.symbols.address(name) is not None else _register(name)
        if register:
            shown = name.lstrip("$")
            return register.name if shown.isdigit() else shown, register
        try:
            address, physical = session.word_at(name)
        except Problem as problem:
            if name[0] != "[" or name[-1] != "]":
                raise
            raise Problem(f"{problem}. An address is wanted, of the word that is shown, and {name} is what stands at one: "
                          f"{name[1:-1]} shows {name}") from None
        return session.place(address), Word(physical)

    def why(self, position: int) -> Tuple[str, Question, Why]:
        """`WHAT [control] [address] [to input]`: what is asked at a position, with its name, and where it comes from. No word is left."""
        if not self.rest:
            raise self.problem("what is asked for is missing")
        with self._session.at(position):
            name, question = self.question(self.rest)
        control, address = self.has("control"), self.has("address")
        target = self.after("to")
        if target not in (None, "input"):
            raise self.problem("`to` is followed by `input`")
        self.end()
        found = reasons.why(self._session.driver, self._session.symbols, question, position, control=control, address=address)
        return name, question, found.to_input() if target else found

    def _line(self, word: str) -> int:
        line = self._session.number(word)
        if not 0 <= line < LINES:
            raise Problem(f"there is no line {line}; they are 0 to {LINES - 1}")
        return line

    def condition(self, words: List[str]) -> Tuple[str, Condition]:
        """A condition, with its text."""
        session = self._session
        name, *rest = words
        text = " ".join(words)
        if name == "pc" and len(rest) == 1:
            address = session.number(rest[0])
            if address % 4 or not 0 <= address < 1 << 32:
                raise Problem(f"{rest[0]} is no address of an instruction: it is a multiple of 4, below 0x100000000")
            return text, Comes(address)
        if name == "console" and rest and len(rest) < 3 and _TEXT.fullmatch(rest[-1]):
            line = self._line(rest[0]) if len(rest) == 2 else 0
            return text, Sends(line, unquoted(rest[-1][1:-1]), likely=session.driver.sent(line))
        if name == "word" and rest:
            return text, self.comparison(rest)
        if expressions.condition(closed(words)).sign:
            return text, self.comparison(words)
        raise self.problem(f"`{text}` is no condition; there are {CONDITION}")

    def comparison(self, words: Sequence[str]) -> Condition:
        """`ADDRESS OP VALUE`, or a comparison with words of memory between brackets. What these are is looked at where the condition is
        tried; their addresses, and registers, are those of the position."""
        session = self._session
        found = expressions.condition(closed(words)) if words else None
        if not found or not found.sign:
            raise self.problem("a word is compared by ==, !=, <, <=, > or >=")
        right = expressions.read(found.right, session.driver, session.symbols)
        if "[" in found.left:
            return Compares(self._total(expressions.read(found.left, session.driver, session.symbols)), found.sign, self._total(right))
        _, physical = session.word_at(found.left)
        if right.pieces:
            return Compares((0, ((1, physical, 4),)), found.sign, self._total(right))
        if not -1 << 31 <= right.constant < 1 << 32:
            raise Problem(f"{found.right} is no word: it is below 0x100000000")
        return Holds(physical, found.sign, right.constant & 0xFFFF_FFFF)

    def _total(self, side: expressions.Sum) -> Total:
        """A sum with the physical addresses of its pieces."""
        for _, address, size in side.pieces:
            if address % size:
                raise Problem(f"{address:#x} is no multiple of {size}")
        return side.constant, tuple((sign, self._session.physical(address), size) for sign, address, size in side.pieces)


def _register(name: str) -> Optional[Register]:
    number = register_number(name)
    name = name.lstrip("$")
    if number is not None:
        return Register(expressions.REGISTERS[number], number)
    if name in CONTROL_NAMES:
        return Register(name)
    return Register(_KEPT[name]) if name in _KEPT else None
