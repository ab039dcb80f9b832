"""The steps that transfer control, as `jumps` shows them: a line for each."""
from __future__ import annotations

import re
from dataclasses import dataclass
from typing import Any, Optional, Sequence

from . import instruction
from .replies import checked, no_reply


@dataclass(frozen=True)
class Jump:
    """A step that transferred control: its PC, the word that it fetched, if it fetched one, and the code of the exception that it took, 0 for
    an interrupt. Control went `to` this PC: the target, the vector of an exception, or for rfe the PC after the step."""

    step: int
    pc: int
    word: Optional[int]
    to: int
    exception: Optional[int] = None

    @property
    def kind(self) -> str:
        """`exception`, or by the word `call`, `return` (`jr ra`), `jump` (`j` and other `jr`), `branch` or `rfe`."""
        if self.exception is not None or self.word is None:
            return "exception"
        if instruction.links(self.word):
            return "call"
        if instruction.is_jump_by_register(self.word):
            return "return" if instruction.rs(self.word) == instruction.RA else "jump"
        if self.word == instruction.RETURN:
            return "rfe"
        return "jump" if instruction.code(self.word) == instruction.J else "branch"


_LINE = re.compile(r"(\d+) pc (0x\w{8}) word (none|0x\w{8}) to (0x\w{8})(?: exception (\d+))?")


def read(line: str) -> Jump:
    """Returns what a line of a reply after the first says."""
    match = _LINE.fullmatch(line)
    if not match:
        raise no_reply(line)
    step, pc, word, to, exception = match.groups()
    return Jump(int(step), int(pc, 16), None if word == "none" else int(word, 16), int(to, 16), None if exception is None else int(exception))


@checked
def reached(lines: Sequence[str]) -> int:
    """Returns the position from which to ask on after a reply."""
    return int(lines[0].split()[2])


def value_of(it: Jump) -> dict[str, Any]:
    """Returns a jump as a value of JSON."""
    shown: dict[str, Any] = {"step": it.step, "pc": it.pc, "word": it.word, "kind": it.kind, "to": it.to}
    if it.exception is not None:
        shown["exception"] = it.exception
    return shown


def value(lines: Sequence[str]) -> dict[str, Any]:
    """Returns a reply as a value of JSON."""
    return {"position": reached(lines), "jumps": [value_of(read(line)) for line in lines[1:]]}
