"""What steps did, as `trace` says it: a line for each."""
from __future__ import annotations

import re
from dataclasses import dataclass
from typing import Any, Optional

from .replies import no_reply


@dataclass(frozen=True)
class Access:
    """The word at a physical address that a step loaded from or stored into: what a load got, or what a store left. A store to what is
    no RAM has the bytes that were stored, in their places. The `mark` is `ignored` if a store changed nothing, as in ROM and where no
    device is, and `isolated` if the isolated cache was accessed in place of memory."""

    kind: str  # load or store
    address: int
    word: int
    mark: Optional[str] = None


@dataclass(frozen=True)
class Traced:
    """What a step did: the word that it fetched, the register that it wrote with the value (for a load the one that will land), HI and
    LO after it where it wrote one of them, the byte that it sent with its line, and the code of the exception that it took, 0 for an
    interrupt."""

    step: int
    pc: int
    word: Optional[int]
    write: Optional[tuple[int, int]] = None
    hi_lo: Optional[tuple[int, int]] = None
    access: Optional[Access] = None
    sent: Optional[tuple[int, int]] = None
    shuts_down: bool = False
    exception: Optional[int] = None


_LINE = re.compile(r"(?P<step>\d+) pc (?P<pc>0x\w{8}) word (?P<word>none|0x\w{8})(?: r(?P<register>\d+) (?P<value>0x\w{8}))?"
                   r"(?: hi (?P<hi>0x\w{8}) lo (?P<lo>0x\w{8}))?(?: (?P<kind>load|store) (?P<address>0x\w{8}) (?P<held>0x\w{8})"
                   r"(?: (?P<mark>ignored|isolated))?)?"
                   r"(?: sent (?P<line>\d) (?P<byte>0x\w\w))?(?P<ts> ts)?(?: exception (?P<code>\d+))?")


def read(line: str) -> Traced:
    """What a line of a reply says."""
    match = _LINE.fullmatch(line)
    if not match:
        raise no_reply(line)
    found = match.groupdict()

    def number(name: str) -> Optional[int]:
        return None if found[name] is None else int(found[name], 0)

    def pair(first: str, second: str) -> Optional[tuple[int, int]]:
        return None if found[first] is None else (int(found[first], 0), int(found[second], 0))

    access = Access(found["kind"], int(found["address"], 16), int(found["held"], 16), found["mark"]) if found["kind"] else None
    return Traced(int(found["step"]), int(found["pc"], 16), None if found["word"] == "none" else number("word"),
                  pair("register", "value"), pair("hi", "lo"), access, pair("line", "byte"), bool(found["ts"]), number("code"))


def pc_of(line: str) -> int:
    """Where the step is alone, in far less time."""
    return int(line.split(None, 3)[2], 16)


def value(line: str) -> dict[str, Any]:
    """What a line of a reply says as a value of JSON, with those parts that there are."""
    return value_of(read(line))


def value_of(it: Traced) -> dict[str, Any]:
    shown: dict[str, Any] = {"step": it.step, "pc": it.pc, "word": it.word}
    if it.write:
        shown["register"], shown["value"] = it.write
    if it.hi_lo:
        shown["hi"], shown["lo"] = it.hi_lo
    if it.access:
        shown[it.access.kind] = {"address": it.access.address, "word": it.access.word}
        if it.access.mark:
            shown[it.access.kind][it.access.mark] = True
    if it.sent:
        shown["sent"] = {"line": it.sent[0], "byte": it.sent[1]}
    if it.shuts_down:
        shown["ts"] = True
    if it.exception is not None:
        shown["exception"] = it.exception
    return shown

