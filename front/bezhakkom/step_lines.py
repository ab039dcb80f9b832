"""What steps did, as lines for people."""
from __future__ import annotations

from typing import Dict, Iterator, Optional, Tuple, Union

from .exceptions import TEXTS
from .expressions import REGISTERS
from .jumps import Jump
from .limits import RAM, ROM
from .places import PHYSICAL, always_at
from .session import Session
from .tracing import Access, Traced


class StepLines:
    """Steps as lines: `368 read_line+0x4 (login.c:52): sw r31, 28(r29)   stores 0xbfc00123 into 0x80001ffc`. The text of an instruction is
    asked for once."""

    def __init__(self, session: Session) -> None:
        self._session = session
        self._heads: Dict[Tuple[int, Optional[int]], str] = {}  # by PCs and words

    def of(self, step: Traced) -> str:
        return f"{step.step:,} {self.without_number(step)}"

    def without_number(self, step: Traced) -> str:
        parts = "; ".join(self._parts(step))
        return self._head(step) + (f"   {parts}" if parts else "")

    def of_jump(self, step: Jump) -> str:
        """`366 main+0x6c (login.c:70): jal 0xbfc00228 <read_line>   call to read_line (login.c:37)`."""
        what = step.kind if step.exception is None else f"exception {step.exception}: {TEXTS[step.exception]},"
        return f"{step.step:,} {self._head(step)}   {what} to {self._session.code(step.to)}"

    def _head(self, step: Union[Traced, Jump]) -> str:
        """The place of a step, and its instruction."""
        if step.word is None:
            why = "an interrupt" if step.exception == 0 else "no instruction can be fetched here"
            return f"{self._session.code(step.pc)}: {why}"
        found = self._heads.get((step.pc, step.word))
        if found is None:
            with self._session.at(step.step):
                found = self._heads[step.pc, step.word] = f"{self._session.code(step.pc)}: {self._session.instruction(step.pc)}"
        return found

    def _parts(self, step: Traced) -> Iterator[str]:
        """What a step did, part by part."""
        session = self._session
        if step.write:
            register, value = step.write
            yield f"{REGISTERS[register]} = {session.address(value)}"
        if step.hi_lo:
            yield f"hi = {step.hi_lo[0]:#010x}, lo = {step.hi_lo[1]:#010x}"
        if step.access:
            how = "from" if step.access.kind == "load" else "into"
            yield f"{step.access.kind}s {step.access.word:#010x} {how} {place(session, step.access.address)}{_marked(step.access)}"
        if step.sent:
            yield f"sends {chr(step.sent[1])!r} on line {step.sent[0]}"
        if step.shuts_down:
            yield "TS becomes 1: several translation entries match"
        if step.exception is not None:
            yield f"exception {step.exception}: {TEXTS[step.exception]}"


def _marked(access: Access) -> str:
    """What else is said of an access that reached neither RAM nor a device."""
    if access.mark == "isolated":
        return ", in the isolated cache"
    if access.mark == "ignored":
        return f", ignored: {'that is ROM' if access.address in ROM else 'nothing is there'}"
    return ""


def place(session: Session, physical: int) -> str:
    """A physical address: memory by its address in kseg0 or kseg1, which may have a name, and devices by their physical one."""
    return session.address(always_at(physical)) if physical in RAM or physical in ROM else f"{PHYSICAL}{physical:#010x}"
