"""Instruction words: their fields, whether they load or store, and where control goes after them."""
from __future__ import annotations

from enum import Enum
from functools import lru_cache
from typing import TYPE_CHECKING, Optional

from .replies import Registers

if TYPE_CHECKING:
    from .driver import Driver

RA = 31
ALL = 0xFFFF_FFFF

# Major opcodes: by functions, branches by signs, jumps, coprocessor 0, loads, stores.
SPECIAL, SIDES, J, JAL, COPROCESSOR_0 = 0, 1, 2, 3, 0x10
LB, LH, LWL, LW, LBU, LHU, LWR = range(0x20, 0x27)
SB, SH, SWL, SW, SWR = 0x28, 0x29, 0x2A, 0x2B, 0x2E
LOADS = frozenset((LB, LH, LWL, LW, LBU, LHU, LWR))
STORES = frozenset((SB, SH, SWL, SW, SWR))
JR, JALR = 8, 9  # functions

MOVE_FROM, MOVE_TO = 0, 4  # mfc0 and mtc0, in bits 25 to 21
RETURN = 0x4200_0010  # rfe
WRITE_ENTRY = 0x4200_0002  # tlbwi
ENTRIES = (0x4200_0001, WRITE_ENTRY, 0x4200_0008)  # tlbr, tlbwi, tlbp


def next_word(driver: Driver, registers: Registers) -> int:
    """The instruction that comes next at the position, or 0 where it can't be fetched."""
    place = driver.physical(registers.pc)
    return 0 if place is None else driver.words(place, 1)[0]


def code(word: int) -> int:
    return word >> 26


def rs(word: int) -> int:
    return word >> 21 & 31


def rt(word: int) -> int:
    return word >> 16 & 31


def immediate(word: int) -> int:
    return ((word & 0xFFFF) ^ 0x8000) - 0x8000


def function(word: int) -> int:
    return word & 63


def is_control_read(word: int) -> bool:
    """Whether it is mfc0."""
    return code(word) == COPROCESSOR_0 and rs(word) == 0


def is_late(word: int) -> bool:
    """Whether what it writes is there for the instruction after the next one: loads and mfc0."""
    return code(word) in LOADS or is_control_read(word)


def is_jump_by_register(word: int) -> bool:
    return code(word) == SPECIAL and function(word) == JR


def links(word: int) -> bool:
    """Whether it leaves a return address: jal, jalr, bltzal and bgezal."""
    major = code(word)
    return major == JAL or major == SPECIAL and function(word) == JALR or major == SIDES and rt(word) in (0x10, 0x11)


def is_call(word: int) -> bool:
    """Whether it leaves a return address and goes elsewhere: not bltzal and bgezal to what comes after their delay slot."""
    return links(word) and (code(word) != SIDES or immediate(word) != 1)


def is_branch(word: int) -> bool:
    """Whether it goes on at one of two places, by what registers hold."""
    major = code(word)
    if major in (4, 5):
        return rs(word) != rt(word)
    return major in (6, 7) or major == SIDES and rt(word) in (0, 1) and not (rt(word) and not rs(word))


def is_jump(word: int) -> bool:
    """Whether it always goes on elsewhere, and comes back from nowhere: j, jr, and branches that compare a register with itself."""
    major = code(word)
    return (major == J or is_jump_by_register(word) or major == 4 and rs(word) == rt(word)
            or major == SIDES and rt(word) == 1 and not rs(word))


class Turn(Enum):
    """How a step may go on elsewhere than behind itself."""

    BRANCH = 0
    CALL = 1
    RETURN = 2
    JUMP = 3  # to where a register says
    EXCEPTION = 4
    EXCEPTION_RETURN = 5


@lru_cache(1 << 14)
def turn_of(word: int) -> Optional[Turn]:
    """How an instruction may, that takes no exception."""
    if is_call(word):
        return Turn.CALL
    if is_jump_by_register(word):
        return Turn.RETURN if rs(word) == RA else Turn.JUMP
    if word == RETURN:
        return Turn.EXCEPTION_RETURN
    return Turn.BRANCH if is_branch(word) else None


def has_slot(word: int) -> bool:
    """Whether the instruction after it is in its delay slot."""
    return is_branch(word) or is_jump(word) or is_call(word) or code(word) in (1, 4, 5)


def target(address: int, word: int) -> int:
    """Where a branch or a jump that is no jump by register leads."""
    if code(word) in (J, JAL):
        return (address + 4) & 0xF000_0000 | (word & 0x03FF_FFFF) << 2
    return (address + 4 + 4 * immediate(word)) & ALL


def address(word: int, registers: Registers) -> int:
    """The address of a load or store."""
    return (registers.general[rs(word)] + immediate(word)) & ALL
