"""What an instruction makes its result of: the registers that it reads, by the bits of the result that are wanted, and the bytes of
memory that loads and stores move."""
from __future__ import annotations

from typing import Callable, Dict, Iterator, Tuple

from ..instruction import ALL, JALR, JR, LB, LBU, LH, LHU, LWL, LWR, SB, SH, SIDES, SPECIAL, SWL, SWR, code, function, rs, rt
from ..limits import HI, LO

_SIGN = 0x8000_0000


def written(word: int) -> Tuple[int, ...]:
    """Which of HI and LO an instruction writes that writes one."""
    return {0x11: (HI,), 0x13: (LO,)}.get(function(word), (HI, LO))


# Registers

Needs = Dict[int, int]  # by registers, the bits of each


def decided(word: int) -> Needs:
    """What decides where an instruction goes on."""
    major = code(word)
    if major in (4, 5):
        return _together((rs(word), ALL), (rt(word), ALL))
    if major in (6, 7) or major == SPECIAL and function(word) in (JR, JALR):
        return _together((rs(word), ALL))
    return _together((rs(word), _SIGN)) if major == SIDES else {}


def needs(word: int, bits: int, value: Callable[[int], int]) -> Needs:
    """What bits of its result are made of, where it is no load and no store. `value` says what a register holds before it."""
    return _together(*_computed(word, bits, value))


def _together(*found: Tuple[int, int]) -> Needs:
    made: Needs = {}
    for register, bits in found:
        if register and bits & ALL:
            made[register] = made.get(register, 0) | bits & ALL
    return made


def _computed(word: int, bits: int, value: Callable[[int], int]) -> Iterator[Tuple[int, int]]:
    major, first, second, low = code(word), rs(word), rt(word), word & 0xFFFF
    if major == SPECIAL:
        yield from _by_function(word, bits, value)
    elif major in (8, 9):  # addi, addiu
        yield first, _up_to_highest(bits)
    elif major in (10, 11):  # slti, sltiu
        yield first, ALL if bits & 1 else 0
    elif major == 12:  # andi
        yield first, bits & low
    elif major == 13:  # ori
        yield first, bits & ~low
    elif major == 14:  # xori
        yield first, bits


def _by_function(word: int, bits: int, value: Callable[[int], int]) -> Iterator[Tuple[int, int]]:
    kind, first, second, by = function(word), rs(word), rt(word), word >> 6 & 31
    if kind in (4, 6, 7):  # sllv, srlv, srav
        yield first, 31
        by = value(first) & 31
    if kind in (0, 4):
        yield second, bits >> by
    elif kind in (2, 6):
        yield second, bits << by
    elif kind in (3, 7):
        yield second, bits << by | (_SIGN if bits >> 31 - by else 0)
    elif kind == 0x10:
        yield HI, bits
    elif kind == 0x12:
        yield LO, bits
    elif kind in (0x11, 0x13):
        yield first, bits
    elif kind in range(0x18, 0x1C):  # mult, multu, div, divu
        yield first, ALL
        yield second, ALL
    elif kind in range(0x20, 0x24):  # add, addu, sub, subu
        yield first, _up_to_highest(bits)
        yield second, _up_to_highest(bits)
    elif kind in (0x24, 0x25, 0x27):  # and, or, nor: a bit of one of both may decide alone
        turned = 0 if kind == 0x24 else ALL
        one, two = value(first) ^ turned, value(second) ^ turned
        yield first, bits & (two | ~one)
        yield second, bits & one
    elif kind == 0x26:
        yield first, bits
        yield second, bits
    elif kind in (0x2A, 0x2B):
        yield first, ALL if bits & 1 else 0
        yield second, ALL if bits & 1 else 0


def _up_to_highest(bits: int) -> int:
    """All bits up to the highest one: sums carry."""
    return (1 << bits.bit_length()) - 1


# Memory

def loaded(word: int, byte: int, bits: int) -> Tuple[int, int]:
    """The bits of the word in memory that bits of what is loaded from one of its bytes on come from, and those of the register that
    stay as they are."""
    shift, major = 8 * byte, code(word)
    if major in (LB, LBU, LH, LHU):
        width = 8 if major in (LB, LBU) else 16
        part = (1 << width) - 1
        is_signed = major in (LB, LH)
        return ((bits & part) | (1 << width - 1 if is_signed and bits & ~part else 0)) << shift, 0
    if major == LWL:
        return bits >> 24 - shift, bits & ((1 << 24 - shift) - 1)
    if major == LWR:
        return bits << shift & ALL, bits & ~(ALL >> shift)
    return bits, 0


def covered(word: int, byte: int) -> int:
    """The bits of the word in memory that a store to one of its bytes writes."""
    shift = 8 * byte
    return {SB: 0xFF << shift, SH: 0xFFFF << shift, SWL: ALL >> 24 - shift, SWR: ALL << shift & ALL}.get(code(word), ALL)


def stored(word: int, byte: int, bits: int) -> int:
    """The bits of the register that bits of the word in memory come from."""
    shift = 8 * byte
    if code(word) == SWL:
        return bits << 24 - shift & ALL
    return bits >> shift if code(word) in (SB, SH, SWR) else bits
