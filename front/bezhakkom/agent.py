"""gdb's agent expressions: the conditions of breakpoints, as bytecode of a machine whose stack has 64-bit numbers.

The operations are those of the appendix on them in gdb's manual. The program returns what a condition reads at a position
in a later batch of replies: `Unknown` names what has to be read first.

The bytecode does not determine the comparison of addresses. gdb sign-extends the constant address of a symbol from 32 bits to
64, and leaves a pointer that it loads, or a register, zero-extended; and for the address of a function (`h == &twice`) it pushes
the constant 0. gdb evaluates a condition again after each stop, so that a stop too many costs time alone, and one too few
loses a visit. Therefore a number on the stack is the set of the values that it may have: a 32-bit value that is loaded, and the
constant of an address, are extended either way, and 0 may be each function. A condition holds if one of its values does.
"""
from __future__ import annotations

import operator
from dataclasses import dataclass, field
from itertools import product
from typing import AbstractSet, Callable, Iterable, Optional

from . import memory, replies, target
from .driver import unmapped
from .limits import RAM, ROM

MOST_STEPS = 10_000  # of one evaluation
MOST_DEEP = 1_000  # numbers on the stack
MOST_CHOICES = 64  # values of one number, and paths through the code
_WORD = (1 << 64) - 1
_UPPER = _WORD & ~0xFFFF_FFFF

Values = AbstractSet[int]  # that a number may have


class Unknown(Exception):
    """A command of the workbench, whose reply has to be known first, at the position or at the one before it."""

    def __init__(self, command: str, is_before: bool = False) -> None:
        super().__init__(command)
        self.command = command
        self.is_before = is_before


class Failed(Exception):
    """Why an expression has no value."""


class Expression(bytes):
    """The bytecode of a condition, and the addresses of functions, which the constant 0 in it may stand for."""

    functions: AbstractSet[int] = frozenset()


@dataclass
class Known:
    """What is known of a position: replies of the workbench by their commands, and which of them were used; and what the step before it
    did, as `trace` says that."""

    position: int
    replies: dict[str, list[str]] = field(default_factory=dict)
    used: set[str] = field(default_factory=set)
    before: Optional[str] = None

    def ask(self, command: str) -> list[str]:
        self.used.add(command)
        lines = self.replies.get(command)
        if lines is None:
            raise Unknown(command)
        return lines

    def register(self, number: int) -> int:
        """A register by the number that gdb gives it."""
        if number >= len(target.NAMES):
            raise Failed(f"there is no register {number}")
        name = target.NAMES[number]
        if name == "position":
            return self.position
        if name == target.EXCEPTION:
            return self._exception()
        if name in target.GENERAL:
            return int(self.ask(f"reg {number}")[0].split()[1], 16)
        if name in replies.CONTROL_NAMES:
            return replies.control(self.ask("cp0"))[name]
        return target.processor(replies.registers(self.ask("regs"))).get(name, 0)

    def _exception(self) -> int:
        if not self.position:
            return target.NO_EXCEPTION
        if self.before is None:
            raise Unknown("trace 1", is_before=True)
        return target.exception(self.before)

    def memory(self, address: int, size: int) -> int:
        """Bytes at a virtual address as a number, low byte first."""
        content = b""
        for virtual, count in memory.pieces(address & 0xFFFF_FFFF, size):
            place = self._physical(virtual)
            if place is None or not (place in RAM or place in ROM):
                raise Failed(f"Cannot access memory at address {virtual:#x}")
            words = range(place & ~3, place + count, 4)
            found = [replies.memory(self.ask(f"mem {word} 1"))[0] for word in words]
            content += b"".join(it.to_bytes(4, "little") for it in found)[place & 3:][:count]
        if len(content) < size:
            raise Failed("Cannot access memory beyond the address 0xffffffff")
        return int.from_bytes(content, "little")

    def _physical(self, virtual: int) -> Optional[int]:
        place = unmapped(virtual)
        return place if place is not None else replies.where(self.ask(f"where {virtual}")).physical


def may_hold(code: bytes, known: Known) -> bool:
    """Returns whether a condition holds at a position by some choice of extensions. One that has no value counts as true, as gdb shows
    why it has none; so does one that reads nothing: gdb has replaced a comparison by a constant, not always by the one that it
    computes itself."""
    try:
        machine = _Machine(code, known)
        return any(machine.run()) or not machine.reads
    except Failed:
        return True


def values(code: bytes, known: Known) -> Values:
    """Returns the values that an expression may have at a position. Fails with `Failed` if it may have none, or too many."""
    return _Machine(code, known).run()


def signed(number: int, bits: int = 64) -> int:
    """The signed number that the low bits of a number are."""
    number &= (1 << bits) - 1
    return number - (1 << bits) if number >> (bits - 1) else number


def _divided(first: int, second: int) -> int:
    """The quotient as C has it, towards 0."""
    if not second:
        raise Failed("Division by zero")
    quotient = abs(first) // abs(second)
    return quotient if (first < 0) == (second < 0) else -quotient


def _rest(first: int, second: int) -> int:
    return first - second * _divided(first, second)


def _as_signed(operation: Callable[[int, int], int]) -> Callable[[int, int], int]:
    return lambda first, second: operation(signed(first), signed(second))


# Of the two numbers on the top of the stack, the upper one second.
_TWO: dict[int, Callable[[int, int], int]] = {
    0x02: operator.add, 0x03: operator.sub, 0x04: operator.mul,
    0x05: _as_signed(_divided), 0x06: _divided, 0x07: _as_signed(_rest), 0x08: _rest,
    0x09: lambda first, count: first << min(count, 64),
    0x0A: lambda first, count: signed(first) >> min(count, 64),
    0x0B: lambda first, count: first >> min(count, 64),
    0x0F: operator.and_, 0x10: operator.or_, 0x11: operator.xor,
    0x13: operator.eq, 0x14: _as_signed(operator.lt), 0x15: operator.lt,
}
_SHIFTED, _AND, _EQUAL, _LESS, _LESS_UNSIGNED = 0x0B, 0x0F, 0x13, 0x14, 0x15
_LOG_NOT, _BIT_NOT = 0x0E, 0x12
_EXTEND, _ZERO_EXTEND = 0x16, 0x2A
_MEMORY = {0x17: 1, 0x18: 2, 0x19: 4, 0x1A: 8}  # bytes
_IF_GOTO, _GOTO = 0x20, 0x21
_CONSTANTS = {0x22: 1, 0x23: 2, 0x24: 4, 0x25: 8}
_BYTE, _ADDRESS = 0x22, 0x24
_REGISTER, _END = 0x26, 0x27
_DUP, _POP, _SWAP, _PICK, _ROTATE = 0x28, 0x29, 0x2B, 0x32, 0x33


def taken(code: Optional[int]) -> bytes:
    """Returns the expression that an exception was just taken, of a code or of any. Cause is read first, which takes less time. Its value
    is one alone, as the shell does not evaluate it again: the exception has 64 bits, and those of Cause that are used are its low ones."""
    exception, cause = (bytes([_REGISTER, *target.NUMBERS[name].to_bytes(2, "big")]) for name in (target.EXCEPTION, "cause"))
    if code is None:
        return exception + bytes([_BYTE, 0, _LESS, _LOG_NOT, _END])
    first = cause + bytes([_BYTE, 2, _SHIFTED, _BYTE, 31, _AND, _BYTE, code, _EQUAL])
    end = len(first) + 3 + 3
    return (first + bytes([_IF_GOTO, *end.to_bytes(2, "big"), _BYTE, 0, _END])
            + exception + bytes([_BYTE, code, _EQUAL, _END]))


_ZERO: Values = frozenset([0])  # the constant, which is this object alone: what is computed or extended is another one


class _Machine:
    """One evaluation, along all paths that the values of its jumps allow."""

    def __init__(self, code: bytes, known: Known) -> None:
        self.reads = False  # the code reads memory or a register
        self._code = code
        self._functions = code.functions if isinstance(code, Expression) else frozenset()
        self._known = known
        self._at = 0
        self._stack: list[Values] = []
        self._paths: list[tuple[int, list[Values]]] = []  # that begin at jumps which may go either way, each with its stack

    def run(self) -> Values:
        found: set[int] = set()
        for _ in range(MOST_STEPS):
            operation = self._number(1)
            if operation != _END:
                self._do(operation)
                if len(self._stack) > MOST_DEEP:
                    raise Failed("the condition needs too large a stack")
                continue
            found |= self._pop()
            if not self._paths:
                return found
            self._at, self._stack = self._paths.pop()
        raise Failed("the condition takes too long")

    def _do(self, operation: int) -> None:
        if operation in _TWO:
            second, first = self._pop(), self._pop()
            self._push(_TWO[operation](one, other) for one, other in product(first, second))
            if (first is _ZERO) != (second is _ZERO):
                self._compare_function(operation, second if first is _ZERO else first)
        elif operation in _MEMORY:
            self._load(_MEMORY[operation])
        elif operation in _CONSTANTS:
            self._constant(operation, self._number(_CONSTANTS[operation]))
        elif operation == _REGISTER:
            number = self._number(2)
            self._read(self._known.register(number), target.bits(number))
        elif operation in (_EXTEND, _ZERO_EXTEND):
            bits = min(self._number(1), 64)
            mask = (1 << bits) - 1
            self._push(signed(number, bits) if operation == _EXTEND and bits else number & mask for number in self._pop())
        elif operation in (_LOG_NOT, _BIT_NOT):
            self._push(not number if operation == _LOG_NOT else ~number for number in self._pop())
        elif operation in (_IF_GOTO, _GOTO):
            self._jump(self._number(2), operation == _GOTO)
        else:
            self._move(operation)

    def _constant(self, operation: int, number: int) -> None:
        """Pushes a constant. That of an address of 32 bits is extended either way, in place of the `ext 32` that follows it."""
        if operation == _ADDRESS and number >> 31 and self._code.startswith(bytes((_EXTEND, 32)), self._at):
            self._at += 2
            self._push([number, number | _UPPER])
        elif operation == _BYTE and not number:
            self._stack.append(_ZERO)
        else:
            self._push([number])

    def _compare_function(self, operation: int, others: Values) -> None:
        """Adds the reply of a comparison to the one with a constant 0: that of the function for which it may stand."""
        if operation == _LESS_UNSIGNED or operation == _EQUAL and not self._functions.isdisjoint(it & 0xFFFF_FFFF for it in others):
            self._push(self._pop() | {0, 1})

    def _load(self, size: int) -> None:
        """Replaces an address by what memory contains there. Its upper half does not count, so that it mostly is one number."""
        addresses = {address & 0xFFFF_FFFF for address in self._pop()}
        if len(addresses) > 1:
            raise Failed("the condition reads memory at an address that its extension changes")
        self._read(self._known.memory(addresses.pop(), size), 8 * size)

    def _read(self, number: int, bits: int) -> None:
        """Pushes a number that was read: one of 32 bits is extended either way."""
        self.reads = True
        number &= (1 << bits) - 1
        self._push([number, number | _UPPER] if bits == 32 and number >> 31 else [number])

    def _jump(self, place: int, is_always: bool) -> None:
        conditions = {True} if is_always else {bool(number) for number in self._pop()}
        if len(conditions) > 1:
            if len(self._paths) >= MOST_CHOICES:
                raise Failed("the condition has too many values")
            self._paths.append((self._at, list(self._stack)))
        if True in conditions:
            self._at = place

    def _move(self, operation: int) -> None:
        """Moves numbers on the stack."""
        if operation == _DUP:
            self._pick(0)
        elif operation == _POP:
            self._pop()
        elif operation == _SWAP:
            second, first = self._pop(), self._pop()
            self._stack += [second, first]
        elif operation == _PICK:
            self._pick(self._number(1))
        elif operation == _ROTATE:
            third, second, first = self._pop(), self._pop(), self._pop()
            self._stack += [third, first, second]
        else:
            raise Failed(f"the condition has the operation {operation:#04x}, which is not done here")

    def _number(self, size: int) -> int:
        """The next bytes of the code as a number, high byte first."""
        content = self._code[self._at:self._at + size]
        if len(content) < size:
            raise Failed("the condition ends too early")
        self._at += size
        return int.from_bytes(content, "big")

    def _push(self, numbers: Iterable[int]) -> None:
        found = frozenset(number & _WORD for number in numbers)
        if len(found) > MOST_CHOICES:
            raise Failed("the condition has too many values")
        self._stack.append(found)

    def _pop(self) -> Values:
        if not self._stack:
            raise Failed("the condition takes more from its stack than is there")
        return self._stack.pop()

    def _pick(self, depth: int) -> None:
        if depth >= len(self._stack):
            raise Failed("the condition takes more from its stack than is there")
        self._stack.append(self._stack[-1 - depth])
