"""What the devices hold, as text for people with names of bits."""
from __future__ import annotations

from typing import Any, Dict, Iterator, List, Tuple

from .limits import EXTERNAL_LINES
from .log import quoted
from .session import counted

Bits = Tuple[Tuple[str, int], ...]

# Of registers, the names of bits.
_CSR: Bits = (("TRDY", 0x8000), ("TIE", 0x4000), ("RDONE", 0x80), ("RIE", 0x40), ("MSE", 0x20), ("MAINT", 0x08))
_RBUF: Bits = (("OERR", 0x4000), ("FERR", 0x2000))
_A: Bits = (("UIP", 0x80),)
_B: Bits = (("SET", 0x80), ("PIE", 0x40), ("AIE", 0x20), ("UIE", 0x10), ("DM", 0x04), ("24/12", 0x02), ("DSE", 0x01))
_C: Bits = (("IRQF", 0x80), ("PF", 0x40), ("AF", 0x20), ("UF", 0x10))
_D: Bits = (("VRT", 0x80),)
_REGISTERS = (("A", 10, _A), ("B", 11, _B), ("C", 12, _C), ("D", 13, _D))
_RAM = 14  # from this register on the clock has only memory
_BINARY, _24_HOURS, _PM = 0x04, 0x02, 0x80
_SERIAL_LINE = 0x80  # of the board's lines


def text(found: Dict[str, Any]) -> Iterator[str]:
    """What the value of a reply to `devices` says, as lines."""
    serial = found["serial"]
    csr = serial["csr"]
    waiting = f", line {csr >> 8 & 3} waits for a byte to send" if csr & 0x8000 else ""
    yield f"serial part: CSR {_register(csr, _CSR, 4)}{waiting}; TCR {serial['tcr']:#06x}; MSR {serial['msr']:#06x}"
    yield f"  a byte is sent in {counted(serial['time'], 'step')}, the last one on line {serial['served']}"
    for number, line in enumerate(found["lines"]):
        yield f"  line {number}: {', '.join(_line(line, bool(serial['tcr'] >> number & 1)))}"
    silo = found["silo"]
    yield f"  silo: {counted(len(silo), 'byte')}" + (f", RBUF {serial['rbuf']:#06x} is next" if silo else "")
    for word in silo:
        yield f"    line {word >> 8 & 3}, {quoted([word & 0xFF])}{_names(word, _RBUF)}"
    yield from _clock(found["clock"])
    board = found["board"]
    enables, lines = board["csr"] >> 16 & 0xFF, board["csr"] & 0xFF
    yield f"board: CSR {board['csr']:#010x}; enabled: {_board(enables)}; up: {_board(lines)}; interrupt {_on(board['interrupt'])}"


def _line(line: Dict[str, Any], sends: bool) -> Iterator[str]:
    yield f"receiver {_on(line['receiver'])}"
    yield "may send" if sends else "may not send"
    if line["busy"]:
        yield f"is sending for {counted(line['busy'], 'step')} more"
    if line["lost"]:
        yield "a byte was lost"


def _clock(clock: Dict[str, Any]) -> Iterator[str]:
    registers: List[int] = clock["registers"]
    control = registers[11]

    def number(register: int) -> str:
        it = registers[register]
        is_pm = register in (4, 5) and not control & _24_HOURS and it & _PM
        it &= ~_PM if is_pm else 0xFF
        return (f"{it:02d}" if control & _BINARY else f"{it:02x}") + (" PM" if is_pm else "")

    time, alarm = (":".join(map(number, it)) for it in ((4, 2, 0), (5, 3, 1)))
    yield f"clock: {time}, alarm {alarm}, day {number(7)}, month {number(8)}, year {number(9)}, weekday {number(6)}"
    yield f"  {', '.join(f'{name} {_register(registers[at], bits, 2)}' for name, at, bits in _REGISTERS)}; interrupt {_on(clock['interrupt'])}"
    second, period = (f"in {counted(clock[it], 'step')}" if clock[it] is not None else "never" for it in ("second", "period"))
    yield f"  the second ends {second}, the period {period}"
    if any(registers[_RAM:]):
        yield f"  memory from register {_RAM} on: {bytes(registers[_RAM:]).hex(' ')}"


def _register(word: int, bits: Bits, digits: int) -> str:
    return f"{word:#0{digits + 2}x}{_names(word, bits)}"


def _names(word: int, bits: Bits) -> str:
    return "".join(f" {name}" for name, bit in bits if word & bit)


def _board(lines: int) -> str:
    names = [f"external line {it}" for it in range(EXTERNAL_LINES) if lines >> it & 1] + (["serial part"] if lines & _SERIAL_LINE else [])
    return ", ".join(names) or "none"


def _on(is_on: bool) -> str:
    return "on" if is_on else "off"
