"""The registers as gdb knows them: their order, the target description, and their bytes.

gdb wants the features of a MIPS processor, the floating-point unit among them, which this machine lacks: its registers
are 0, as gdb ends a list at one that has no value. The project's own feature has what a MIPS description has no name for.
"""

from __future__ import annotations

from . import tracing
from .driver import Driver
from .replies import Registers

GENERAL = [f"r{number}" for number in range(32)]
FLOATING = [f"f{number}" for number in range(32)] + ["fcsr", "fir"]
CONTROL = ["index", "random", "entrylo", "context", "entryhi", "epc", "prid"]
EXCEPTION = "exception"  # the last one of all: it is read alone, when it is needed
OWN = ["position", "nextpc", "delay", "loadreg", "loadval", *CONTROL, EXCEPTION]
NAMES = [*GENERAL, "status", "lo", "hi", "badvaddr", "cause", "pc", *FLOATING, *OWN]
NUMBERS = {name: number for number, name in enumerate(NAMES)}
FEATURES = {
    "org.gnu.gdb.mips.cpu": [*GENERAL, "lo", "hi", "pc"],
    "org.gnu.gdb.mips.cp0": ["status", "badvaddr", "cause"],
    "org.gnu.gdb.mips.fpu": FLOATING,
    # gdb prints the first two of these in rows of their own if they have 64 bits, and the others in columns, one of which `exception`
    # would fill up to its neighbour.
    "bezhakkom.workbench": [OWN[0], EXCEPTION, *OWN[1:-1]],
}
POINTERS = {"pc": "code_ptr", "nextpc": "code_ptr", "epc": "code_ptr"}
UNSIGNED = {"position", "delay", "loadreg"}
BITS = {"position": 64, EXCEPTION: 64}  # all others have 32

NO_EXCEPTION = -1


def description() -> bytes:
    """The target description. The numbers are those that gdb gives a MIPS processor without one."""
    lines = ['<?xml version="1.0"?>', '<!DOCTYPE target SYSTEM "gdb-target.dtd">', "<target>"]
    lines += ["<architecture>mips:3000</architecture>", "<osabi>none</osabi>"]
    for feature, names in FEATURES.items():
        lines.append(f'<feature name="{feature}">')
        lines += [_register(name) for name in names]
        lines.append("</feature>")
    return "\n".join([*lines, "</target>", ""]).encode()


def _register(name: str) -> str:
    size = bits(NUMBERS[name])
    kind = POINTERS.get(name, f"uint{size}" if name in UNSIGNED else f"int{size}" if size > 32 else "int")
    group = ' group="float"' if name in FLOATING else ""
    return f'<reg name="{name}" bitsize="{size}" type="{kind}" regnum="{NUMBERS[name]}"{group}/>'


def values(driver: Driver) -> dict[str, int]:
    """All registers at the position, each by the name that the description gives it, but the exception."""
    return {**dict.fromkeys(FLOATING, 0), **driver.control(), **processor(driver.registers()), "position": driver.position}


def processor(registers: Registers) -> dict[str, int]:
    """Those that the processor has, besides those of coprocessor 0."""
    load_register, load_value = registers.load or (0, 0)
    others = {"pc": registers.pc, "nextpc": registers.next_pc, "hi": registers.hi, "lo": registers.lo,
              "delay": int(registers.delay), "loadreg": load_register, "loadval": load_value}
    return {**dict(zip(GENERAL, registers.general)), **others}


def exception(line: str) -> int:
    """The code of the exception that a step took, as `trace` says what it did."""
    found = tracing.read(line).exception
    return NO_EXCEPTION if found is None else found


def last_exception(driver: Driver) -> int:
    """The same of the step before the position."""
    here = driver.position
    if not here:
        return NO_EXCEPTION
    try:
        return exception(driver.values([f"goto {here - 1}", "trace 1"])[1][0])
    finally:
        driver.goto(here)


def bits(number: int) -> int:
    """Returns how many bits the register of a number has."""
    return BITS.get(NAMES[number], 32)


def text(registers: dict[str, int], number: int) -> bytes:
    """The hexadecimal digits of a register, low byte first."""
    size = bits(number)
    return (registers[NAMES[number]] & (1 << size) - 1).to_bytes(size // 8, "little").hex().encode()


def all_text(registers: dict[str, int]) -> bytes:
    """Those of all registers but the exception."""
    return b"".join(text(registers, NUMBERS[name]) for name in NAMES if name != EXCEPTION)
