"""Commands of the shell that show what the machine holds, and what happened before."""
from __future__ import annotations

import json

from . import devices, expressions, memory
from .commands import BEFORE, HOLDS, SERIAL, command
from .errors import Problem
from .exceptions import TEXTS
from .expressions import REGISTERS, register_number
from .limits import LINES, WORDS
from .log import Event, Kind
from .places import UNMAPPED
from .session import Session, counted, distance

# How many are shown where the line has no number.
_INSTRUCTIONS = 8
_MEMORY_BYTES = 64
_LINE_BYTES = 16
_EVENTS = 16


@command("regs", "shows the processor", HOLDS)
def regs(session: Session, words: list[str]) -> None:
    state = session.driver.registers()
    pending = f"  r{state.load[0]} will be {state.load[1]:#010x}" if state.load else ""
    slot = "  delay slot" if state.delay else ""
    session.tell(f"pc {session.address(state.pc)}  next {session.address(state.next_pc)}"
                 f"  hi {state.hi:#010x}  lo {state.lo:#010x}{slot}{pending}")
    for first in range(0, 32, 4):
        session.tell("  ".join(f"{f'r{it}':>3} {REGISTERS[it]:4} {state.general[it]:#010x}" for it in range(first, first + 4)))


@command("reg K", "shows a register, by its number or name", HOLDS)
def reg(session: Session, words: list[str]) -> None:
    name = words[0]
    place = register_number(name)
    if place is None and name.lstrip("$") not in expressions.names():
        place = session.number(name)
        if not 0 <= place < 32:
            raise Problem(f"there is no register {name}: they are 0 to 31, or {' '.join(REGISTERS)}")
    value = session.driver.registers().general[place] if place is not None else session.number("$" + name.lstrip("$"))
    _show_number(session, REGISTERS[place] if place is not None else name, value)


@command("print N", "shows what a number is: print main+4, print sp, print 'a'", HOLDS)
def print_(session: Session, words: list[str]) -> None:
    _show_number(session, words[0], session.number(words[0]))


def _show_number(session: Session, name: str, value: int) -> None:
    character = f"  {chr(value)!r}" if 32 <= value < 127 else ""
    symbol = f"  <{session.symbols.name(value)}>" if session.symbols.name(value) else ""
    session.tell(f"{name} = {value & 0xFFFF_FFFF:#010x}  {value:,}{character}{symbol}")


@command("cp0", "shows the control registers, and what Status and Cause say", HOLDS)
def cp0(session: Session, words: list[str]) -> None:
    control = session.driver.control()
    shown = [f"{name:>8} {word:#010x}" for name, word in control.items()]
    for first in range(0, len(shown), 5):
        session.tell("  ".join(shown[first:first + 5]))
    status, cause = control["status"], control["cause"]
    session.tell(f"{'user' if status & 2 else 'kernel'} mode, interrupts {'on' if status & 1 else 'off'}")
    if control["epc"]:
        session.tell(f"the last exception: {dict(enumerate(TEXTS)).get(cause >> 2 & 31, 'unknown')}, at {session.address(control['epc'])}"
                     f"{' in its delay slot' if cause >> 31 else ''}")


@command("devices [--json]", "shows what the serial part, the clock and the board hold, without reading them", HOLDS)
def devices_(session: Session, words: list[str]) -> None:
    if words not in ([], ["--json"]):
        raise Problem("usage: devices [--json]")
    found = session.driver.devices()
    for line in [json.dumps(found)] if words else devices.text(found):
        session.tell(line)


@command("tlb [I]", "shows translation entry I, or those that are valid", HOLDS)
def tlb(session: Session, words: list[str]) -> None:
    if words:
        session.tell(session.driver.value(f"tlb {session.number(words[0])}")[0])
        return
    shown = [lines[0] for lines in session.driver.values([f"tlb {it}" for it in range(64)])]
    valid = [it for it in shown if int(it.split()[3], 16) & 0x200]
    for it in valid or ["no entry is valid"]:
        session.tell(it)


@command("where A", "shows where a virtual address leads", HOLDS)
def where(session: Session, words: list[str]) -> None:
    address = session.number(words[0])
    found = session.driver.where(address)
    leads = f"physical {found.physical:#010x}, {found.kind}" if found.physical is not None else UNMAPPED[found.kind]
    session.tell(f"{session.address(address)}: {leads}")


@command("mem A [C]", "shows C words of memory from virtual address A on", HOLDS)
def mem(session: Session, words: list[str]) -> None:
    address, _ = session.word_at(words[0])
    size = 4 * session.number(words[1]) if len(words) > 1 else _MEMORY_BYTES
    content = memory.read(session.driver, address, size)
    for at in range(0, len(content), _LINE_BYTES):
        part = content[at:at + _LINE_BYTES]
        shown = " ".join(f"{int.from_bytes(part[it:it + 4], 'little'):#010x}" for it in range(0, len(part), 4))
        text = "".join(chr(it) if 32 <= it < 127 else "." for it in part)
        session.tell(f"{session.address(address + at)}: {shown}  |{text}|")
    if len(content) < size:
        session.physical(address + len(content))


@command("dis [A] [C]", "shows C instructions from virtual address A on, or from the next one", HOLDS)
def dis(session: Session, words: list[str]) -> None:
    pc = session.driver.registers().pc
    at = session.word_at(words[0])[0] if words else pc
    end = at + 4 * (session.number(words[1]) if len(words) > 1 else _INSTRUCTIONS)
    while at < end:
        physical = session.physical(at)
        # The next page may be elsewhere.
        size = min(WORDS, (end - at) // 4, (memory.PAGE - at % memory.PAGE) // 4)
        for line in session.driver.value(f"dis {physical} {size}"):
            _, word, text = line.split(None, 2)
            mark = "=>" if at == pc else "  "
            session.tell(f"{mark} {session.address(at)}: {word}  {session.symbols.retargeted(at, physical, text)}")
            at, physical = at + 4, physical + 4


@command("symbols [TEXT]", "lists the symbols that have TEXT in their names", HOLDS)
def symbols(session: Session, words: list[str]) -> None:
    found = [it for it in session.symbols.names() if not words or words[0] in it]
    for name in found:
        session.tell(f"{session.symbols.address(name):#010x} {name}")
    if not found:
        session.tell("there are none; an ELF has them, and a source has its labels")


# What happened before

@command("writer A", "shows what wrote the word at virtual address A last, or, as in `writer $a0`, a register", BEFORE)
def writer(session: Session, words: list[str]) -> None:
    if words[0].startswith("$"):
        step = session.driver.register_writer(expressions.written(words[0]))
        session.tell(f"no step before this position wrote {words[0]}" if step is None else session.step(step))
        return
    address, physical = session.word_at(words[0])
    found = session.driver.writer(physical)
    if found.step is not None:
        session.tell(session.step(found.step))
    elif found.kind == "image":
        session.tell(f"{session.address(address)} holds what the image sets; no step before this position stored there")
    else:
        session.tell(f"no step before this position stored at {session.address(address)}, and the image does not set it")


@command("console [L] [F] [C]", "shows what line L sent as text: C bytes from place F on, or all", SERIAL)
def console(session: Session, words: list[str]) -> None:
    numbers = [session.number(it) for it in words]
    if not numbers:
        sent = {line: session.driver.console(line) for line in range(LINES)}
        for line, content in sent.items():
            if content:
                _show_console(session, f"line {line} sent {counted(len(content), 'byte')}:", content)
        if not any(sent.values()):
            session.tell("nothing was sent before this position")
        return
    content = session.driver.console(numbers[0], *numbers[1:2])
    content = content[:numbers[2]] if len(numbers) > 2 else content
    _show_console(session, "" if content else f"line {numbers[0]} sent nothing there before this position", content)


def _show_console(session: Session, heading: str, content: bytes) -> None:
    if heading:
        session.tell(heading)
    for line in text_of(content).splitlines():
        session.tell(line)


def text_of(content: bytes) -> str:
    """Bytes as text: line ends end lines, and other bytes that are no characters are shown as \\xNN."""
    text = content.replace(b"\r\n", b"\n").replace(b"\n\r", b"\n")
    return "".join(chr(it) if it == 10 or 32 <= it < 127 else f"\\x{it:02x}" for it in text)


@command("find L P", "shows the step that sent the byte at place P of line L", SERIAL)
def find(session: Session, words: list[str]) -> None:
    session.tell(session.step(session.driver.find(session.number(words[0]), session.number(words[1]))))


@command("log [F] [C]", "shows C events of the log from number F on, or those around the position", SERIAL)
def log(session: Session, words: list[str]) -> None:
    events, here = session.driver.log, session.driver.position
    count = session.number(words[1]) if len(words) > 1 else _EVENTS
    next_one = next((number for number, it in enumerate(events) if it.time >= here), len(events))
    first = session.number(words[0]) if words else max(0, min(next_one - count // 2, len(events) - count))
    if first < 0 or count < 0:
        raise Problem("the number of an event, and how many are shown, are 0 or more")
    session.tell(f"{counted(len(events), 'event')}, {next_one:,} before this position")
    for number, it in enumerate(events[first:first + count], first):
        session.tell(f"{number:6}: step {it.time:,}, {_what(it)}, {distance(it.time, here)}")


def _what(event: Event) -> str:
    """`line 0, 0x41 'A'`, `external line 0 gets 1`."""
    if event.kind == Kind.WIRE:
        return f"external line {event.line} gets {event.byte}"
    character = f" {chr(event.byte)!r}" if 32 <= event.byte < 127 else ""
    return f"line {event.line}, {event.byte:#04x}{character}" + (" with a framing error" if event.kind == Kind.FRAMING else "")
