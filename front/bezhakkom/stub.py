"""The remote serial protocol of gdb, over one run of the workbench."""
from __future__ import annotations

import fcntl
import os
import re
import shlex
import signal
import sys
from typing import Callable, Optional, Sequence

from . import agent, elf, gdb_stops, interrupts, listening, loading, memory, monitor, places, reloading, rescue, saved, target, through
from .arguments import Parser
from .errors import Interrupted, Problem, Unexpected
from .gdb_stops import MOST_WATCHED
from .installed import NAME
from .limits import RAM, ROM
from .motion import TRAP, Motion
from .rsp import PACKET_BYTES, Link
from .session import Session, counted
from .symbols import Symbols, symbols_of
from .travel import Watch

DESCRIPTION = f"""\
Serves a debugger by gdb's remote serial protocol, on standard input and output, or at a port. `{NAME} gdb` starts gdb
on it; docs/DEBUGGING.md says what another debugger needs.
"""

EPILOG = f"""\
Example, in gdb:

  target extended-remote | {NAME} stub --log examples/login/log examples/login/login.elf
"""

FEATURES = (b"PacketSize=%x;QStartNoAckMode+;qXfer:features:read+;ReverseStep+;ReverseContinue+;vContSupported+;"
            b"ConditionalBreakpoints+" % PACKET_BYTES)
OK, FAILED, NOT_KNOWN, GONE = b"OK", b"E01", b"", b"W00"
CODE, CODE_IN_HARDWARE, WRITE = range(3)  # of the kinds of breakpoints and watches; the others watch reads

ELF_FILE = "elf-file"  # of `monitor`: names the ELF of the present image, for front/bezhakkom/in_gdb.py
STOPS = "session-stops"  # of `monitor`: lists the stops of the session for gdb, each after `plain` or `text`
LEAVES = "leaves"  # of `monitor`: the user leaves the debugger, and unsaved edits with it
NEXT_RUN = "next-run "  # of `monitor`: the next continue runs the line after it, so that it is shown and ended as a run is

MANY_BACK = 500
SLOW_BACK = (f"\n[gdb steps back one instruction at a time, {MANY_BACK} up to here. Ctrl-C ends that. `reverse-next` passes over calls, "
             "`reverse-continue` to a breakpoint goes back at once, and `reverse-finish` leaves a function.]\n")

NOT_WRITTEN = ("registers can't be written: they follow from the image and the log, which can be edited. "
               "To run other code, patch it; to call a function, let the program call it")


class Malformed(Exception):
    """A packet that says nothing."""


class Stub:
    """Answers packets, one by one."""

    def __init__(self, session: Session, link: Link, *, exceptions_whole: bool = False,
                 tell: Callable[[str], None] = loading.say) -> None:
        self._session = session
        self._driver = driver = session.driver
        self._link = link
        self._tell = tell  # for the sentences that gdb doesn't show: it shows what a stub writes to standard error
        self._motion = Motion(driver, link, exceptions_whole=exceptions_whole)
        self._steps_ranges = not exceptions_whole
        self._breakpoints: dict[tuple[int, int], list[bytes]] = {}  # conditions by kinds and addresses
        self._killed = False  # the debugger may start the run again
        self._ended = False
        self.is_left = False  # the user leaves, and knows what is not saved
        self._functions: Optional[tuple[Symbols, frozenset[int]]] = None  # their addresses, by the symbols of an image
        self._places: dict[int, int] = {}  # where watched addresses led last
        self._loaded = False  # memory was written since the last run
        self._next_run = ""  # a line of `monitor` that the next continue runs
        self._back_steps = 0  # steps back in a row
        self._on_disk = reloading.OnDisk(session)
        self._told: list[str] = []  # changed files that were named
        self._elf_file = reloading.ElfFile(session)
        # The position and the number of edits that gdb knows of: `monitor` moves and edits without gdb.
        self._known: Optional[tuple[int, int]] = None
        driver.wants_stop = self._motion.wants_stop

    def show_progress(self) -> None:
        self._motion.show_progress()

    def serve(self) -> None:
        """Answers until the debugger goes."""
        while not self._ended:
            packet = self._link.receive()
            if packet is None:
                return
            reply = self._reply(packet)
            if reply is not None:
                self._link.send(reply)

    def _reply(self, packet: bytes) -> Optional[bytes]:
        """The reply to a packet, if it has one."""
        begin = next((begin for begin in ANSWERS if packet.startswith(begin)), None)
        if begin is None:
            return NOT_KNOWN
        self._motion.interrupts.begin()
        try:
            reply = ANSWERS[begin](self, packet[len(begin):])
            if begin in MOVES:
                self._known = self._here()
                self._back_steps = self._back_steps if begin == b"bs" else 0
                self._tell_of_changes()
            return reply
        except Interrupted:
            self._end_early()
            return FAILED
        except Problem as problem:
            self._tell(str(problem))
            return FAILED
        except Malformed:
            return FAILED
        except ConnectionError:
            raise  # the debugger is gone
        except Exception as error:  # a fault of this program must not cost the session with its edits
            self._tell(f"{Unexpected(error)}; the session goes on")
            return FAILED

    def _end_early(self) -> None:
        """Ends a run that Ctrl-C ended. Where it was not made yet it can't be shown at once."""
        self._driver.goto(min(self._driver.position, self._driver.made))
        self._tell(f"interrupted; at position {self._driver.position:,}")

    def _here(self) -> tuple[int, int]:
        return self._driver.position, len(self._driver.journal)

    def _tell_of_changes(self) -> None:
        """Names the files that were written since they were loaded, each change once."""
        changed = self._on_disk.changed()
        for name in changed:
            if name not in self._told:
                is_image = self._session.origin and name == self._session.origin.image
                self._tell(f"{name} has changed on disk, and this is a run of what it was: "
                           + ("`run` or `load` loads it, and keeps the log" if is_image else "start again to read its symbols"))
        self._told = list(changed)

    # What the stub is

    def _features(self, rest: bytes) -> bytes:
        return FEATURES

    def _no_acknowledgements(self, rest: bytes) -> bytes:
        self._link.acknowledging = False
        return OK

    def _description(self, rest: bytes) -> bytes:
        first, count = _numbers(b"N,N", rest)
        whole = target.description()
        return (b"m" if first + count < len(whole) else b"l") + whole[first:first + count]

    def _why_stopped(self, rest: bytes) -> bytes:
        return GONE if self._killed else TRAP

    def _attached(self, rest: bytes) -> bytes:
        return b"1"

    def _ok(self, rest: bytes) -> bytes:
        return OK

    # Registers and memory

    def _registers(self, rest: bytes) -> bytes:
        return target.all_text(target.values(self._driver))

    def _register(self, rest: bytes) -> bytes:
        number, = _numbers(b"N", rest)
        if number >= len(target.NAMES):
            raise Malformed
        if target.NAMES[number] == target.EXCEPTION:
            return target.text({target.EXCEPTION: target.last_exception(self._driver)}, number)
        return target.text(target.values(self._driver), number)

    def _set_registers(self, rest: bytes) -> bytes:
        if rest.lower() != self._registers(b""):
            raise Problem(NOT_WRITTEN)
        return OK

    def _set_register(self, rest: bytes) -> bytes:
        _numbers(b"N=N", rest)
        number, _, value = rest.partition(b"=")
        if value.lower() == self._register(number):
            return OK
        if int(number, 16) != target.NUMBERS["pc"] or not self._loaded or self._driver.position:
            raise Problem(NOT_WRITTEN)
        self._begin_at(_address(int.from_bytes(_from_digits(value), "little")))
        return OK

    def _begin_at(self, entry: int) -> None:
        """Takes the PC that gdb sets at the end of `load`. The machine begins at the reset vector all the same, from where the
        image's jump to the entry leads on, if it has one."""
        places.physical(self._driver, entry)
        vector = range(ROM.start, ROM.start + 16, 4)
        words = [self._driver.boot().word(place) for place in vector]
        high, low = (words[0] or 0) & 0xFFFF, (words[1] or 0) & 0xFFFF
        if tuple(words) == elf.jump_to(high << 16 | low):
            self._driver.values([f"patch {place} {word}" for place, word in zip(vector, elf.jump_to(entry))])

    def _read(self, rest: bytes) -> bytes:
        address, count = _numbers(b"A,N", rest)
        content = memory.read(self._driver, address, min(count, PACKET_BYTES // 2))
        return content.hex().encode() if content or not count else FAILED

    def _write_digits(self, rest: bytes) -> bytes:
        place, _, digits = rest.partition(b":")
        return self._write(place + b":" + _from_digits(digits))

    def _write(self, rest: bytes) -> bytes:
        place, _, content = rest.partition(b":")
        address, count = _numbers(b"A,N", place)
        if count != len(content):
            raise Malformed
        with self._session.editing(f"a write of {counted(len(content), 'byte')} at {address:#010x}"):
            memory.write(self._driver, address, content)
        self._loaded = True
        return OK

    # Where a run is to stop

    def _insert(self, rest: bytes) -> bytes:
        place, *more = rest.split(b";")
        kind, address, size = _numbers(b"N,A,N", place)
        if kind in (CODE, CODE_IN_HARDWARE):
            if address % 4:
                raise Problem(f"no instruction is at {address:#010x}: the address of one is a multiple of 4")
            self._breakpoints[kind, address] = [self._condition(code) for part in more for code in _expressions(part)]
            self._set_breakpoints()
        elif kind == WRITE:
            self._motion.stops.watches.add(self._watch(address, size))
        else:
            raise Problem("reads can't be watched, as the workbench notes stores alone: use `watch`")
        return OK

    def _condition(self, code: bytes) -> agent.Expression:
        symbols = self._session.symbols
        if self._functions is None or self._functions[0] is not symbols:
            self._functions = symbols, frozenset(symbols.address(name) or 0 for name in symbols.names())
        made = agent.Expression(code)
        made.functions = self._functions[1]
        return made

    def _remove(self, rest: bytes) -> bytes:
        kind, address, size = _numbers(b"N,A,N", rest)
        stops = self._motion.stops
        self._breakpoints.pop((kind, address), None)
        self._set_breakpoints()
        stops.watches = {watch for watch in stops.watches if kind != WRITE or (watch.address, watch.size) != (address,
                                                                                                              size)}
        return OK

    def _set_breakpoints(self) -> None:
        """Gives the run its breakpoints. Of the two kinds at one address either stops it."""
        stops = self._motion.stops
        stops.breakpoints = {address for _, address in self._breakpoints}
        plain = {address for (_, address), expressions in self._breakpoints.items() if not expressions}
        conditions: dict[int, list[bytes]] = {}
        for (_, address), expressions in self._breakpoints.items():
            if address not in plain:
                conditions.setdefault(address, []).extend(expressions)
        stops.conditions = conditions

    def _watch(self, address: int, size: int) -> Watch:
        """A watch at a virtual address. Where that leads nowhere now it is watched where it led before."""
        leads = self._driver.physical(address)
        place = places.physical(self._driver, address) if leads is not None else self._places.get(address)
        if place is None:
            raise Problem(f"it can't be watched yet: {places.why_nowhere(self._driver, address)}")
        if not (place + size - 1 in RAM or place + size - 1 in ROM):
            raise Problem(f"no memory stands at {address + size - 1:#010x}")
        if size > MOST_WATCHED or address % memory.PAGE + size > memory.PAGE:
            raise Problem(f"a watch has at most {MOST_WATCHED:,} bytes, all in one page: watch a part of it")
        self._places[address] = place
        return Watch(address, size, place)

    # Runs

    def _continue(self, rest: bytes) -> bytes:
        return self._from_here(rest, self._go_on)

    def _go_on(self) -> bytes:
        """A run to the next stop, or to where a line of `monitor` goes on to."""
        line, self._next_run = self._next_run, ""
        if not line:
            return self._motion.go_on(self._session.idle, from_here=self._known == self._here())
        return self._motion.obey(lambda: monitor.refusal(self._session, line, lambda shown: None))

    def _step(self, rest: bytes) -> bytes:
        return self._from_here(rest, self._motion.step)

    def _from_here(self, rest: bytes, move: Callable[[], bytes]) -> bytes:
        """A move. The debugger must not give an address to begin at."""
        if rest:
            raise Problem(NOT_WRITTEN)
        self._loaded = False
        return move()

    def _continue_back(self, rest: bytes) -> bytes:
        return self._motion.go_back()

    def _step_back(self, rest: bytes) -> bytes:
        self._back_steps += 1
        if self._back_steps == MANY_BACK:
            self._say(SLOW_BACK)
        return self._motion.step_back()

    def _actions(self, rest: bytes) -> bytes:
        return b"vCont;c;C;s;S" + (b";r" if self._steps_ranges else b"")

    def _resume(self, rest: bytes) -> bytes:
        """The first action of a list: there is one thread, so there is one action."""
        self._loaded = False
        action = rest.split(b";")[0].split(b":")[0]
        if action[:1] in (b"c", b"C"):
            return self._go_on()
        if action[:1] in (b"s", b"S"):
            return self._motion.step()
        first, end = _numbers(b"rA,A", action)
        return self._motion.leave(range(first, end, 4))

    def _run(self, rest: bytes) -> bytes:
        """Starts again, at the position that is the first word after the file's name. An image that was built again is loaded first."""
        self._load_changed()
        words = [_from_digits(word).decode("latin-1") for word in rest.split(b";")[1:]]
        self._driver.goto(self._session.number(words[0]) if words else 0)
        self._killed, self._next_run = False, ""
        try:
            self._driver.registers()  # gdb asks for much when a run starts, and takes no answer that is refused
        except Interrupted:
            self._end_early()
            self._motion.interrupts.end_next()
        return TRAP

    def _load_changed(self) -> None:
        """Loads the image if its file has changed, or fails with the reason why that is not possible."""
        origin = self._session.origin
        if origin is None or origin.image not in self._on_disk.changed():
            return
        refusal = monitor.refusal(self._session, f"load {shlex.quote(origin.image)}", self._tell)
        if refusal:
            raise Problem(f"{origin.image} has changed on disk and can't be loaded: {refusal}")
        self._on_disk.changed()

    def _kill(self, rest: bytes) -> bytes:
        self._killed = True
        return OK

    def _end(self, rest: bytes) -> bytes:
        self._ended = True
        return OK

    def _command(self, rest: bytes) -> bytes:
        line = _from_digits(rest).decode("utf-8", "surrogateescape")
        if line == LEAVES:
            self.is_left = True
            return OK
        if line == ELF_FILE:
            self._say(self._elf_file.text(self._on_disk.changed()))
            return OK
        if line == STOPS:
            stops = self._session.stops_of_gdb
            self._say("".join(f"{'plain' if gdb_stops.is_plain(it) else 'text'} {it}\n" for it in stops))
            return OK
        if not line.startswith(NEXT_RUN):
            self._say(monitor.answer(self._session, line))
            self._on_disk.changed()  # a `load` reads what is on disk
            return OK
        line = line[len(NEXT_RUN):]
        if line.split()[:1] == ["until"]:
            self._say(self._until(line.split()[1:]))
        else:
            self._next_run = line
        return OK

    def _say(self, text: str) -> None:
        self._motion.say(text.encode("utf-8", "surrogateescape"))

    def _until(self, words: Sequence[str]) -> str:
        """Lets the next run end at a position, or says why that can't be."""
        try:
            if len(words) != 1:
                raise Problem("usage: until N")
            self._motion.go_until(self._session.number(words[0]))
        except Problem as problem:
            return f"{monitor.REFUSED}{problem}\n"
        return ""


Answer = Callable[[Stub, bytes], bytes]

# The answers, by the beginning of a packet. A longer beginning stands before a shorter one that it starts with.
ANSWERS: dict[bytes, Answer] = {
    b"qSupported": Stub._features,
    b"QStartNoAckMode": Stub._no_acknowledgements,
    b"qXfer:features:read:target.xml:": Stub._description,
    b"qAttached": Stub._attached,
    b"qRcmd,": Stub._command,
    b"vCont?": Stub._actions,
    b"vCont;": Stub._resume,
    b"vRun;": Stub._run,
    b"vKill": Stub._kill,
    b"!": Stub._ok,
    b"?": Stub._why_stopped,
    b"H": Stub._ok,
    b"g": Stub._registers,
    b"G": Stub._set_registers,
    b"p": Stub._register,
    b"P": Stub._set_register,
    b"m": Stub._read,
    b"M": Stub._write_digits,
    b"X": Stub._write,
    b"Z": Stub._insert,
    b"z": Stub._remove,
    b"bc": Stub._continue_back,
    b"bs": Stub._step_back,
    b"c": Stub._continue,
    b"s": Stub._step,
    b"D": Stub._end,
    b"k": Stub._end,
}

# After the answers to these gdb has the position: those that move, and the one that reports a stop.
MOVES = frozenset((b"vCont;", b"vRun;", b"?", b"bc", b"bs", b"c", b"s"))


def _numbers(form: bytes, text: bytes) -> list[int]:
    """Returns the hexadecimal numbers of a packet. In its form `A` stands for an address and `N` for another number. Fails with `Malformed`
    if the packet has another form."""
    match = re.fullmatch(re.sub(rb"[AN]", rb"([0-9a-fA-F]{1,16})", form), text)
    if not match:
        raise Malformed
    kinds = re.findall(rb"[AN]", form)
    numbers = [int(word, 16) for word in match.groups()]
    return [_address(number) if kind == b"A" else number for kind, number in zip(kinds, numbers)]


def _address(number: int) -> int:
    """Returns the 32 bits of an address. gdb sign-extends addresses of MIPS to 64 bits, and masks them in some packets only."""
    return number & 0xFFFF_FFFF


def _expressions(text: bytes) -> list[bytes]:
    """The agent expressions of a breakpoint: each stands after its size."""
    if not re.fullmatch(rb"(?:X[0-9a-fA-F]{1,8},[0-9a-fA-F]*)*", text):
        raise Malformed
    found = [(int(size, 16), _from_digits(digits)) for size, digits in re.findall(rb"X([0-9a-fA-F]+),([0-9a-fA-F]*)", text)]
    if any(size != len(code) for size, code in found):
        raise Malformed
    return [code for _, code in found]


def _from_digits(digits: bytes) -> bytes:
    if len(digits) % 2 or not re.fullmatch(rb"[0-9a-fA-F]*", digits):
        raise Malformed
    return bytes.fromhex(digits.decode())


def open_session(session: Session, commands: Sequence[str]) -> None:
    """Makes what a session made. Its stops are kept as gdb's lines, for a debugger that asks for them."""
    for command in commands:
        why = monitor.refusal(session, command, tell=lambda shown: None, of_gdb=True)
        if why:
            loading.say(f"the session's line `{command}` fails: {why}")
    session.stops_of_gdb[:0] = [line for it in session.marks for line in (
        it.catch.lines_of_gdb() if it.catch else gdb_stops.lines(it.address, it.watch.size if it.watch else None))]
    session.marks.clear()
    session.saved_log, session.saved_patches = list(session.driver.log), list(session.driver.patches)


def parser() -> Parser:
    made = Parser("stub", "[OPTIONS] [--through] [--progress] [--listen HOST:PORT] IMAGE", DESCRIPTION, EPILOG)
    made.add_argument("image", metavar="IMAGE", help="what the machine starts from, or a session that `save` made")
    loading.add_options(made)
    through.add_option(made)
    made.add_argument("--progress", action="store_true", help="shows how far long runs are, for a debugger on a terminal")
    made.add_argument("--listen", metavar="HOST:PORT",
                      help="takes debuggers at a port, one at a time. Without HOST it can be reached from this machine alone; with "
                           "port 0 a free one is taken")
    return made


def main(arguments: Sequence[str]) -> int:
    """Serves one debugger on standard input and output, or debuggers at a port."""
    line = parser().read(arguments)
    whole, where = line.through, line.listen
    if where is None and not (_is_open(0, os.O_RDONLY) and _is_open(1, os.O_WRONLY)):
        raise Problem("a stub wants a debugger at standard input and output, or --listen HOST:PORT")
    with saved.opened(loading.Opening.of(line, line.image)) as found, loading.running(found.opening) as driver:
        session = Session(driver, symbols_of(driver.image), origin=found.origin, saved_log=list(driver.log))
        open_session(session, found.commands)
        is_of_gdb = interrupts.VARIABLE in os.environ  # `bin/wb gdb` has started the debugger, and outlives it
        with rescue.kept(session.unsaved_text, line.image, is_silent=is_of_gdb) as reason:
            if where is not None:
                reason.text = "the stub has ended"
                _listen(session, where, whole)
                reason.text = "ended by Ctrl-C"
                return 0
            stub = Stub(session, Link(sys.stdin.fileno(), sys.stdout.fileno()), exceptions_whole=whole)
            if line.progress:
                stub.show_progress()
            # The stub gets no signal of gdb's terminal, from which gdb keeps it apart. And gdb detaches also if a signal ends it.
            reason.text = "the debugger has ended"
            stub.serve()
            if stub.is_left:
                reason.text = ""
    return 0


def _is_open(descriptor: int, wanted: int) -> bool:
    """Whether a standard stream is one that was there: one that was closed is opened the wrong way round."""
    mode = fcntl.fcntl(descriptor, fcntl.F_GETFL) & os.O_ACCMODE
    return mode in (os.O_RDWR, wanted)


def _listen(session: Session, where: str, exceptions_whole: bool) -> None:
    """Serves debuggers until Ctrl-C."""
    if not listening.is_loopback(where):
        loading.say("whoever reaches this port can write files as you, by `monitor save-log FILE`")
    # Not the default one, under which Ctrl-C would end a run alone.
    signal.signal(signal.SIGINT, _interrupt)
    try:
        for connection in listening.debuggers(where, loading.say):
            try:
                Stub(session, Link(connection.fileno(), connection.fileno()), exceptions_whole=exceptions_whole).serve()
            except ConnectionError:
                pass  # as if it had left
    except KeyboardInterrupt:
        pass


def _interrupt(number: int, frame: object) -> None:
    signal.signal(number, signal.SIG_IGN)  # what is not saved is kept now, and another one is to change nothing
    raise KeyboardInterrupt
