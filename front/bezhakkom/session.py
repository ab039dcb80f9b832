"""What the shell knows while it runs: the driver, symbols, stops and edits; and how steps and addresses are shown to people."""
from __future__ import annotations

from contextlib import contextmanager
from dataclasses import dataclass, field, replace
from typing import Callable, Iterator, Optional

from . import expressions, gdb_stops, places, saved
from .driver import Driver
from .errors import Problem
from .exceptions import Catch
from .idle import IDLE_STEPS
from .lines import Line
from .log import Event
from .printable import show
from .saved import Origin, lines_of_edit
from .saving import Seen
from .symbols import Symbols
from .travel import Watch


@dataclass(frozen=True)
class Mark:
    """A breakpoint, a watch or a catch, with the number by which people know it. One that was made by a name, such as `read_line`,
    `login.c:44` or `session+0x20`, moves with it: `place` is the name, and `which` the index of the address among those of the name."""

    number: int
    text: str
    address: int = 0  # of a breakpoint or a watch
    watch: Optional[Watch] = None
    catch: Optional[Catch] = None
    place: str = ""
    which: int = 0
    has_size: bool = False  # a watch of as many bytes as were asked for; others have those of the symbol


@dataclass(frozen=True)
class Edit:
    """What stood before an edit, the line that made it, and the commands that this was for the workbench."""

    line: str
    log: list[Event]
    patches: list[tuple[int, int]]
    made: list[str]
    symbols: Symbols
    origin: Optional[Origin]


@dataclass(frozen=True)
class Paused:
    """An `expect` that paused at a position, and from which place of the line on it looks for its text."""

    line: int
    text: bytes
    first: int
    position: int


@dataclass
class Session:
    """A debugger on one run. `tell` takes what is shown, line by line."""

    driver: Driver
    symbols: Symbols
    tell: Callable[[str], None] = show
    marks: list[Mark] = field(default_factory=list)
    stops_of_gdb: list[str] = field(default_factory=list)  # kept for a session that gdb opens, as gdb's lines
    edits: list[Edit] = field(default_factory=list)
    # Of each line, the steps over which a text was typed last; what is typed within them goes on after it.
    typed: dict[int, range] = field(default_factory=dict)
    idle: int = IDLE_STEPS  # after so many steps in which nothing happens long runs pause
    limit: int = 0  # so many steps an `expect` goes on
    paused: Optional[Paused] = None
    origin: Optional[Origin] = None
    logs: dict[str, list[Event]] = field(default_factory=dict)  # that were kept under a name
    listed: Optional[tuple[int, Line, int]] = None  # where `list` was asked for last: the position, its line, and what comes next
    saved_log: list[Event] = field(default_factory=list)
    saved_patches: list[tuple[int, int]] = field(default_factory=list)
    seen: Seen = field(default_factory=Seen)

    def __post_init__(self) -> None:
        if self.origin:
            self.seen = self.origin.seen

    def number(self, text: str) -> int:
        return expressions.number(text, self.driver, self.symbols)

    def physical(self, address: int) -> int:
        """The physical address that a virtual one leads to at the position, in RAM or ROM."""
        return places.physical(self.driver, address)

    def word_at(self, text: str) -> tuple[int, int]:
        """The virtual and the physical address of the word that a text names."""
        address = self.number(text)
        if address % 4:
            raise Problem(f"{address:#x} is no multiple of 4; the word that it is in is at {address & ~3:#010x}")
        return address, self.physical(address)

    def patch(self, text: str, word: int) -> int:
        """Starts the machine with a word at the place that a text names, and gives its virtual address."""
        address, physical = self.word_at(text)
        if not -1 << 31 <= word < 1 << 32:
            raise Problem(f"{word:#x} is no word: it is below 0x100000000")
        self.driver.patch(physical, word & 0xFFFF_FFFF)
        return address

    # How things are shown

    def address(self, address: int) -> str:
        """`0xbfc00078 <main+0x78>`."""
        return self.symbols.address_and_name(address)

    def place(self, address: int) -> str:
        """`main+0x78`, or the address where it has no name."""
        return self.symbols.name(address) or f"{address:#010x}"

    def code(self, address: int) -> str:
        """`main+0x78 (login.c:44)`, as far as that is known."""
        return self.symbols.code(address)

    def value(self, value: int, is_code: bool = False) -> str:
        """`0xbfc00078 <main+0x78>`, with its source line if it is known to be an address of code, or if it points to a function."""
        line = self.line_of(value, is_code)
        return self.address(value) + (f" ({line})" if line else "")

    def line_of(self, value: int, is_code: bool) -> str:
        """The source line that is shown of a value, or the empty text. A value that is no address of code may have a line by chance alone,
        so that only one that points to the begin of a function has it."""
        return self.symbols.line(value) if is_code or self.symbols.is_function(value) else ""

    def instruction(self, address: int) -> str:
        """The text of the instruction at a virtual address, with the name of its target."""
        physical = self.driver.physical(address)
        if physical is None or address % 4:
            return "no instruction can be fetched here"
        line = self.driver.ask(f"dis {physical & ~3} 1")[0]
        if line.startswith("error"):
            return "no instruction can be fetched here"
        return self.symbols.retargeted(address, physical, line.split(None, 2)[2])

    def step(self, step: int) -> str:
        """`step 40,017, main+0x78 (login.c:64), 1,001 steps ago: sw r2, 0(r3)`, as seen from the position."""
        with self.at(step):
            pc = self.driver.registers().pc
            text = self.instruction(pc)
        return f"step {step:,}, {self.code(pc)}, {distance(step, self.driver.position)}: {text}"

    @contextmanager
    def at(self, position: int) -> Iterator[None]:
        """Looks at another position, and comes back."""
        here = self.driver.position
        try:
            self.driver.goto(position)
            yield
        finally:
            self.driver.goto(here)

    def show_position(self) -> None:
        """Where the run is, and the instruction that comes next."""
        state = self.driver.registers()
        slot = "   (delay slot)" if state.delay else ""
        self.tell(f"step {self.driver.position:,}, {self.code(state.pc)}: {self.instruction(state.pc)}{slot}")

    # Edits

    @contextmanager
    def editing(self, line: str) -> Iterator[None]:
        """Keeps what stood before, where a line edits, so that it can be taken back."""
        driver = self.driver
        log, patches, count, symbols, origin = list(driver.log), list(driver.patches), len(driver.journal), self.symbols, self.origin
        try:
            yield
        finally:
            if driver.log != log or driver.patches != patches or self.symbols is not symbols:
                self.edits.append(Edit(line, log, patches, driver.journal[count:], symbols, origin))

    def undo(self) -> None:
        """Takes the last edit back. Symbols are again those that stood before it."""
        if not self.edits:
            raise Problem("there is no edit to take back")
        edit = self.edits[-1]
        self.driver.revert(edit.log, edit.patches)
        self.edits.pop()
        self.typed.clear()
        self.origin = edit.origin
        self.tell(f"taken back: {edit.line}" + ("; the symbols are those of before" if edit.symbols is not self.symbols else ""))
        self.take_symbols(edit.symbols)

    # Stops

    def break_at(self, text: str) -> list[Mark]:
        """Makes a breakpoint at each place that a text means."""
        addresses, is_named = expressions.places_of(text, self.driver, self.symbols)
        for address in addresses:
            places.check_code(address)
        if len(addresses) > 1:
            lines = [self.symbols.line(address) for address in addresses]
            is_apart = all(lines) and len(set(lines)) == len(lines)
            listed = ", ".join(lines if is_apart else map(self.code, addresses))
            self.tell(f"{text} has {len(addresses):,} locations: {listed}")
        return [self.put(Mark(0, self._breakpoint(address), address, place=text if is_named else "", which=which))
                for which, address in enumerate(addresses)]

    def watch_at(self, text: str, size: Optional[int] = None) -> Mark:
        """Makes a watch of some bytes at the place that a text means, or of all bytes of a symbol there."""
        found = expressions.read(text, self.driver, self.symbols)
        watch = self._watch(found.value(self.driver), size)
        return self.put(Mark(0, self._watching(watch), watch.address, watch, place=text if found.is_named else "", has_size=size is not None))

    def put(self, mark: Mark) -> Mark:
        """Takes a stop, gives it a number, and shows it."""
        made = replace(mark, number=max((it.number for it in self.marks), default=0) + 1)
        self.marks.append(made)
        self.tell(f"{made.number}: {made.text}")
        return made

    def _breakpoint(self, address: int) -> str:
        line = self.symbols.line(address)
        return f"breakpoint at {self.address(address)}" + (f" ({line})" if line else "")

    def _watch(self, address: int, size: Optional[int]) -> Watch:
        if size is None:
            found = self.symbols.at(address)
            size = found[0].size if found and not found[1] and 0 < found[0].size <= _WATCHED else 4
        if not 1 <= size <= _MOST_WATCHED:
            raise Problem(f"1 to {_MOST_WATCHED:,} bytes can be watched, and not {size:,}")
        place = self.physical(address)
        if self.physical(address + size - 1) != place + size - 1:
            raise Problem(f"{counted(size, 'byte')} from {address:#010x} on are not in one piece of memory")
        return Watch(address, size, place)

    def _watching(self, watch: Watch) -> str:
        return f"watch of {counted(watch.size, 'byte')} at {self.address(watch.address)}"

    def take_symbols(self, symbols: Symbols) -> None:
        """Takes the symbols of another image. Stops that were made by names move to where these are now, which is told."""
        if symbols is not self.symbols:
            self.symbols = symbols
            self.marks = [it if it.catch else self._renewed(it) for it in self.marks]

    def _renewed(self, mark: Mark) -> Mark:
        address, watch = mark.address, mark.watch
        try:
            if mark.place:
                addresses, _ = expressions.places_of(mark.place, self.driver, self.symbols)
                if mark.which >= len(addresses):
                    raise Problem(f"{mark.place} has {counted(len(addresses), 'location')} now")
                address = addresses[mark.which]
                watch = watch and self._watch(address, watch.size if mark.has_size else None)
        except Problem as problem:
            self.tell(f"{mark.number}: the stop stays at {mark.address:#010x}, since its name is not found: {problem}")
        made = replace(mark, address=address, watch=watch, text=self._watching(watch) if watch else self._breakpoint(address))
        if (address, watch) != (mark.address, mark.watch):
            self.tell(f"{made.number}: {made.text}: moved with {mark.place} from {mark.address:#010x}")
        return made

    def made_again(self) -> list[str]:
        """Lines that make the edits, stops, settings and the position again, from the log and the image before the first edit."""
        lines = [line for edit in self.edits for line in lines_of_edit(edit.line, edit.made)]
        lines.append(f"goto {self.driver.position:,}")
        for mark in self.marks:
            if mark.catch:
                lines.append(f"catch {mark.catch}")
                continue
            at = mark.address
            if mark.watch and self.driver.physical(at) != mark.watch.place:
                at = places.always_at(mark.watch.place)  # its page is mapped elsewhere here
            lines.append(self._stop_again(at, mark.watch.size if mark.watch else None))
        for stop in self.stops_of_gdb:
            parts = gdb_stops.parts(stop)
            lines.append(self._stop_again(*parts) if parts else f"gdb {stop}")
        settings = (("idle", self.idle, IDLE_STEPS), ("limit", self.limit, 0))
        return lines + [f"{name} {value:,}" for name, value, usual in settings if value != usual]

    def text(self, folder: Optional[str], is_whole: bool) -> str:
        """A file of the session, with the image packed in, or named from a folder."""
        if self.origin is None:
            raise Problem("a session is saved by what has opened an image")
        return saved.text_of(self.origin, folder, self.edits[0].log if self.edits else self.driver.log, self.made_again(), is_whole)

    def unsaved_text(self) -> Optional[str]:
        """A file of the session with its files packed in, if there are unsaved edits."""
        return self.text(None, True) if self.unsaved() else None

    def _stop_again(self, address: int, size: Optional[int]) -> str:
        return f"break {self._named(address)}" if size is None else f"watch {self._named(address)} {size}"

    def _named(self, address: int) -> str:
        """An address by a name that means it alone."""
        name = self.symbols.name(address)
        try:
            return name if name and self.number(name) == address else f"{address:#010x}"
        except Problem:
            return f"{address:#010x}"

    def unsaved(self) -> list[str]:
        """What was edited and is not saved."""
        log = ["the log (save-log FILE)"] if self.driver.log != self.saved_log else []
        image = ["the image (save-image FILE)"] if self.driver.patches != self.saved_patches else []
        return log + image


_MOST_WATCHED = 1024
_WATCHED = 64  # the most bytes that are watched without being asked for


def counted(count: int, name: str) -> str:
    """`1,001 steps`, `1 step`."""
    return f"{count:,} {name}" + ("" if count == 1 else "s")


def distance(step: int, here: int) -> str:
    """`1,001 steps ago`, as seen from a position."""
    if step == here:
        return "now"
    return f"{counted(abs(step - here), 'step')} {'ago' if step < here else 'ahead'}"
