"""The driver: one run of the program, asked by values, whose image, log, patches and position are mirrored here.

Nothing is lost where the program ends, or is ended before its reads are used up: it is started anew with the image and the
log as they stand, at the same position.
"""
from __future__ import annotations

import signal
import threading
from contextlib import contextmanager
from copy import deepcopy
from dataclasses import replace
from typing import Any, Callable, Iterator, Optional, Sequence, Tuple

from . import jumps, replies, tracing
from .errors import Ended, Interrupted, Problem, Refused
from .explain import explained
from .image import Image
from .initial import Boot, boot_of
from .jumps import Jump
from .limits import CONSOLE_BYTES, GREATEST_POSITION, READS, SPAN, STORES, TRACED, WORDS
from .log import ADDS, Event, Kind, changes
from .log import write as write_log
from .progress import TerminalProgress
from .program import Program, Stop, reads_of
from .protocol import COMMANDS, command_of, lines_after
from .replies import Registers, Where, Writer, number_of, words_of
from .tracing import Traced
from .visits import Visits

# A run to a far position is made in pieces of this many steps, between which it is shown, or ended.
PIECE = 64 * SPAN

_MOST_TRACED = 64 * TRACED  # steps that are asked for together

# Where a long run begins, and where it ends if that is known.
Way = Tuple[int, Optional[int]]


class Driver:
    """The workbench. A refusal raises Refused, a program that died Ended, and Ctrl-C in a turn Interrupted."""

    def __init__(self, image: Image, log: Sequence[Event], report: Optional[TerminalProgress], most_reads: int = READS) -> None:
        self.position = 0
        self.log = list(log)
        self.image = image
        self.patches: list[tuple[int, int]] = []
        self.report = report
        # Asked in each turn: true to end it, as Ctrl-C does.
        self.wants_stop: Callable[[], bool] = lambda: False
        self._most_reads = most_reads
        self._original: Optional[Boot] = None
        self._boot: Optional[Boot] = None
        self._program: Optional[Program] = None
        # How far the run was made under the image and log as they stand.
        self.made = 0
        self.visits = Visits()
        self.journal: list[str] = []  # the edits that were made, as commands
        self._runs = 0
        self._way: Optional[Way] = None

    @classmethod
    def start(cls, image: Image, log: Sequence[Event] = (), *, report: Optional[TerminalProgress] = None,
              most_reads: int = READS) -> Driver:
        """Starts the program; a bad image or log raises Ended with what the program says of it."""
        driver = cls(image, log, report, most_reads)
        driver.ask("pos")
        return driver

    def close(self) -> None:
        """Ends the program. What is asked after that starts it anew."""
        if self._program:
            self._program.close()
            self._program = None
            self.made = 0

    # Commands

    def ask(self, command: str) -> list[str]:
        """The reply lines of one command; a refusal is returned as it is printed."""
        return self.ask_all([command])[0]

    def ask_all(self, commands: Sequence[str]) -> list[list[str]]:
        """The replies of several commands, which are under way together."""
        if any("\n" in command for command in commands):
            raise Problem("a command is one line")
        for words in map(words_of, commands):
            if "\n" in "".join(words):
                raise Problem("a command is one line")
            if words == ("quit",):
                raise Problem("`quit` alone would end the program; the front end has its own")
            found = command_of(words)
            if found and found.edits_image:
                self.boot()
        answers: list[list[str]] = []
        with self.long_run():
            while len(answers) < len(commands):
                rest = commands[len(answers):]
                self._run_ahead(self._furthest_query(rest))
                count = self._room(rest)
                if count:
                    answers += self._turn(rest[:count])
                else:
                    self.close()
        return answers

    def value(self, command: str) -> list[str]:
        """The reply lines of one command, which is not refused."""
        return self.values([command])[0]

    def values(self, commands: Sequence[str]) -> list[list[str]]:
        """The replies of several commands, none of which is refused."""
        answers = self.ask_all(commands)
        for command, lines in zip(commands, answers):
            refusal = replies.refusal_of(command, lines)
            if refusal:
                raise explained(refusal, len(self.log))
        return answers

    # Where it is, and what the machine holds there

    def goto(self, position: int) -> None:
        """Notes the position; the program learns of it with the next question."""
        if not 0 <= position <= GREATEST_POSITION:
            raise explained(Refused(7, "TooFar", f"goto {position}"))
        self.position = position

    def registers(self) -> Registers:
        return replies.registers(self.value("regs"))

    def control(self) -> dict[str, int]:
        return replies.control(self.value("cp0"))

    def words(self, physical: int, count: int) -> list[int]:
        """Words of memory, any number of them."""
        commands = [f"mem {at} {size}" for at, size in _pieces(physical, count, WORDS, 4)]
        return [word for lines in self.values(commands) for word in replies.memory(lines)]

    def shown(self, physical: int, count: int) -> bytes:
        """Words of memory as the program shows them: a line of WORD_LINE bytes for each. Texts are compared in far less time than
        words."""
        return self.text(self.position, [f"mem {at} {size}" for at, size in _pieces(physical, count, WORDS, 4)])

    def text(self, position: int, commands: Sequence[str]) -> bytes:
        """The replies to questions at a position, or from there on, as one text. The position stays."""
        script = "".join(f"{it}\n" for it in (f"goto {position}", *commands, f"goto {position}")).encode()
        told = f"pos {position}\n".encode()
        with self.long_run():
            self._run_ahead(position)
            if self._started().reads + reads_of(script) > self._most_reads:
                self.close()
            program = self._started()
            with self._in_step() as stop:
                text = program.text(script, told, stop)
            program.position = position
            if stop():
                raise Interrupted()
        refused = text.find(b"error ")
        if refused >= 0:
            refusal = replies.refusal_of(commands[0], text[refused:].decode().splitlines())
            assert refusal
            raise explained(refusal)
        return text[len(told):-len(told)]

    def answers(self, questions: Sequence[tuple[int, str]]) -> list[list[str]]:
        """The replies to questions in the order of their positions, in far less time than `values` takes. None of them is an edit, or moves.
        The position stays."""
        begin = last = questions[0][0]
        commands = []
        for position, question in questions:
            if position != last:
                commands.append(f"goto {position}")
                last = position
            commands.append(question)
        with self.long_run():
            self._run_ahead(last)
            lines = self.text(begin, commands).decode().split("\n")
        found, at = [], 0
        for command in commands:
            end = at + 1 + lines_after(command, lines[at])
            if not command.startswith("goto "):
                found.append(lines[at:end])
            at = end
        return found

    def where(self, virtual: int) -> Where:
        return replies.where(self.value(f"where {virtual}"))

    def physical(self, virtual: int) -> Optional[int]:
        """The physical address that a virtual one leads to, or None. kseg0 and kseg1 lead on in user mode too."""
        place = unmapped(virtual)
        return place if place is not None else self.where(virtual).physical

    # What happened before

    def writer(self, physical: int) -> Writer:
        return replies.writer(self.value(f"writer {physical}"))

    def register_writer(self, number: int) -> Optional[int]:
        """The last step before the position whose instruction wrote a register, HI or LO, by its number. A load counts at its own step."""
        return replies.writer(self.value(f"regwriter {number}")).step

    def stores(self, physical: int, most: int) -> Iterator[tuple[int, int]]:
        """The last stores into a word before the position, from the last one back: their steps, with the word after each."""
        here = position = self.position
        while most:
            count = min(most, STORES)
            try:
                self.goto(position)
                found = replies.timed(self.value(f"stores {physical} {count}"))
            finally:
                self.goto(here)
            yield from found
            if len(found) < count:
                return
            position, most = found[-1][0], most - count

    def devices(self) -> dict[str, Any]:
        """What the devices hold, as reads would give it, but nothing is read."""
        return replies.devices(self.value("devices"))

    def sent(self, line: int) -> int:
        """How many bytes a line sent before the position."""
        return replies.console(self.value(f"console {line} 0 1"))[0]

    def console(self, line: int, first: int = 0) -> bytes:
        """All bytes that a line sent before the position, from place `first` on."""
        count, shown = replies.console(self.value(f"console {line} {first} {CONSOLE_BYTES}"))
        rest = _pieces(first + CONSOLE_BYTES, count - first - CONSOLE_BYTES, CONSOLE_BYTES, 1)
        more = self.values([f"console {line} {at} {size}" for at, size in rest])
        return shown + b"".join(replies.console(lines)[1] for lines in more)

    def traced(self, first: int, end: int) -> Iterator[Traced]:
        """What each step from one on and before another one does. The position stays."""
        begin, size = first, TRACED
        with self.long_run(begin, end):
            while first < min(end, GREATEST_POSITION):
                counts = [count for _, count in _pieces(first, min(size, end - first, GREATEST_POSITION - first), TRACED, 1)]
                lines = self.text(first, [it for count in counts for it in (f"trace {count}", f"step {count}")]).decode().split("\n")
                for count in counts:
                    yield from map(tracing.read, lines[:count])
                    lines = lines[count + 1:]
                first += sum(counts)
                size = min(2 * size, _MOST_TRACED)
                self.tell(first)

    def jumps(self, first: int, local: bool, most: int) -> tuple[list[Jump], int]:
        """The first steps from one on that transfer control, at most so many of those within 1,048,576 steps, and the position from which to
        ask on. If they are `local`, taken branches and `j` count too. The position stays."""
        lines, = self.answers([(first, f"jumps {int(local)} {most}")])
        return [jumps.read(line) for line in lines[1:]], jumps.reached(lines)

    def find(self, line: int, place: int) -> int:
        """The step that sent the byte at a place of a line's console."""
        return replies.last_number(self.value(f"find {line} {place}"))

    # Edits

    def add(self, time: int, line: int, byte: int, kind: Kind = Kind.BYTE) -> int:
        return replies.last_number(self.value(Event(time, line, byte, kind).command))

    def delete(self, index: int) -> None:
        self.value(f"del {index}")

    def erase(self, first: int, end: int) -> int:
        """Takes out the events of the steps from one up to another, which is left out, and gives how many are left."""
        return replies.last_number(self.value(f"erase {first} {end}"))

    def set_byte(self, index: int, byte: int) -> int:
        return replies.last_number(self.value(f"set {index} {byte}"))

    def move(self, index: int, time: int) -> int:
        return replies.last_number(self.value(f"move {index} {time}"))

    def patch(self, physical: int, word: int) -> None:
        self.value(f"patch {physical} {word}")

    def boot(self) -> Boot:
        """The words and constants of the image with the patches that were made. Not to be changed."""
        if self._boot is None:
            self._original = boot_of(self.image, self._words_at_reset)
            self._boot = deepcopy(self._original)
        return self._boot

    def _words_at_reset(self, places: Sequence[int]) -> list[int]:
        """The words that the machine starts with at some places."""
        position = self.position
        commands = [f"mem {place} 1" for place in places]
        answers = self.values(["goto 0", *commands, f"goto {position}"])
        return [replies.memory(lines)[0] for lines in answers[1:-1]]

    def revert(self, log: Sequence[Event], patches: Sequence[tuple[int, int]]) -> None:
        """Makes the log and the patches those of an earlier moment; `patches` are the first ones of those that were made."""
        self.values(changes(self.log, log))
        undone = self.patches[len(patches):]
        if not undone:
            return
        assert self._original
        before = dict(patches)
        words = {address: before.get(address, self._original.word(address)) for address, _ in undone}
        if None in words.values():
            # The program can't take a word out of the image again.
            self._start_with(self.log, patches)
        else:
            self.values([f"patch {address} {word}" for address, word in words.items()])
        self.patches = list(patches)

    def restore(self, log: Sequence[Event], patches: Sequence[Tuple[int, int]], position: int) -> None:
        """Makes log, patches and position those of an earlier moment, as `revert` does, also if the program dies meanwhile: then the next
        question starts it with them."""
        try:
            self.revert(log, patches)
        except BaseException as error:
            self._start_with(log, patches)
            if not isinstance(error, Ended):
                raise
        finally:
            self.position = position

    def _start_with(self, log: Sequence[Event], patches: Sequence[Tuple[int, int]]) -> None:
        """Ends the program. What is asked next starts it with this log and these patches."""
        self.close()
        self.visits.forget()
        self.log[:] = log
        self.patches = list(patches)
        if self._original:
            self._boot = deepcopy(self._original)
            for address, word in patches:
                self._boot.patch(address, word)

    # Turns

    def _turn(self, commands: Sequence[str]) -> list[list[str]]:
        """The replies to commands for which there are reads. If it is ended early it raises Interrupted, in step."""
        program = self._started()
        lead = [f"goto {self.position}"] if program.position != self.position else []
        answers = []
        for reply in self._replies(program, [*lead, *commands]):
            answers.append(reply)
            if len(answers) > len(lead):
                self._mirror(program, commands[len(answers) - len(lead) - 1], reply)
        return answers[len(lead):]

    def _replies(self, program: Program, commands: Sequence[str]) -> Iterator[list[str]]:
        """The replies to commands, with the position that the program has after each."""
        count = 0
        with self._in_step() as stop:
            for reply in program.turn(commands, stop):
                found = command_of(words_of(commands[count]))
                if found and found.shows_position and not replies.is_refusal(reply[0]):
                    program.position = replies.last_number(reply)
                count += 1
                yield reply
        if stop() or count < len(commands):
            raise Interrupted()

    @contextmanager
    def _in_step(self) -> Iterator[Stop]:
        """A turn, which asks what is given whether it is to end. A program of which not all replies are taken is ended."""
        with _patience(self.wants_stop) as stop:
            try:
                yield stop
            except Ended:
                self.close()
                if stop() > 1:
                    raise Interrupted() from None
                raise
            except BaseException:
                self.close()
                raise

    def _started(self) -> Program:
        """The program, started where it is not."""
        if self._program is None:
            if self._boot is None:
                kind, content = self.image.kind, self.image.content
            else:
                kind, content = "image", self._boot.write()
            self._program = Program(kind, content, write_log(self.log) if self.log else b"")
        return self._program

    def _room(self, commands: Sequence[str]) -> int:
        """For how many of the commands, and a move before them, the program has reads left."""
        reads = self._started().reads + 1
        for count, command in enumerate(commands):
            reads += reads_of(command.encode("utf-8", "surrogateescape"))
            if reads > self._most_reads:
                return count
        return len(commands)

    def _mirror(self, program: Program, command: str, reply: list[str]) -> None:
        """Does here what a command did in the program."""
        words = words_of(command)
        if not reply or replies.is_refusal(reply[0]):
            return
        found, name, numbers = COMMANDS[words[0]], words[0], [number_of(word) or 0 for word in words[1:]]
        if found.edits:
            self.journal.append(" ".join(words))
        if found.shows_position:
            self.position = program.position
        elif name == "erase":
            erased = range(*numbers)
            self._changed(min((it.time for it in self.log if it.time in erased), default=GREATEST_POSITION))
            self.log[:] = [it for it in self.log if it.time not in erased]
        elif found.edits_log:
            self._mirror_edit(name, numbers, replies.last_number(reply))
        elif found.edits_image:
            self.patches.append((numbers[0], numbers[1]))
            self.made = 0
            self.visits.forget()
            self.boot().patch(numbers[0], numbers[1])

    def _mirror_edit(self, name: str, numbers: list[int], told: int) -> None:
        if name in ADDS:
            time, line, byte = numbers
            changed = Event(time, line, byte, ADDS[name])
            self.log.insert(told, changed)
        elif name == "set":
            changed = self.log[told]
            self.log[told] = replace(changed, byte=numbers[1])
        else:
            changed = self.log.pop(numbers[0])
            if name == "move":
                self.log.insert(told, replace(changed, time=numbers[1]))
                self._changed(numbers[1])
        self._changed(changed.time)

    def _changed(self, step: int) -> None:
        """The log was changed from a step on: what it shows is another one from the next position on."""
        self.made = min(self.made, step)
        self.visits.cut(step)

    # Long runs

    def _furthest_query(self, commands: Sequence[str]) -> int:
        """The greatest position at which commands will ask for something, as far as that is known before."""
        position, furthest = self.position, 0
        for command in commands:
            words = words_of(command)
            found = command_of(words)
            if found and found.runs:
                furthest = max(furthest, position)
            elif found and found.moves and len(words) == 2:
                moved = found.moves(position, number_of(words[1]) or 0)
                position = moved if 0 <= moved <= GREATEST_POSITION else position
        return furthest

    def _run_ahead(self, furthest: int) -> None:
        """Makes the run up to a position in pieces, if it is long, and shows how far it is."""
        begin = self.made
        while self.made + PIECE < furthest:
            piece = self.made // SPAN * SPAN + PIECE
            commands = [f"goto {piece}", "reg 0"]
            if not self._room(commands):
                self.close()
                begin = 0
                continue
            for _ in self._replies(self._started(), commands):
                pass
            self.made = piece
            self.tell(piece, (begin, furthest))
        self.made = max(self.made, furthest)

    @contextmanager
    def long_run(self, begin: Optional[int] = None, end: Optional[int] = None) -> Iterator[None]:
        """A run from one position to another, or without an end. The outermost one that has a begin is shown, and what is shown
        is removed at the end of the outermost one of all."""
        outer = self._way
        self._runs += 1
        if outer is None and begin is not None:
            self._way = begin, end
        try:
            yield
        finally:
            self._way = outer
            self._runs -= 1
            if self.report and not self._runs:
                self.report.close()

    def tell(self, position: int, way: Optional[Way] = None) -> None:
        """Shows how far a long run is, or a piece of it where nothing is known of the whole."""
        if self.report:
            begin, end = self._way or way or (position, None)
            self.report(position, begin, end)


def unmapped(virtual: int) -> Optional[int]:
    """The physical address that an address of kseg0 or kseg1 always leads to, or None for one that entries map."""
    return virtual & 0x1FFF_FFFF if 0x8000_0000 <= virtual < 0xC000_0000 else None


def _pieces(first: int, count: int, most: int, size: int) -> Iterator[tuple[int, int]]:
    """The places and counts of pieces of at most `most` items of a size."""
    for at in range(0, count, most):
        yield first + at * size, min(most, count - at)


@contextmanager
def _patience(wants_stop: Callable[[], bool]) -> Iterator[Callable[[], int]]:
    """Counts Ctrl-C while a turn is under way, in place of what it does else."""
    pressed = 0

    def press(number: int, frame: Any) -> None:
        nonlocal pressed
        pressed += 1

    def stop() -> int:
        return pressed or int(wants_stop())

    is_ours = (threading.current_thread() is threading.main_thread()
               and signal.getsignal(signal.SIGINT) is signal.default_int_handler)
    if not is_ours:
        yield stop
        return
    signal.signal(signal.SIGINT, press)
    try:
        yield stop
    finally:
        signal.signal(signal.SIGINT, signal.default_int_handler)
