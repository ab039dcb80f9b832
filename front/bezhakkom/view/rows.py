"""What each row of the page asks.

A row is a generator: it yields the questions that it lacks, each at its position, and is sent their replies. The questions of all rows
are asked together, in the order of their positions, so that the machine goes along each span once. What is known is not asked again.
"""
from __future__ import annotations

from dataclasses import dataclass, field
from typing import Any, Callable, Dict, Generator, Iterable, List, Optional, Sequence, Set, Tuple

from .. import replies, tracing
from ..driver import Driver, unmapped
from ..instruction import LOADS, STORES, address, code
from ..limits import CONSOLE_BYTES, LINES, RAM, RESET_PC, ROM, SPAN, VISIT_STEPS
from ..states import of_counters, of_steps
from ..symbols import Symbols
from .past import Machine, Past, Visited

Question = Tuple[int, str]
Row = Generator[List[Question], List[List[str]], Any]

SAMPLES = 96  # of words and of the PC, at most
EXACT = 480  # so many positions are looked at one by one
MOST_STORES = 64  # of a word that are followed back
CUTS = 8  # parts of a stretch of bytes, of which some may be far apart
TEXT = 16_384  # bytes of a line that are shown
MOST_VISITS, MOST_VISITED = 32, 1_024  # of a function that are looked for in a view, and functions in views of which they are kept
MOST_HINTS = 64  # views of which it is kept what they asked
LABELLED = 4_096  # bytes in view that may have labels
UNNAMED = 256  # bytes of code that stand for a function, where no symbol is known
BEFORE, SHOWN = 6, 14  # instructions that are shown before the one at the cursor, and in all


@dataclass
class Cost:
    """What was asked: questions, and batches of them."""

    questions: int = 0
    batches: int = 0


@dataclass
class Asker:
    """Asks the questions of rows of one driver."""

    driver: Driver
    cost: Cost = field(default_factory=Cost)
    hints: Dict[Any, Any] = field(default_factory=dict)  # what a row found the last time, which an edit mostly leaves near

    def run(self, rows: Sequence[Row]) -> List[Any]:
        """The values of rows."""
        row = together(rows)
        try:
            asked = next(row)
            while True:
                asked = row.send(self._asked(asked))
        except StopIteration as end:
            return list(end.value)

    def _asked(self, questions: Sequence[Question]) -> List[List[str]]:
        """The replies to questions, in one batch. A question that stands there twice is asked once."""
        asked = sorted(set(questions))
        if any(command.startswith("visit ") for _, command in asked):  # it leads elsewhere, or is refused
            answered = self.driver.ask_all([it for position, command in asked for it in (f"goto {position}", command)])[1::2]
        else:
            answered = self.driver.answers(asked)
        self.cost.questions += len(asked)
        self.cost.batches += 1
        found = dict(zip(asked, answered))
        return [found[it] for it in questions]


@dataclass(frozen=True)
class View:
    """A stretch of the run in so many columns. The rest of the run is asked up to `until`."""

    begin: int
    end: int
    columns: int
    samples: int
    until: int

    @property
    def width(self) -> int:
        """The steps of a column."""
        return max(1, (self.end - self.begin) // self.columns)

    @property
    def apart(self) -> int:
        """The steps between samples. Fewer samples are some of those that are asked for at rest."""
        return -(-(self.end - self.begin) // SAMPLES) * (SAMPLES // self.samples)

    @property
    def is_far(self) -> bool:
        """Whether samples are so far apart that they begin spans, where nothing is run for them."""
        return self.apart > SPAN // 4

    def positions(self, most: int = EXACT) -> List[int]:
        """Positions to look at: all, or samples."""
        if self.end - self.begin <= most:
            return list(range(self.begin, self.end))
        found = range(self.begin, self.end, self.apart)
        if self.is_far:
            return sorted({max(self.begin, position // SPAN * SPAN) for position in found})
        return list(found)

    def is_exact(self, most: int = EXACT) -> bool:
        return self.end - self.begin <= most


def together(those: Sequence[Row]) -> Row:
    """Several rows as one: what they ask, in the same turns."""
    values: List[Any] = [None] * len(those)
    waiting: List[Tuple[int, Row, List[Question]]] = []

    def go_on(number: int, row: Row, answered: Any) -> None:
        try:
            while not (questions := row.send(answered)):
                answered = []
            waiting.append((number, row, questions))
        except StopIteration as end:
            values[number] = end.value

    for number, row in enumerate(those):
        go_on(number, row, None)
    while waiting:
        asked, waiting = waiting, []
        answered = yield [it for _, _, questions in asked for it in questions]
        for number, row, questions in asked:
            mine, answered = answered[:len(questions)], answered[len(questions):]
            go_on(number, row, mine)
    return values


def counts(past: Past, positions: Iterable[int], until: int = -1) -> Row:
    """How many bytes each line had sent before some positions. At `until` what it sent after what is known of it is asked together with
    how much that is."""
    wanted, known = sorted({*positions}), past.known
    lack = [(line, at) for at in wanted for line in range(LINES) if at not in known.counts[line]]
    pieces = {line: _first_unknown(known.text[line]) for line, at in lack if at == until}
    answered = yield [(at, f"console {line} {pieces[line] * CONSOLE_BYTES} {CONSOLE_BYTES}" if at == until else f"console {line} 0 1")
                      for line, at in lack]
    for (line, at), lines in zip(lack, answered):
        known.counts[line][at], content = replies.console(lines)
        if at == until and content:
            known.text[line][pieces[line]] = content
    return {at: [known.counts[line][at] for line in range(LINES)] for at in wanted}


def steps(past: Past, until: int, places: Iterable[Tuple[int, int]]) -> Row:
    """Sees to it that the steps are known which sent bytes, by line and place."""
    lack: List[Set[int]] = [set() for _ in range(LINES)]
    for line, place in places:
        if place not in past.known.steps[line]:
            lack[line].add(place)
    asked = [(line, question) for line in range(LINES) for question in of_steps(line, sorted(lack[line]))]
    answered = yield [(until, question) for _, question in asked]
    for (line, _), lines in zip(asked, answered):
        past.known.steps[line].update(replies.timed(lines))


def sent(past: Past, view: View, hints: Dict[Any, Any]) -> Row:
    """Of each line, places of bytes with the steps that sent them. The bytes between two of them stand within a column, or all of them are
    there. And how many were sent before the view, in it, and in all."""
    known, key, ends = past.known, ("sent", view.begin, view.end, view.columns), (view.begin, view.end, view.until)
    counted, _ = yield from together([counts(past, ends, view.until), steps(past, view.until, hints.get(key, ()))])
    low, high, whole = (counted[at] for at in ends)
    shown: List[Set[int]] = [set() for _ in range(LINES)]
    work = [(line, low[line], high[line] - 1) for line in range(LINES) if high[line] > low[line]]
    while work:
        yield from steps(past, view.until, [(line, place) for line, first, last in work for place in (first, last)])
        more = []
        for line, first, last in work:
            shown[line].update((first, last))
            if last - first > 1 and known.steps[line][last] - known.steps[line][first] > view.width:
                cuts = sorted({first + (last - first) * part // CUTS for part in range(CUTS + 1)})
                more += [(line, one, two) for one, two in zip(cuts, cuts[1:])]
        work = more
    if len(hints) > MOST_HINTS:
        hints.clear()
    hints[key] = [(line, place) for line in range(LINES) for place in shown[line]]
    return [{"marks": [[place, known.steps[line][place]] for place in sorted(shown[line])], "low": low[line], "high": high[line],
             "whole": whole[line]} for line in range(LINES)]


def text(past: Past, view: View, cursor: int) -> Row:
    """Of each line, what it sent: all up to `until`, or where that is long, what is near the cursor and what is in view. Parts are
    [place, text]."""
    here = min(cursor, view.until)
    counted = yield from counts(past, (view.begin, view.end, here, view.until), view.until)
    asked, parts = [], []
    for line in range(LINES):
        whole, before, low, high = (counted[at][line] for at in (view.until, here, view.begin, view.end))
        ranges = [range(max(0, min(before + TEXT // 4, whole) - TEXT), min(whole, max(before + TEXT // 4, TEXT)))]
        if high - low <= LABELLED and not (low >= ranges[0].start and high <= ranges[0].stop):
            ranges.append(range(low, high))
        parts.append(ranges)
        pieces = past.known.text[line]
        for it in ranges:
            for piece in range(it.start // CONSOLE_BYTES, -(-it.stop // CONSOLE_BYTES)):
                if len(pieces.get(piece, b"")) < min(it.stop - piece * CONSOLE_BYTES, CONSOLE_BYTES):
                    asked.append((line, piece))
    answered = yield [(view.until, f"console {line} {piece * CONSOLE_BYTES} {CONSOLE_BYTES}") for line, piece in asked]
    for (line, piece), lines in zip(asked, answered):
        past.known.text[line][piece] = replies.console(lines)[1]
    return [[[it.start, _text_of(past, line, it)] for it in ranges] for line, ranges in enumerate(parts)]


def _first_unknown(pieces: Dict[int, bytes]) -> int:
    """The number of the first piece that is not known whole."""
    number = 0
    while len(pieces.get(number, b"")) == CONSOLE_BYTES:
        number += 1
    return number


def _text_of(past: Past, line: int, places: range) -> str:
    first = places.start // CONSOLE_BYTES
    pieces = (past.known.text[line].get(piece, b"") for piece in range(first, -(-places.stop // CONSOLE_BYTES)))
    begin = places.start - first * CONSOLE_BYTES
    return b"".join(pieces)[begin:begin + len(places)].decode("latin-1")


def word(past: Past, place: int, view: View) -> Row:
    """The values of a word at samples, and the stores into it that are known: of each column the last one, with what the word holds after
    it, back from the view's end to position `exact`. Before that there are only samples."""
    writers = past.known.writers.setdefault(place, {})
    exact, stores = _chain(writers, view)
    positions = [view.begin, *(it for it in view.positions(0) if view.begin < it < exact), view.end]
    held = yield from values(past, place, [*positions, *(step + 1 for step in stores)])
    return {"samples": [[at, held[at]] for at in positions], "stores": [[step, held[step + 1]] for step in stores], "exact": exact}


def values(past: Past, place: int, positions: Iterable[int]) -> Row:
    """What a word holds at positions, and at others as far as that is known."""
    known = past.known.values.setdefault(place, {})
    lack = sorted({at for at in positions if at not in known})
    for at, lines in zip(lack, (yield [(at, f"mem {place} 1") for at in lack])):
        known[at] = replies.memory(lines)[0]
    return known


def _chain(writers: Dict[int, int], view: View) -> Tuple[int, List[int]]:
    """From which position on the stores are known, and those stores."""
    at, stores = view.end, []
    while at > view.begin and at in writers:
        step = writers[at]
        if step < view.begin:
            at = view.begin
            break
        stores.append(step)
        at = max(view.begin, view.begin + (step - view.begin) // view.width * view.width)
    stores.reverse()
    return at, stores


def followed(past: Past, place: int, view: View) -> Row:
    """Follows the stores into a word back by one column. Whether there are more to follow."""
    writers = past.known.writers.setdefault(place, {})
    at, stores = _chain(writers, view)
    if at <= view.begin or len(stores) >= MOST_STORES:
        return False
    lines, = yield [(at, f"writer {place}")]
    step = replies.writer(lines).step
    writers[at] = -1 if step is None else step
    return True


def functions(past: Past, view: View, name: Callable[[int], str]) -> Row:
    """In which function the PC is: at all positions in view, or at samples."""
    positions, known = view.positions(), past.known.counters
    lack = [it for it in positions if it not in known]
    # At the start of a span the machine stands as it was kept, and stays so. Elsewhere it goes on by a step, which takes less time than to
    # keep the state there.
    if view.is_exact():
        asked = list(of_counters(lack))
    else:
        asked = [(at, "pcs 1 1" if view.is_far else "trace 1") for at in lack]
    for (at, question), lines in zip(asked, (yield asked)):
        known.update([(at, tracing.pc_of(lines[0]))] if question == "trace 1" else replies.timed(lines))
    names: Dict[str, int] = {}
    numbers = {counter: names.setdefault(name(counter), len(names)) for counter in dict.fromkeys(known[at] for at in positions)}
    return {"names": list(names), "at": [[at, numbers[known[at]]] for at in positions], "exact": view.is_exact()}


def entered(past: Past, address: int, view: View) -> Row:
    """Looks for one more visit of an address in view. Whether there are more to look for."""
    key = (address, view.begin)
    if len(past.known.visits) > MOST_VISITED and key not in past.known.visits:
        past.known.visits.clear()
    # Visits are looked for above a position, so one at the view's begin from the position before it on.
    first = Visited((0,), 0) if not view.begin and address == RESET_PC else Visited((), max(0, view.begin - 1))
    it = past.known.visits.setdefault(key, first)
    if it.upto >= view.end - 1 or len(it.positions) >= MOST_VISITS:
        return False
    steps = min(VISIT_STEPS, view.end - 1 - it.upto)
    lines, = yield [(it.upto, f"visit {address} {steps}")]
    if replies.is_refusal(lines[0]):
        past.known.visits[key] = Visited(it.positions, it.upto + steps)
    else:
        at = replies.last_number(lines)
        past.known.visits[key] = Visited((*it.positions, at), at)
    return True


def visits(past: Past, address: int, view: View) -> Tuple[List[int], bool]:
    """The visits of an address in view that are known, and whether these are all."""
    it = past.known.visits.get((address, view.begin), Visited((), 0))
    return [at for at in it.positions if at < view.end], it.upto >= view.end - 1


def function_of(symbols: Symbols, counter: int) -> str:
    """The name of the function that an address is in."""
    found = symbols.at(counter)
    return found[0].name if found else f"{counter // UNNAMED * UNNAMED:#010x}"


def cursor(past: Past, position: int, words: Sequence[int], symbols: Symbols, until: int, hints: Dict[Any, Any]) -> Row:
    """What the machine holds at a position: registers, words, and the instructions around the next one."""
    machine, held, found = yield from together([
        _machine(past, position, hints), together([values(past, it, [position]) for it in words]), counts(past, [position], until)])
    state, listed, accessed = machine.state, [], None
    for line in machine.listed:
        place, content, shown = line.split(None, 2)
        at = (state.pc + int(place, 16) - machine.place) & 0xFFFF_FFFF
        listed.append([at, symbols.name(at), symbols.retargeted(at, int(place, 16), shown), int(place, 16) == machine.place])
        if int(place, 16) == machine.place and (code(int(content, 16)) in LOADS or code(int(content, 16)) in STORES):
            accessed = address(int(content, 16), state)
    return {"position": position, "pc": state.pc, "name": symbols.name(state.pc), "registers": state.general, "next": state.next_pc,
            "hi": state.hi, "lo": state.lo, "delay": state.delay, "load": state.load, "control": machine.control,
            "listed": listed, "sent": found[position], "words": [it[position] for it in held],
            "accessed": accessed, "accessed_name": None if accessed is None else symbols.name(accessed) or f"{accessed:#010x}"}


def _machine(past: Past, position: int, hints: Dict[Any, Any]) -> Row:
    """The processor at a position, and the instructions around the next one. They are asked for together where the last ones were."""
    known = past.known
    if known.machine is None or known.machine.position != position:
        guess = hints.get("around")
        regs, control, *listed = yield [(position, it) for it in ("regs", "cp0", guess) if it]
        state = replies.registers(regs)
        place = unmapped(state.pc)
        if place is None:
            lines, = yield [(position, f"where {state.pc}")]
            place = replies.where(lines).physical
        around = hints["around"] = _around(place)
        if around != guess:
            listed = yield [(position, around)] if around else []
        known.machine = Machine(position, state, replies.control(control), place or 0, listed[0] if listed else [])
    return known.machine


def _around(place: Optional[int]) -> Optional[str]:
    """What is asked for the instructions around one, where there is memory."""
    part = next((it for it in (RAM, ROM) if place is not None and place in it and not place % 4), None)
    if part is None or place is None:
        return None
    first = max(part.start, place - 4 * BEFORE)
    return f"dis {first} {min(SHOWN, (part.stop - first) // 4)}"
