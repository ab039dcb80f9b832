"""`bin/wb plot`: one picture of a run, as SVG."""
from __future__ import annotations

import sys
from collections import Counter
from dataclasses import dataclass
from typing import Optional, Sequence

from . import expressions, loading, places, replies, saved, saving, search
from .arguments import Parser, natural
from .driver import Driver
from .errors import Problem
from .installed import NAME
from .limits import GREATEST_POSITION, LINES
from .log import Event, Kind
from .picture import BACKGROUNDS, COLUMNS, PICTURE, Function, Lane, Mark, Picture, Stores, draw
from .progress import on_terminal
from .protocol import EDITS
from .states import counters_at, registers_at, replies_at
from .symbols import Symbols, symbols_of

DESCRIPTION = """\
One picture of a run, as SVG, in OUT or on standard output: the bytes at each serial line, the levels of external
lines, the stores into the words that are named, which functions ran, and where edits met the run.
"""

EPILOG = f"""\
Example:

  {NAME} plot --to 130000 --log examples/login/log --words session+32 examples/login/login.elf login.svg
"""
MOST_STEPS = 4096  # of the bytes that a line sent
SAMPLES = 2 * COLUMNS  # of the PC, in a run that has more steps
FUNCTIONS = 12  # those with the greatest shares have a row
UNNAMED = 256  # bytes of code that stand for a function, where no symbol is known


def parser() -> Parser:
    made = Parser("plot", "--to N [OPTIONS] [--words NAME,..] [--edits 'LINE; ..'] [--background light|dark] [--force] IMAGE [OUT]",
                  DESCRIPTION, EPILOG)
    made.add_argument("image", metavar="IMAGE", help="what the machine starts from, or a session that `save` made")
    made.add_argument("out", metavar="OUT", nargs="?", help="the file of the picture; without it standard output")
    made.add_argument("--to", metavar="N", type=natural, required=True, help="the run's end")
    made.add_argument("--words", metavar="NAME,..", default="",
                      help="words of memory: symbols, also with a number of bytes after them, or addresses: virtual ones, or p:0x1000 "
                           "for a physical one")
    made.add_argument("--edits", metavar="'LINE; ..'", default="",
                      help=f"edits that are made first: {', '.join(EDITS)}")
    made.add_argument("--background", metavar="NAME", choices=BACKGROUNDS,
                      help="light or dark; without it the picture follows the page that it is on")
    made.add_argument(saving.FORCE_OPTION, action="store_true", help="overwrites a file OUT that is no picture of a run")
    loading.add_options(made)
    return made


def main(arguments: Sequence[str]) -> int:
    line = parser().read(arguments)
    end = line.to
    if not 0 < end <= GREATEST_POSITION:
        raise Problem(f"--to wants a position from 1 to {GREATEST_POSITION:,}")
    with saved.running(loading.Opening.of(line, line.image), on_terminal()) as driver:
        plot = _Plot(driver, symbols_of(driver.image), end)
        edits = plot.edits(line.edits.split(";"))
        words = [plot.word(name) for name in line.words.split(",") if name]
        picture = plot.picture(driver.image.name, edits, words)
    text = draw(picture, line.background)
    if line.out is None:
        sys.stdout.write(text)
    else:
        saving.save(line.out, text.encode(), PICTURE, line.force)
    return 0


@dataclass(frozen=True)
class _Word:
    name: str
    place: int


class _Plot:
    """What a run did up to a position."""

    def __init__(self, driver: Driver, symbols: Symbols, end: int) -> None:
        self._driver = driver
        self._symbols = symbols
        self._end = end

    def picture(self, name: str, edits: list[Mark], words: list[_Word]) -> Picture:
        lanes = [lane for number in range(LINES) for lane in (self._received(number), self._sent(number)) if lane]
        stores = [self._stores(word) for word in words]
        return Picture(name, self._end, edits, lanes, self._levels() + stores, *self._functions())

    # Edits

    def edits(self, commands: Sequence[str]) -> list[Mark]:
        """Makes edits, and says where each of them meets the run."""
        return [self._edit(command.strip()) for command in commands if command.strip()]

    def _edit(self, command: str) -> Mark:
        words = replies.words_of(command)
        if words[0] not in EDITS:
            raise Problem(f"{command} is no edit; there are {', '.join(EDITS)}")
        before = list(self._driver.log)
        self._driver.value(command)
        if words[0] == "patch":
            return Mark(command, 0)  # the machine starts with it
        times = _changed(before, self._driver.log)
        return Mark(command, times[0] if times else None)

    # Lines

    def _received(self, number: int) -> Optional[Lane]:
        events = [it for it in self._events() if it.kind != Kind.WIRE and it.line == number]
        return Lane(number, True, [(event.time, event.byte) for event in events]) if events else None

    def _levels(self) -> list[Stores]:
        """The levels that external lines got."""
        wires = [it for it in self._events() if it.kind == Kind.WIRE]
        return [Stores(f"external line {number}", [(it.time, it.byte) for it in wires if it.line == number])
                for number in sorted({it.line for it in wires})]

    def _events(self) -> list[Event]:
        return [it for it in self._driver.log if it.time < self._end]

    def _sent(self, number: int) -> Optional[Lane]:
        """The bytes that a line sent. If there are very many, some have their steps, and the others stand with the one before."""
        self._driver.goto(self._end)
        content = self._driver.console(number)
        apart = -(-len(content) // MOST_STEPS) or 1
        commands = [f"find {number} {place}" for place in range(0, len(content), apart)]
        steps = [replies.last_number(reply) for reply in self._driver.values(commands)]
        sent = [(steps[place // apart], byte) for place, byte in enumerate(content)]
        return Lane(number, False, sent) if sent else None

    # Words

    def word(self, name: str) -> _Word:
        """A word of memory, by its address as the shell takes it."""
        try:
            address = expressions.number(name, self._driver, self._symbols)
            places.check(address)
        except Problem as problem:
            raise Problem(f"there is no word {name}: {problem}") from None
        position = self._mapped(address)
        self._driver.goto(position)
        place = places.physical(self._driver, address)
        if position != self._end:
            loading.say(f"{name} is where {address:#010x} leads at position {position:,}; at the end it leads nowhere")
        return _Word(name, place & ~3)

    def _mapped(self, address: int) -> int:
        """The end, where an address leads somewhere then, or else the last position that is looked at where it does."""
        self._driver.goto(self._end)
        if self._driver.physical(address) is not None:
            return self._end
        looked_at = self._samples()
        found = [replies.where(lines).physical for lines in replies_at(self._driver, looked_at, f"where {address}")]
        mapped = [position for position, place in zip(looked_at, found) if place is not None]
        if mapped:
            return mapped[-1]
        self._driver.goto(self._end)
        which = "positions of the run" if len(looked_at) == self._end else f"positions that were looked at, of {self._end:,}"
        raise Problem(f"{address:#010x} is mapped at none of {len(looked_at):,} {which}. At the end "
                      f"{places.why_nowhere(self._driver, address)}")

    def _stores(self, word: _Word) -> Stores:
        """The last store of each column into a word, and what the word holds after it."""
        stores = []
        end = self._end
        while end:
            self._driver.goto(end)
            step = search.last_store(self._driver, word.place)
            if step is None:
                break
            self._driver.goto(step + 1)
            stores.append((step, self._driver.words(word.place, 1)[0]))
            end = self._end * (step * COLUMNS // self._end) // COLUMNS  # the begin of its column
        return Stores(word.name, stores[::-1])

    # Functions

    def _functions(self) -> tuple[list[Function], bool]:
        """Which function the PC was in, at all positions or at samples of them; the other functions are shown together."""
        positions = self._samples()
        exact = len(positions) == self._end
        if isinstance(positions, range):
            counters = counters_at(self._driver, positions)
        else:
            counters = [state.pc for state in registers_at(self._driver, positions)]
        names = [self._function(it) for it in counters]
        shares = Counter(names)
        shown = [name for name, _ in shares.most_common(FUNCTIONS)]
        rows = {name: [position for position, other in zip(positions, names) if other == name] for name in shown}
        rest = [position for position, name in zip(positions, names) if name not in rows]
        if rest:
            rows[f"{len(shares) - len(shown)} others"] = rest
        return [Function(name, at, len(at) / len(names)) for name, at in rows.items()], exact

    def _samples(self) -> Sequence[int]:
        """All positions before the end, or, where there are very many, some at equal distances."""
        return range(self._end) if self._end <= SAMPLES else [self._end * sample // SAMPLES for sample in range(SAMPLES)]

    def _function(self, counter: int) -> str:
        found = self._symbols.at(counter)
        return found[0].name if found else f"0x{counter // UNNAMED * UNNAMED:08x}"


def _changed(before: Sequence[Event], after: Sequence[Event]) -> list[int]:
    """The times of the events that only one of two logs has."""
    return sorted(event.time for event in (Counter(before) - Counter(after)) + (Counter(after) - Counter(before)))
