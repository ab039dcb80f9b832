"""The drawing of a run: an SVG of 1,200 pixels' width, on a light or a dark background."""
from __future__ import annotations

from dataclasses import dataclass
from typing import Iterator, Optional, Sequence
from xml.sax.saxutils import escape

from .log import quoted
from .saving import Form

WIDTH = 1200
LEFT, RIGHT = 190, 1040  # of the run
COLUMNS = RIGHT - LEFT
ROW, HEAD, FOOT = 34, 74, 46
BAR = 22  # the greatest height of one in a row
TICK = 1.5  # the width of a mark at a step
CHARACTER = 7.3  # the width of one, of a fixed width
LETTERS = 6.6  # on average, else
BINS = 170  # of the rows of functions
MOST_TICKS = 9

PICTURE = Form("picture of a run", (b"<svg",))

BACKGROUNDS = {
    "light": {"paper": "#ffffff", "ink": "#1b1f24", "faint": "#59636e", "rule": "#d8dee4", "in": "#0969da",
              "out": "#1a7f37",
              "store": "#8250df",
              "code": "#9a6700", "edit": "#cf222e"},
    "dark": {"paper": "#0d1117", "ink": "#e6edf3", "faint": "#9198a1", "rule": "#30363d", "in": "#58a6ff",
             "out": "#3fb950",
             "store": "#bc8cff",
             "code": "#d29922", "edit": "#ff7b72"},
}


@dataclass(frozen=True)
class Mark:
    """An edit, and the step where it meets the run. One that changed nothing has none."""

    text: str
    time: Optional[int]


@dataclass(frozen=True)
class Lane:
    """Bytes on a serial line in one direction, each at its step."""

    line: int
    received: bool
    content: list[tuple[int, int]]


@dataclass(frozen=True)
class Stores:
    """Stores into a word, each with what the word holds after it; or the levels that an external line got."""

    name: str
    steps: list[tuple[int, int]]


@dataclass(frozen=True)
class Function:
    """A function, the positions at which the PC was in it, and its share of all positions."""

    name: str
    positions: list[int]
    share: float


@dataclass(frozen=True)
class Picture:
    """A run of `end` steps. The positions of functions are all of them, or samples."""

    name: str
    end: int
    edits: list[Mark]
    lanes: list[Lane]
    stores: list[Stores]
    functions: list[Function]
    exact: bool


def draw(picture: Picture, background: Optional[str]) -> str:
    """The SVG. Without a background it is light, or dark where its reader's pages are."""
    return "\n".join(_Drawing(picture).lines(background)) + "\n"


class _Drawing:
    def __init__(self, picture: Picture) -> None:
        self._picture = picture
        self._top = HEAD + (ROW if picture.edits else 0)
        rows = len(picture.lanes) + len(picture.stores) + len(picture.functions)
        self._bottom = self._top + ROW * rows

    def lines(self, background: Optional[str]) -> Iterator[str]:
        height = self._bottom + FOOT
        size = f'width="{WIDTH}" height="{height}"'
        yield f'<svg xmlns="http://www.w3.org/2000/svg" {size} viewBox="0 0 {WIDTH} {height}">'
        yield f"<style>{_style(background)}</style>"
        yield f'<rect class="paper" {size}/>'
        yield from self._title()
        yield from self._axis()
        row = self._top
        for lane in self._picture.lanes:
            yield from self._lane(row, lane)
            row += ROW
        for stores in self._picture.stores:
            yield from self._stores(row, stores)
            row += ROW
        for function in self._picture.functions:
            yield from self._function(row, function)
            row += ROW
        yield from self._edits()
        yield "</svg>"

    def _x(self, step: int) -> float:
        return LEFT + COLUMNS * step / self._picture.end

    def _title(self) -> Iterator[str]:
        picture = self._picture
        received = sum(len(lane.content) for lane in picture.lanes if lane.received)
        sent = sum(len(lane.content) for lane in picture.lanes) - received
        yield _text(24, 34, f"{picture.name}: {picture.end:,} steps", "ink title")
        shares = "" if picture.exact else ", shares of samples"
        yield _text(24, 56, f"{received:,} bytes received, {sent:,} sent, {_count(len(picture.edits), 'edit')}{shares}",
                    "faint")

    def _axis(self) -> Iterator[str]:
        for step in _ticks(self._picture.end):
            x = self._x(step)
            yield f'<line class="rule" x1="{x:.1f}" y1="{HEAD}" x2="{x:.1f}" y2="{self._bottom + 4}"/>'
            yield _text(x, self._bottom + 22, f"{step:,}", "faint", "middle")

    def _row(self, top: int, name: str, note: str) -> Iterator[str]:
        """A row's name, its base line, and what stands at its right."""
        base = top + ROW - 6
        yield _text(LEFT - 12, base - 6, _shortened(name, (LEFT - 24) / LETTERS), "ink", "end")
        yield f'<line class="rule" x1="{LEFT}" y1="{base}" x2="{RIGHT}" y2="{base}"/>'
        yield _text(RIGHT + 12, base - 6, note, "faint")

    def _lane(self, top: int, lane: Lane) -> Iterator[str]:
        kind, verb = ("in", "receives") if lane.received else ("out", "sends")
        yield from self._row(top, f"line {lane.line} {verb}", _count(len(lane.content), "byte"))
        base = top + ROW - 6
        runs = _runs([(self._x(step), byte) for step, byte in lane.content])
        for number, run in enumerate(runs):
            for x in sorted({int(x) for x, _ in run}):
                yield _bar(kind, x, base, TICK, 6)
            limit = runs[number + 1][0][0] if number + 1 < len(runs) else RIGHT + 12
            text = _shortened(quoted(byte for _, byte in run), (limit - run[0][0] - 4) / CHARACTER)
            yield _text(run[0][0], base - 10, text, f"{kind} fixed")

    def _stores(self, top: int, word: Stores) -> Iterator[str]:
        yield from self._row(top, word.name, f"0x{word.steps[-1][1]:08x}" if word.steps else "never stored")
        base = top + ROW - 6
        free = float(LEFT)
        for step, value in word.steps:
            x = self._x(step)
            yield _bar("store", x, base, TICK, 8)
            text = f"{value:x}"
            if free <= x <= RIGHT - CHARACTER * len(text):
                yield _text(x, base - 11, text, "store fixed")
                free = x + CHARACTER * (len(text) + 1)

    def _function(self, top: int, function: Function) -> Iterator[str]:
        yield from self._row(top, function.name,
                             f"{100 * function.share:.1f} %" if function.share >= 0.001 else "<0.1 %")
        base = top + ROW - 6
        bins = min(BINS, self._picture.end)
        of_all, of_this = [0] * bins, [0] * bins
        for other in self._picture.functions:
            for position in other.positions:
                of_all[position * bins // self._picture.end] += 1
        for position in function.positions:
            of_this[position * bins // self._picture.end] += 1
        width = COLUMNS / bins
        for number, (whole, part) in enumerate(zip(of_all, of_this)):
            if part:
                height = BAR * part / whole
                yield _bar("code", LEFT + number * width, base, width, height)

    def _edits(self) -> Iterator[str]:
        free = 0.0
        for mark in sorted(self._picture.edits, key=lambda it: (it.time is None, it.time)):
            text, x = f"{mark.text} (changes nothing)", float(LEFT)
            if mark.time is not None:
                text, x = mark.text, self._x(mark.time)
                yield f'<line class="edit" x1="{x:.1f}" y1="{HEAD + 20}" x2="{x:.1f}" y2="{self._bottom}"/>'
            at = max(x, free)
            yield _text(at, HEAD + 14, text, "edit fixed")
            free = at + CHARACTER * (len(text) + 2)


def _style(background: Optional[str]) -> str:
    """The colours: those of a background, or of the light one with the dark one where it is wanted."""
    text = ("text{font:13px system-ui,'DejaVu Sans',sans-serif}.fixed{font:12px 'DejaVu Sans Mono',monospace}"
            ".title{font-size:18px;font-weight:600}.edit{stroke-width:1}text.edit{stroke:none}")
    if background:
        return text + _colours(background)
    return text + _colours("light") + "@media(prefers-color-scheme:dark){" + _colours("dark") + "}"


def _colours(background: str) -> str:
    colours = BACKGROUNDS[background]
    filled = "".join(f".{name}{{fill:{colour}}}" for name, colour in colours.items())
    return filled + f"line.rule{{stroke:{colours['rule']}}}line.edit{{stroke:{colours['edit']};stroke-dasharray:4 3}}"


def _bar(kind: str, x: float, base: float, width: float, height: float) -> str:
    """A rectangle that stands on a base line."""
    return f'<rect class="{kind}" x="{x:.1f}" y="{base - height:.1f}" width="{width:.1f}" height="{height:.1f}"/>'


def _text(x: float, y: float, text: str, kind: str, anchor: str = "start") -> str:
    place = f'x="{x:.1f}" y="{y:.1f}" text-anchor="{anchor}"'
    return f'<text class="{kind}" {place} xml:space="preserve">{escape(text)}</text>'


def _count(number: int, name: str) -> str:
    return f"{number:,} {name}" + ("" if number == 1 else "s")


def _shortened(text: str, room: float) -> str:
    """A text with room for a number of characters."""
    if len(text) <= room:
        return text
    return text[:int(room) - 1] + "…" if room >= 3 else ""


def _runs(content: Sequence[tuple[float, int]]) -> list[list[tuple[float, int]]]:
    """Bytes that stand near each other, together."""
    runs: list[list[tuple[float, int]]] = []
    for x, byte in content:
        if runs and x - runs[-1][-1][0] < 3 * CHARACTER:
            runs[-1].append((x, byte))
        else:
            runs.append([(x, byte)])
    return runs


def _ticks(end: int) -> range:
    """Round positions, at most nine of them."""
    for power in range(11):
        for digit in (1, 2, 5):
            step = digit * 10 ** power
            if end // step <= MOST_TICKS:
                return range(0, end + 1, step)
    raise AssertionError("a position has at most ten digits")
