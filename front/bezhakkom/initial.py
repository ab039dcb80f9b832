"""What an image starts the machine with: the words that it sets, and the constants of the devices."""
from __future__ import annotations

import re
from bisect import bisect_right
from typing import Callable, Iterator, Optional, Sequence

from .image import MAGIC, Image
from .limits import ROM

# Registers 0 to 11 of the clock of a raw ROM.
CLOCK = bytes([0, 0, 0, 0, 0, 0, 1, 1, 1, 0, 0x20, 6])


class Boot:
    """Words by their physical addresses, as runs, and the constants of the devices."""

    def __init__(self, byte_time: int = 16, unit: int = 1, clock: bytes = CLOCK) -> None:
        self.byte_time = byte_time
        self.unit = unit
        self.clock = clock
        self._starts: list[int] = []
        self._runs: list[bytearray] = []

    def constants(self) -> tuple[int, int, bytes]:
        """The byte time, the unit, and the clock's registers."""
        return self.byte_time, self.unit, self.clock

    def word(self, address: int) -> Optional[int]:
        """The word that is set at an address, or None."""
        run = self._run_at(address)
        if run is None:
            return None
        at = address - self._starts[run]
        return int.from_bytes(self._runs[run][at:at + 4], "little")

    def patch(self, address: int, word: int) -> None:
        """Sets a word."""
        self.put(address, word.to_bytes(4, "little"))

    def put(self, address: int, content: bytes) -> None:
        """Sets words from an address on. Either all of them were set before, or none."""
        run = self._run_at(address)
        if run is not None:
            at = address - self._starts[run]
            self._runs[run][at:at + len(content)] = content
            return
        before = bisect_right(self._starts, address) - 1
        if before >= 0 and self._starts[before] + len(self._runs[before]) == address:
            self._runs[before] += content
            return
        self._starts.insert(before + 1, address)
        self._runs.insert(before + 1, bytearray(content))

    def _run_at(self, address: int) -> Optional[int]:
        """The number of the run that sets the word at an address."""
        run = bisect_right(self._starts, address) - 1
        return run if run >= 0 and address < self._starts[run] + len(self._runs[run]) else None

    def runs(self) -> list[tuple[int, bytes]]:
        """The longest runs of set words, in ascending order, with their addresses."""
        made: list[tuple[int, bytearray]] = []
        for start, run in zip(self._starts, self._runs):
            if made and made[-1][0] + len(made[-1][1]) == start:
                made[-1][1].extend(run)
            else:
                made.append((start, bytearray(run)))
        return [(start, bytes(run)) for start, run in made]

    def write(self) -> bytes:
        """The image as a file of this project's format."""
        runs = self.runs()
        numbers = (self.byte_time, self.unit)
        head = MAGIC + b"".join(it.to_bytes(4, "little") for it in numbers) + self.clock + len(runs).to_bytes(4, "little")
        return head + b"".join(
            start.to_bytes(4, "little") + (len(run) // 4).to_bytes(4, "little") + run for start, run in runs)

    def raw_rom(self) -> Optional[bytes]:
        """The image as a raw ROM, or None where it sets words of RAM, or constants that a raw ROM lacks."""
        if self.constants() != Boot().constants() or any(start not in ROM for start in self._starts):
            return None
        made = bytearray()
        for start, run in self.runs():
            made += bytes(start - ROM.start - len(made)) + run
        return bytes(made)


def boot_of(image: Image, ask: Callable[[Sequence[int]], list[int]]) -> Boot:
    """What an image that the program took sets. `ask` gives the words at places, which only the program knows of a source."""
    if image.kind == "image":
        return _read(image.content)
    boot = Boot()
    if image.kind == "rom":
        if image.content:
            boot.put(ROM.start, image.content + bytes(-len(image.content) % 4))
        return boot
    source = Source(image.content)
    boot = Boot(source.byte_time, source.unit, source.clock)
    places = sorted(source.places)
    for place, word in zip(places, ask(places)):
        boot.patch(place, word)
    return boot


def _read(content: bytes) -> Boot:
    def number(at: int) -> int:
        return int.from_bytes(content[at:at + 4], "little")

    boot = Boot(number(8), number(12), content[16:28])
    at = 32
    for _ in range(number(28)):
        size = 4 * number(at + 4)
        boot.put(number(at), content[at + 8:at + 8 + size])
        at += 8 + size
    return boot


class Source:
    """The places, labels and constants of a source that the program took."""

    def __init__(self, content: bytes) -> None:
        self.byte_time, self.unit, self.clock = 16, 1, CLOCK
        self.places: list[int] = []
        self.labels: dict[str, int] = {}
        place = ROM.start
        for words in self._lines(content.decode("latin-1")):
            if words[0].endswith(":"):
                self.labels[words[0][:-1]] = place
            elif words[0] == ".org":
                place = _number(words[1])
            elif words[0] in (".bytetime", ".unit", ".clock"):
                self._set(words[0], [_number(it) for it in words[1:]])
            else:
                self.places.append(place)
                place += 4

    @staticmethod
    def _lines(text: str) -> Iterator[list[str]]:
        for line in text.split("\n"):
            words = re.findall("[^ \t\r]+", line.partition("#")[0])
            if words:
                yield words

    def _set(self, name: str, numbers: list[int]) -> None:
        if name == ".clock":
            self.clock = bytes(numbers)
        elif name == ".unit":
            self.unit = numbers[0]
        else:
            self.byte_time = numbers[0]


def _number(word: str) -> int:
    """A number of a source; leading zeros are allowed."""
    return int(word, 16) if word.startswith("0x") else int(word.lstrip("0") or "0")
