"""Names of addresses, and back, and their source lines. kseg0 and kseg1 addresses of one physical word have the same names. Others have
none of these: a small number is no address of a kernel that stands at 0x80000000."""
from __future__ import annotations

import re
from bisect import bisect_right
from collections import Counter
from dataclasses import replace
from typing import Iterable, Iterator, List, Optional, Tuple

from . import elf
from .initial import Source
from .elf import Symbol
from .errors import Problem
from .image import Image
from .inlined import Inlined
from .limits import ROM
from .lines import Lines
from .printable import printable
from .sources import Sources

_BRANCHES = frozenset("beq bne bltz bgez bltzal bgezal blez bgtz".split())
_JUMPS = frozenset(("j", "jal"))
_TARGET = re.compile(r"0x[0-9a-f]{8}$")

# Of several names of one address the first of these kinds is shown.
_ORDER = {"func": 0, "object": 1, "other": 2}

# Labels that compilers and linkers make. They are names only where nothing else is near.
_LONGEST_MADE = 256
_MADE = re.compile(r"\.?L\w*\d|_f(?:text|data|bss)$|_(?:etext|edata|end|gp)$|__bss_start$|_[A-Z]+_START_$")


_LONGEST_APART = 1024  # characters of a name with its file


class Symbols:
    """The symbols of a program."""

    def __init__(self, symbols: Iterable[Symbol] = (), lines: Lines = Lines(), sources: Sources = Sources(), inlined: Inlined = Inlined()) -> None:
        self.lines = lines
        self.inlined = inlined
        self.sources = sources
        self._by_name: dict[str, List[Symbol]] = {}
        at: dict[int, Symbol] = {}
        for name, symbol in self._named_apart(symbols):
            for it in dict.fromkeys((name, symbol.name)):
                self._by_name.setdefault(it, []).append(symbol)
            at.setdefault(elf.in_kseg0(symbol.address), symbol)
        self._starts: List[int] = []
        self._sorted: List[Symbol] = []
        end = end_of_sized = 0  # of the last symbol that people gave, and of the last one that has a size
        for start, symbol in sorted(at.items()):
            if _is_made(symbol):
                if start < end:
                    continue
            elif symbol.size:
                end = end_of_sized = start + symbol.size
            elif start >= end_of_sized:
                end = start + _UNSIZED
            self._starts.append(start)
            self._sorted.append(symbol)

    def _named_apart(self, symbols: Iterable[Symbol]) -> Iterator[Tuple[str, Symbol]]:
        """Names with their symbols, of which each has a name of its own: where several sources have the same name, it is that of the file,
        as `a.c:helper`. A symbol that is there twice is left out."""
        by_name: dict[str, dict[int, Symbol]] = {}
        for symbol in sorted(symbols, key=_rank):
            by_name.setdefault(symbol.name, {}).setdefault(elf.in_kseg0(symbol.address), symbol)
        found: List[Tuple[str, Symbol]] = []
        for name, places in by_name.items():
            files = [self._file(symbol) if len(places) > 1 else "" for symbol in places.values()]
            counts = Counter(files)
            for symbol, file in zip(places.values(), files):
                is_apart = file and counts[file] == 1 and len(file) + len(name) <= _LONGEST_APART
                found.append((name, replace(symbol, name=f"{file}:{name}") if is_apart else symbol))
        return iter(sorted(found, key=lambda it: _rank(it[1])))

    def _file(self, symbol: Symbol) -> str:
        """The name of the source that a symbol is of, without its folder, or the empty text."""
        line = self.lines.at(symbol.address) if symbol.kind == "func" and not symbol.file else None
        return printable((symbol.file or (line.file if line else "")).rpartition("/")[2])

    def address(self, name: str) -> Optional[int]:
        """The address of a name, or None. Of a name that has several, it is that of the first one: `found` returns all."""
        return self._by_name[name][0].address if name in self._by_name else None

    def found(self, name: str) -> List[Symbol]:
        """All symbols of a name, each at another address: `helper`, or `a.c:helper` for that of one source."""
        return self._by_name.get(name, [])

    def location(self, symbol: Symbol) -> str:
        """Where a symbol is: `a.c:12`, or its file and its address, as far as they are known."""
        line = self.line(symbol.address) if symbol.kind != "object" else ""
        return line or " ".join([*([symbol.file] if symbol.file else []), f"{symbol.address:#010x}"])

    def at(self, address: int) -> Optional[tuple[Symbol, int]]:
        """The symbol that an address belongs to, and how far the address is beyond its start."""
        address = elf.in_kseg0(address)
        place = bisect_right(self._starts, address) - 1
        if place < 0:
            return None
        symbol, distance = self._sorted[place], address - self._starts[place]
        return (symbol, distance) if distance < (symbol.size or _UNSIZED) else None

    def name(self, address: int) -> str:
        """`main+0x78`, or the empty text where no symbol is known."""
        found = self.at(address)
        if not found:
            return ""
        symbol, distance = found
        return f"{symbol.name}+{distance:#x}" if distance else symbol.name

    def address_and_name(self, address: int) -> str:
        """`0xbfc00078 <main+0x78>`."""
        name = self.name(address)
        return f"{address:#010x} <{name}>" if name else f"{address:#010x}"

    def retargeted(self, address: int, physical: int, text: str) -> str:
        """The text of an instruction, whose target the program counted from the physical address, at its virtual address."""
        name = text.partition(" ")[0]
        found = _TARGET.search(text)
        if not found or name not in _BRANCHES | _JUMPS:
            return text
        target = int(found[0], 16)
        if name in _JUMPS:
            target = (address + 4) & 0xF000_0000 | target & 0x0FFF_FFFF
        else:
            target = (target - physical + address) & 0xFFFF_FFFF
        return text[:found.start()] + self.address_and_name(target)

    def line(self, address: int) -> str:
        """`login.c:44`, or the empty text where no source line is known."""
        found = self.lines.at(address)
        return str(found) if found else ""

    def code(self, address: int) -> str:
        """`main+0x78 (login.c:44)`, as far as that is known."""
        line = self.line(address)
        return (self.name(address) or f"{address:#010x}") + (f" ({line})" if line else "")

    def addresses_of_line(self, file: str, number: int) -> List[int]:
        """The addresses at which a line of a source begins, one in each function and each inlined copy of one, or the first line after it that
        has code."""
        found = self.lines.addresses(file, number)
        if found is None:
            raise Problem(f"no source {file} is among the line tables of the image: compile it with -g, or give the ELF that has them by --symbols")
        if not found:
            raise Problem(f"{file} has no code in line {number:,} or after it")
        first: dict[tuple[int, Optional[int]], int] = {}  # by the begins of functions and copies
        for address, copy in zip(found, self.inlined.around(found)):
            named = self.at(address)
            first.setdefault((address - named[1] if named else address, copy), address)
        return sorted(first.values())

    def function(self, address: int) -> Optional[Tuple[int, int]]:
        """The addresses from which on and below which the function is that an address belongs to, or the part of code after a label."""
        placed = elf.in_kseg0(address)
        shift = address - placed
        for place in reversed(range(bisect_right(self._starts, placed))):
            symbol, start = self._sorted[place], self._starts[place]
            if symbol.kind == "func" and symbol.size:
                if placed < start + symbol.size:
                    return start + shift, start + symbol.size + shift
                break
        found = self.at(address)
        if not found:
            return None
        place = bisect_right(self._starts, placed)
        end = self._starts[place] if place < len(self._starts) else placed + _UNSIZED
        return address - found[1], end + shift

    def is_function(self, address: int) -> bool:
        """Whether a function begins at a virtual address, or a label of code that has a source line."""
        found = self.at(address)
        return found is not None and found[0].kind != "object" and not found[1] and not address % 4 and bool(self.line(address))

    def names(self) -> list[str]:
        """All names, in order. One that several sources have is left out where each has a name with its file."""
        return sorted(name for name, symbols in self._by_name.items() if any(it.name == name for it in symbols))


def _is_made(symbol: Symbol) -> bool:
    return symbol.kind == "other" and len(symbol.name) <= _LONGEST_MADE and bool(_MADE.match(symbol.name))


def _rank(symbol: Symbol) -> Tuple[int, bool, bool, str]:
    return _ORDER[symbol.kind], _is_made(symbol), not symbol.size, symbol.name


# A symbol without a size reaches to the next one, but not beyond this many bytes.
_UNSIZED = 0x1000


def symbols_of(image: Image) -> Symbols:
    """The symbols of the ELFs of an image, and the labels of a source."""
    found = [symbol for file in image.elves for symbol in elf.symbols(file)]
    if image.kind == "source":
        found += (Symbol(name, _virtual(place), 0, "other") for name, place in Source(image.content).labels.items())
    return Symbols(found, Lines(image.elves), Sources(image.elves), Inlined(image.elves))


def _virtual(place: int) -> int:
    """Where code at a physical address runs: ROM from reset in kseg1, RAM mostly in kseg0."""
    return place | (0xA000_0000 if place in ROM else 0x8000_0000)
