"""Functions that a compiler inlined: where the copies begin and which code is theirs, from `.debug_info` of DWARF, versions 2 to 5.

Only the units that can have an answer are read, and at most as many values as the sections have bytes. Copies are missing if that is not
enough, if a unit is damaged, or if it has forms of split DWARF.
"""
from __future__ import annotations

import struct
from bisect import bisect_left, bisect_right
from contextlib import suppress
from dataclasses import dataclass
from heapq import heappop, heappush
from typing import Dict, Iterable, Iterator, List, NamedTuple, Optional, Sequence, Tuple, Union

from . import elf
from .errors import Problem
from .image import SymbolFile
from .printable import printable

_INFO, _ABBREVIATIONS, _STRINGS, _RANGES, _RANGE_LISTS = ".debug_info", ".debug_abbrev", ".debug_str", ".debug_ranges", ".debug_rnglists"
_MOST_VALUES = 1_000_000  # that are read of one ELF, which takes about a second
_RANGE = 4  # values that take as long as a range
_MOST_STRINGS = 64  # places of .debug_str that end with a name
_LONGEST_NAME = 4096

_FUNCTION, _INLINED = 0x2E, 0x1D  # tags
_NAME, _LOW, _HIGH, _ORIGIN, _SPECIFICATION, _ENTRY, _ALL_RANGES = 0x03, 0x11, 0x12, 0x31, 0x47, 0x52, 0x55  # attributes
_ADDRESS, _TEXT, _IN_STRINGS, _CONSTANT = 0x01, 0x08, 0x0E, 0x21  # forms
_OF_UNIT = (0x11, 0x12, 0x13, 0x14, 0x15)  # forms of places that are counted from the unit
_SIZES = {0x01: 4, 0x05: 2, 0x06: 4, 0x07: 8, 0x0B: 1, 0x0C: 1, 0x0E: 4, 0x10: 4, 0x11: 1, 0x12: 2, 0x13: 4, 0x14: 8, 0x17: 4, 0x19: 0, 0x1C: 4,
          0x1D: 4, 0x1E: 16, 0x1F: 4, 0x20: 8, 0x25: 1, 0x26: 2, 0x27: 3, 0x28: 4, 0x29: 1, 0x2A: 2, 0x2B: 3, 0x2C: 4}
_NUMBERS = (0x0D, 0x0F, 0x15, 0x1A, 0x1B, 0x22, 0x23)  # forms of numbers of any length
_BLOCKS = {0x03: 2, 0x04: 4, 0x0A: 1}  # forms of bytes, with the size of their count; 0x09 and 0x18 have one of any length
_LONGEST = 10
_FAULTS = (IndexError, ValueError, struct.error, KeyError)

_Value = Union[int, bytes]
_Abbreviation = Tuple[int, List[Tuple[int, int, int]]]  # a tag, and attributes with their forms and constants


@dataclass(frozen=True)
class Copy:
    """An inlined copy of a function: its name, the virtual address at which it begins, its ranges of addresses, and their size."""

    name: str
    entry: int
    ranges: Tuple[Tuple[int, int], ...]
    size: int


class Inlined:
    """The inlined copies of functions in some ELFs."""

    def __init__(self, files: Iterable[SymbolFile] = ()) -> None:
        self._files = list(files)
        self._tables: Optional[List[_Table]] = None

    def named(self, name: str) -> List[int]:
        """Returns the virtual addresses at which copies of a function begin."""
        return sorted({copy.entry for table in self._opened() for unit in table.units_with(name) for copy in table.copies(unit) if copy.name == name})

    def around(self, addresses: Sequence[int]) -> List[Optional[int]]:
        """Returns for each of some ascending virtual addresses where the innermost copy begins that has the code there."""
        ranges = sorted((begin, end, copy.size, copy.entry) for table in self._opened() for unit in table.units_at(addresses)
                        for copy in table.copies(unit) for begin, end in copy.ranges)
        found: List[Optional[int]] = []
        active: List[Tuple[int, int, int]] = []  # sizes of copies, ends of their ranges, and where they begin: a heap
        at = 0
        for address in addresses:
            while at < len(ranges) and ranges[at][0] <= address:
                _, end, size, entry = ranges[at]
                heappush(active, (size, end, entry))
                at += 1
            while active and active[0][1] <= address:
                heappop(active)
            found.append(active[0][2] if active else None)
        return found

    def _opened(self) -> List[_Table]:
        if self._tables is None:
            self._tables = [_Table(file) for file in self._files]
        return self._tables


class _Unit(NamedTuple):
    """A unit of a table: where it begins and ends, its version and its abbreviations, and where its entries begin."""

    begin: int
    end: int
    version: int
    abbreviations: int
    entries: int


class _Entry(NamedTuple):
    """An entry of a unit: its place, its tag, and its attributes with their forms."""

    place: int
    tag: int
    values: Dict[int, Tuple[int, _Value]]


class _Table:
    """`.debug_info` of an ELF."""

    def __init__(self, file: SymbolFile) -> None:
        self._offset = file.offset
        self._sections: Dict[str, bytes] = {}
        with suppress(Problem):
            self._sections = elf.sections(file, (_INFO, _ABBREVIATIONS, _STRINGS, _RANGES, _RANGE_LISTS))
        self._content = self._sections.get(_INFO, b"")
        self._left = min(_MOST_VALUES, sum(map(len, self._sections.values())))
        self._abbreviations: Dict[int, Dict[int, _Abbreviation]] = {}
        self._copies: Dict[int, List[Copy]] = {}  # by the begins of units
        self._units = list(self._found_units())
        self._begins = [unit.begin for unit in self._units]
        self._ranges: Optional[List[Tuple[Tuple[int, int], ...]]] = None  # of units

    def _found_units(self) -> Iterator[_Unit]:
        content, at = self._content, 0
        with suppress(*_FAULTS):
            while at + 12 <= len(content):
                size, version = struct.unpack_from("<IH", content, at)
                place, = struct.unpack_from("<I", content, at + (8 if version > 4 else 6))
                if 2 <= version <= 5:
                    yield _Unit(at, min(at + 4 + size, len(content)), version, place, at + (12 if version > 4 else 11))
                at += 4 + max(size, 8)

    def units_with(self, name: str) -> List[_Unit]:
        """Returns the units that may contain a name, as text or as an offset into .debug_str."""
        text, strings = name.encode("utf-8", "surrogateescape") + b"\0", self._sections.get(_STRINGS, b"")
        if not self._units:
            return []
        wanted, at = [text], strings.find(text)
        while at >= 0 and len(wanted) < _MOST_STRINGS:
            wanted.append(struct.pack("<I", at))
            at = strings.find(text, at + 1)
        found = set()
        for it in wanted:
            at = self._content.find(it, self._begins[0])
            while at >= 0:
                unit = bisect_right(self._begins, at) - 1
                found.add(unit)
                at = self._content.find(it, max(self._units[unit].end, at + 1))
        return [self._units[unit] for unit in sorted(found)]

    def units_at(self, addresses: Sequence[int]) -> List[_Unit]:
        """The units with the code at one of some ascending addresses."""
        if self._ranges is None:
            self._ranges = [self._ranges_of_unit(unit) for unit in self._units]
        return [unit for unit, ranges in zip(self._units, self._ranges)
                if any(bisect_left(addresses, begin) < bisect_left(addresses, end) for begin, end in ranges)]

    def _ranges_of_unit(self, unit: _Unit) -> Tuple[Tuple[int, int], ...]:
        with suppress(*_FAULTS):
            for entry in self._entries(unit):
                return self._ranges_of(unit, entry, 0)
        return ()

    def copies(self, unit: _Unit) -> List[Copy]:
        """The inlined copies in a unit."""
        if unit.begin not in self._copies:
            self._copies[unit.begin] = self._read(unit)
        return self._copies[unit.begin]

    def _read(self, unit: _Unit) -> List[Copy]:
        functions: Dict[int, Dict[int, Tuple[int, _Value]]] = {}
        inlined: List[_Entry] = []
        base = 0
        with suppress(*_FAULTS):
            for entry in self._entries(unit):
                if not functions and not inlined and _LOW in entry.values and entry.place == unit.entries:
                    base = _number(entry, _LOW)
                if entry.tag == _FUNCTION:
                    functions[entry.place] = entry.values
                elif entry.tag == _INLINED:
                    inlined.append(entry)
        made = []
        for entry in inlined:
            with suppress(*_FAULTS):
                name, ranges = self._name(unit, entry.values, functions), self._ranges_of(unit, entry, base)
                begin = _number(entry, _ENTRY) if entry.values.get(_ENTRY, (0, 0))[0] == _ADDRESS else None
                if name and ranges:
                    size = sum(end - begin for begin, end in ranges)
                    made.append(Copy(name, ranges[0][0] if begin is None else self._placed(begin), ranges, size))
        return made

    def _name(self, unit: _Unit, values: Dict[int, Tuple[int, _Value]], functions: Dict[int, Dict[int, Tuple[int, _Value]]]) -> str:
        """The name of the function from which an entry comes."""
        for _ in range(4):
            if _NAME in values:
                form, value = values[_NAME]
                if form == _IN_STRINGS and isinstance(value, int):
                    strings = self._sections.get(_STRINGS, b"")
                    value = strings[value:strings.index(b"\0", value, value + _LONGEST_NAME)]
                return printable(value.decode("utf-8", "replace")) if isinstance(value, bytes) else ""
            form, value = values[_ORIGIN if _ORIGIN in values else _SPECIFICATION]
            values = functions[value + unit.begin if form in _OF_UNIT else value] if isinstance(value, int) else {}
        return ""

    def _ranges_of(self, unit: _Unit, entry: _Entry, base: int) -> Tuple[Tuple[int, int], ...]:
        """The virtual addresses of the code of an entry."""
        if _ALL_RANGES in entry.values:
            form, at = entry.values[_ALL_RANGES]
            base = _number(entry, _LOW) if _LOW in entry.values else base
            read = self._range_list if unit.version > 4 else self._old_ranges
            found = list(read(at, base)) if isinstance(at, int) and form in (0x06, 0x17) else []
        elif _LOW in entry.values and _HIGH in entry.values:
            low, high = _number(entry, _LOW), _number(entry, _HIGH)
            found = [(low, high if entry.values[_HIGH][0] == _ADDRESS else low + high)]
        else:
            found = []
        return tuple((self._placed(begin), self._placed(begin) + end - begin) for begin, end in found if 0 < begin < end)

    def _placed(self, address: int) -> int:
        return address + self._offset & 0xFFFF_FFFF

    def _old_ranges(self, at: int, base: int) -> Iterator[Tuple[int, int]]:
        while True:
            self._count(_RANGE)
            begin, end = struct.unpack_from("<II", self._sections.get(_RANGES, b""), at)
            at += 8
            if begin == 0xFFFF_FFFF:
                base = end
            elif begin or end:
                yield base + begin, base + end
            else:
                return

    def _range_list(self, at: int, base: int) -> Iterator[Tuple[int, int]]:
        reader = _Reader(self._sections.get(_RANGE_LISTS, b""), at)
        while True:
            self._count(_RANGE)
            kind = reader.fixed(1)
            if kind == 4:
                yield base + reader.long(), base + reader.long()
            elif kind == 5:
                base = reader.fixed(4)
            elif kind == 6:
                yield reader.fixed(4), reader.fixed(4)
            elif kind == 7:
                begin = reader.fixed(4)
                yield begin, begin + reader.long()
            else:
                return

    # Entries

    def _count(self, values: int = 1) -> None:
        self._left -= values
        if self._left < 0:
            raise ValueError

    def _entries(self, unit: _Unit) -> Iterator[_Entry]:
        abbreviations = self._abbreviations_at(unit.abbreviations)
        reader = _Reader(self._content, unit.entries)
        while reader.at < unit.end:
            place, code = reader.at, reader.long()
            if not code:
                continue
            tag, attributes = abbreviations[code]
            self._count(1 + len(attributes))
            values = {}
            for attribute, form, constant in attributes:
                values[attribute] = form, constant if form == _CONSTANT else reader.value(form)
            yield _Entry(place, tag, values)

    def _abbreviations_at(self, place: int) -> Dict[int, _Abbreviation]:
        if place not in self._abbreviations:
            made: Dict[int, _Abbreviation] = {}
            self._abbreviations[place] = made
            reader = _Reader(self._sections.get(_ABBREVIATIONS, b""), place)
            while code := reader.long():
                tag, _ = reader.long(), reader.fixed(1)
                attributes: List[Tuple[int, int, int]] = []
                while True:
                    self._count()
                    attribute, form = reader.long(), reader.long()
                    if not attribute and not form:
                        break
                    attributes.append((attribute, form, reader.long() if form == _CONSTANT else 0))
                made[code] = tag, attributes
        return self._abbreviations[place]


class _Reader:
    """Reads values from an offset on."""

    def __init__(self, content: bytes, at: int) -> None:
        self._content = content
        self.at = at

    def fixed(self, size: int) -> int:
        self.at += size
        if self.at > len(self._content):
            raise IndexError
        return int.from_bytes(self._content[self.at - size:self.at], "little")

    def long(self) -> int:
        """A number of any length: seven bits a byte."""
        value = shift = 0
        while shift < 7 * _LONGEST:
            byte = self._content[self.at]
            self.at += 1
            value |= (byte & 0x7F) << shift
            shift += 7
            if byte < 0x80:
                return value
        raise ValueError

    def value(self, form: int) -> _Value:
        if form in _SIZES:
            return self.fixed(_SIZES[form])
        if form in _NUMBERS:
            return self.long()
        if form == _TEXT:
            begin, self.at = self.at, self._content.index(b"\0", self.at, self.at + _LONGEST_NAME) + 1
            return self._content[begin:self.at - 1]
        if form == 0x16:
            return self.value(self.long())
        size = self.fixed(_BLOCKS[form]) if form in _BLOCKS else self.long() if form in (0x09, 0x18) else self.fixed(len(self._content) + 1)
        self.at += size
        return 0


def _number(entry: _Entry, attribute: int) -> int:
    value = entry.values[attribute][1]
    if isinstance(value, int):
        return value
    raise ValueError
