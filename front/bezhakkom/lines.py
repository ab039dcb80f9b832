"""Source lines of addresses, from the line tables of ELFs: `.debug_line` of DWARF, versions 2 to 5.

A table has a part for each source that was compiled, and a part has sequences: rows of ascending addresses, of which the last one only
ends the row before. So each line belongs to addresses from the begin of its sequence to below its end, and to no others. A part that is
damaged or of a later version has the lines that were read before the fault, or none.

Reading takes time and memory proportional to the bytes of the file, whatever they are: rows are numbers in arrays, and a text that many
entries share is read once.
"""
from __future__ import annotations

import operator
import re
import struct
from array import array
from bisect import bisect_right
from contextlib import suppress
from dataclasses import dataclass
from itertools import compress, count
from pathlib import PurePosixPath
from typing import Dict, Iterable, Iterator, List, Optional, Sequence, Set, Tuple, Union, cast

from . import elf
from .errors import Problem
from .image import SymbolFile
from .printable import printable

_TABLE, _STRINGS, _LINE_STRINGS = ".debug_line", ".debug_str", ".debug_line_str"
_VERSIONS = range(2, 6)
_BEGIN = re.compile(rb"\x00\x05\x02(?=(....))", re.DOTALL)  # sets the address of a sequence; other bytes may look so
_PATH, _FOLDER = 1, 2  # the parts of a file's entry that are its name and the number of its folder
# Forms of such parts: a text, and its place in one of two sections; blocks; a number. The others have fixed sizes.
_TEXT, _IN_STRINGS, _IN_LINE_STRINGS = 0x08, 0x0E, 0x1F
_BLOCK, _SHORT_BLOCK, _NUMBER = 0x09, 0x0A, 0x0F
_SIZES = {0x0B: 1, 0x05: 2, 0x06: 4, 0x07: 8, 0x1E: 16}
_LONGEST = 10  # bytes of a number of any length
_ADDRESS_BYTES = range(1, 9)
_LONGEST_PATH = 4096  # bytes; no system has longer ones
_SHORTEST_PART = 20  # bytes of one that has a file
_GREATEST = 0xFFFF_FFFF  # that a row has room for
# Of the 12 instructions of each program, those that matter; and of those with a length.
_COPY, _ADVANCE, _ADVANCE_LINE, _SET_FILE, _NEGATE, _ADVANCE_CONSTANT, _ADVANCE_FIXED = 1, 2, 3, 4, 6, 8, 9
_END, _SET_ADDRESS = 1, 2

_Text = Tuple[bytes, int]  # bytes, and where in them a text begins that a byte 0 ends
_Numbers = Tuple[int, int]  # of a file and a line


@dataclass(frozen=True)
class Line:
    """A line of a source, from 1 on. The file has its folder, as far as the table says one."""

    file: str
    number: int

    def __str__(self) -> str:
        return f"{printable(PurePosixPath(self.file).name)}:{self.number}"


class Lines:
    """The lines of some ELFs. A part of a table is read once an address in it is asked for: a kernel's has millions of bytes."""

    def __init__(self, files: Iterable[SymbolFile] = ()) -> None:
        self._files = list(files)
        self._all: Optional[List[_Part]] = None
        self._begins: List[int] = []  # of sequences, and perhaps other numbers
        self._parts: List[_Part] = []  # that have them
        self._before = array("I")  # after a place the last one up to it that may begin a sequence, or 0

    def at(self, address: int) -> Optional[Line]:
        """Returns the line of a virtual address, if it is known. kseg0 and kseg1 addresses of one word have the same line."""
        self._find_parts()
        address = elf.in_kseg0(address)
        # Only the sequence that begins last before the address can have it.
        place = self._last(bisect_right(self._begins, address))
        while place:
            part = self._parts[place - 1]
            found = part.sequence(self._begins[place - 1])
            if found:
                numbers = found.at(address)
                return part.line(numbers) if numbers else None
            self._before[place] = place - 1
            place = self._last(place)
        return None

    def _last(self, place: int) -> int:
        """The last place up to one that may begin a sequence. Places that begin none are passed over in less time the next time."""
        before = self._before
        while before[place] != place:
            before[place] = before[before[place]]
            place = before[place]
        return place

    def addresses(self, file: str, number: int) -> Optional[List[int]]:
        """Returns the virtual addresses at which the code of a line begins, or that of the first line after it that has code. `file` is the
        name of a source, or the end of its path. Returns None if there is no such source. Reads the parts of that source."""
        wanted = PurePosixPath(file).parts
        found: Set[int] = set()
        nearest, is_known = 0, False
        for part in self._find_parts():
            files = part.files_of(wanted)
            is_known = is_known or bool(files)
            for address, line in part.lines_of(files) if files else ():
                if line >= number and (not found or line <= nearest):
                    if line != nearest:
                        found.clear()
                    nearest = line
                    found.add(address)
        return sorted(found) if is_known else None

    def _find_parts(self) -> List[_Part]:
        if self._all is None:
            self._all = [part for file in self._files for part in _parts(file)]
            found = sorted(((begin, part) for part in self._all for begin in part.begins()), key=lambda pair: pair[0])
            self._begins, self._parts = [begin for begin, _ in found], [part for _, part in found]
            self._before = array("I", range(len(found) + 1))
        return self._all


def _parts(file: SymbolFile) -> Iterator[_Part]:
    """The parts of an ELF's table, one for each source that was compiled."""
    try:
        sections = elf.sections(file, (_TABLE, _STRINGS, _LINE_STRINGS))
    except Problem:
        return
    table, at = sections.get(_TABLE, b""), 0
    texts = _Texts(sum(map(len, sections.values())))
    while at + 4 <= len(table):
        end = at + 4 + int.from_bytes(table[at:at + 4], "little")
        if end - at >= _SHORTEST_PART:
            yield _Part(table[at:end], sections, file.offset, texts)
        at = end


class _Texts:
    """The texts of an ELF's tables. All of them together have at most so many bytes: those beyond are empty."""

    def __init__(self, size: int) -> None:
        self._left = size
        self._known: Dict[Tuple[int, int], str] = {}  # by the identities of their bytes, and their places in these
        self._parts: Dict[str, Tuple[str, ...]] = {}

    def at(self, text: _Text) -> str:
        content, at = text
        key = id(content), at
        if key not in self._known:
            end = content.find(b"\0", at, at + _LONGEST_PATH)
            self._left -= max(end - at, 0)
            self._known[key] = content[at:end].decode("utf-8", "replace") if end >= 0 and self._left >= 0 else ""
        return self._known[key]

    def parts(self, path: str) -> Tuple[str, ...]:
        """The parts of a path, as `PurePosixPath` has them."""
        if path not in self._parts:
            self._parts[path] = PurePosixPath(path).parts
        return self._parts[path]


class _Rows:
    """A sequence as the table has it: the addresses that are set in it, its rows and its end. Each row has an address from which on it
    holds, the numbers of a file and a line, or 0 for a line that is none, and whether a statement begins there."""

    __slots__ = ("begins", "addresses", "files", "lines", "statements", "end")

    def __init__(self) -> None:
        self.begins: List[int] = []
        self.addresses, self.files, self.lines, self.statements = array("I"), array("I"), array("I"), bytearray()
        self.end = 0


class _Sequence:
    """Rows of ascending addresses up to an end. Of several rows at one address the last one at which a statement begins counts, or else
    the last one of all."""

    __slots__ = ("_rows", "_end", "_shift", "_addresses", "_places")

    def __init__(self, rows: _Rows, offset: int) -> None:
        begin = rows.begins[0] + offset & _GREATEST
        self._rows = rows
        self._end = elf.in_kseg0(rows.end + offset & _GREATEST)
        self._shift = begin - elf.in_kseg0(begin)  # added to an address gives the one that the table has, which may be in kseg1
        if offset or self._shift:
            rows.addresses = array("I", [elf.in_kseg0(address + offset & _GREATEST) for address in rows.addresses])
        # Addresses from which on the row of the same place holds.
        self._addresses, self._places = rows.addresses, cast(Sequence[int], range(len(rows.addresses)))
        if not all(map(operator.lt, rows.addresses, rows.addresses[1:])):
            self._order()

    def _order(self) -> None:
        """Leaves one row at each address, in their order."""
        addresses, statements = self._rows.addresses, self._rows.statements
        of_address = dict(zip(addresses, count()))
        of_address.update(compress(zip(addresses, count()), statements))
        self._addresses = array("I", sorted(of_address))
        self._places = array("I", map(of_address.__getitem__, self._addresses))

    def __bool__(self) -> bool:
        return bool(self._addresses) and self._addresses[0] < self._end

    def at(self, address: int) -> Optional[_Numbers]:
        place = bisect_right(self._addresses, address) - 1
        if place < 0 or address >= self._end:
            return None
        row = self._places[place]
        return self._rows.files[row], self._rows.lines[row]

    def statements_of(self, files: Set[int]) -> Iterator[Tuple[int, int]]:
        """Virtual addresses at which statements of some sources begin, and their lines."""
        rows = self._rows
        for address, file, line, is_statement in zip(rows.addresses, rows.files, rows.lines, rows.statements):
            if is_statement and line and address < self._end and file in files:
                yield address + self._shift, line


class _Part:
    def __init__(self, content: bytes, sections: Dict[str, bytes], offset: int, texts: _Texts) -> None:
        self._content = content
        self._sections = sections
        self._offset = offset
        self._texts = texts
        self._is_open = False
        self._program: Optional[_Program] = None  # None where the head is damaged
        self._sequences: Optional[Dict[int, _Sequence]] = None  # that have addresses, by where they begin

    def begins(self) -> Iterator[int]:
        """Where its sequences begin, and perhaps other numbers. The linker has left out those that begin at 0."""
        begins = (int.from_bytes(match[1], "little") for match in _BEGIN.finditer(self._content))
        return (self._placed(begin) for begin in begins if begin)

    def sequence(self, begin: int) -> Optional[_Sequence]:
        """The sequence that begins at an address, if there is one."""
        return self._read().get(begin)

    def line(self, numbers: _Numbers) -> Optional[Line]:
        """The line with its file, by the numbers that rows have for them."""
        file = self._program.file(numbers[0]) if self._program and numbers[1] > 0 else None
        return Line(file, numbers[1]) if file is not None else None

    def files_of(self, wanted: Tuple[str, ...]) -> Set[int]:
        """The numbers of its sources whose paths end with some parts."""
        self._open()
        return self._program.files_of(wanted) if self._program else set()

    def lines_of(self, files: Set[int]) -> Iterator[Tuple[int, int]]:
        """Virtual addresses at which statements of some sources begin, and their lines."""
        for sequence in {id(it): it for it in self._read().values()}.values():
            yield from sequence.statements_of(files)

    def _placed(self, address: int) -> int:
        return elf.in_kseg0(address + self._offset & 0xFFFF_FFFF)

    def _read(self) -> Dict[int, _Sequence]:
        """Reads it, where that was not done."""
        self._open()
        if self._sequences is None:
            self._sequences = {}
            try:
                for rows in self._program.sequences() if self._program else ():
                    if rows.begins[0]:  # else the linker has left it out
                        made = _Sequence(rows, self._offset)
                        self._sequences.update((self._placed(begin), made) for begin in rows.begins if made)
            except (IndexError, ValueError):
                pass  # the sequences before the fault hold
        return self._sequences

    def _open(self) -> None:
        """Reads its head, where that was not done."""
        if not self._is_open:
            self._is_open = True
            with suppress(IndexError, struct.error, ValueError):
                self._program = _Program(self._content, self._sections, self._texts)


class _Program:
    """The program that makes the rows of a part, with the names of its files."""

    def __init__(self, content: bytes, sections: Dict[str, bytes], texts: _Texts) -> None:
        self._content = content
        self._sections = sections
        self._texts = texts
        self._at = 4
        self._version = self._number(2)
        if self._version not in _VERSIONS:
            raise ValueError
        if self._version > 4:
            self._at += 2  # the sizes of addresses and segments
        begin = self._number(4) + self._at
        self._unit = self._number(1)
        if self._version > 3:
            self._at += 1  # operations of an instruction of a wide machine
        self._is_statement = bool(self._number(1))
        self._line_base, self._line_range, self._first_special = struct.unpack_from("<bBB", content, self._at)
        if not self._line_range:
            raise ValueError
        self._at += 3
        self._arguments = [0, *content[self._at:self._at + self._first_special - 1]]
        self._at += self._first_special - 1
        self._folders: List[_Text] = []
        self._files: Dict[int, Tuple[_Text, int]] = {}  # their names, and the numbers of their folders
        if self._version > 4:
            self._folders = [name for name, _ in self._entries()]
            self._files = dict(enumerate(self._entries()))
        else:
            self._read_old_names()
        self._at = begin

    # Numbers and texts

    def _number(self, size: int) -> int:
        self._at += size
        if self._at > len(self._content):
            raise IndexError
        return int.from_bytes(self._content[self._at - size:self._at], "little")

    def _long(self, is_signed: bool = False) -> int:
        """A number of any length: seven bits a byte."""
        value = shift = 0
        while shift < 7 * _LONGEST:
            byte = self._content[self._at]
            self._at += 1
            value |= (byte & 0x7F) << shift
            shift += 7
            if byte < 0x80:
                return value - (1 << shift) if is_signed and byte & 0x40 else value
        raise ValueError

    def _text(self) -> _Text:
        begin, self._at = self._at, self._content.index(b"\0", self._at) + 1
        return self._content, begin

    # Names of files

    def file(self, number: int) -> Optional[str]:
        """The name of a file by its number, with its folder, or None."""
        if number not in self._files:
            return None
        name, place = self._files[number]
        return _joined(self._folder(place), self._texts.at(name))

    def _folder(self, place: int) -> str:
        return self._texts.at(self._folders[place]) if place and place < len(self._folders) else ""

    def files_of(self, wanted: Tuple[str, ...]) -> Set[int]:
        """The numbers of the files whose paths end with some parts."""
        found = set()
        for number, (text, place) in self._files.items():
            name = self._texts.at(text)
            parts = self._texts.parts(name)[-len(wanted):]
            if len(parts) < len(wanted) and not name.startswith("/"):
                parts = self._texts.parts(self._folder(place))[len(parts) - len(wanted):] + parts
            if parts == wanted:
                found.add(number)
        return found

    def _read_old_names(self) -> None:
        """Up to version 4: folders and files, each list ended by an empty text."""
        self._folders = [(b"\0", 0)]
        while self._content[self._at]:
            self._folders.append(self._text())
        self._at += 1
        while self._content[self._at]:
            name, place = self._text(), self._long()
            self._files[len(self._files) + 1] = name, place
            self._long(), self._long()  # time and size

    def _entries(self) -> List[Tuple[_Text, int]]:
        """The names of a list whose entries have parts, of which a head says the forms, and the numbers of their folders."""
        forms = [(self._long(), self._long()) for _ in range(self._number(1))]
        entries: List[Tuple[_Text, int]] = []
        for _ in range(self._long() if forms else 0):
            name, folder = (b"\0", 0), 0
            for kind, form in forms:
                found = self._part(form)
                if kind == _PATH and isinstance(found, tuple):
                    name = found
                elif kind == _FOLDER and isinstance(found, int):
                    folder = found
            entries.append((name, folder))
        return entries

    def _part(self, form: int) -> Union[_Text, int]:
        if form == _TEXT:
            return self._text()
        if form in (_IN_STRINGS, _IN_LINE_STRINGS):
            section = self._sections.get(_STRINGS if form == _IN_STRINGS else _LINE_STRINGS, b"")
            return section, self._number(4)
        if form == _NUMBER:
            return self._long()
        if form not in (_BLOCK, _SHORT_BLOCK):
            return self._number(_SIZES.get(form, len(self._content)))
        size = self._long() if form == _BLOCK else self._number(1)
        self._at += size
        return 0

    # Rows

    def sequences(self) -> Iterator[_Rows]:
        """Sequences that have an end."""
        content, at, end = self._content, self._at, len(self._content)
        first = self._first_special
        steps = [(code - first) // self._line_range * self._unit for code in range(256)]
        more = [self._line_base + (code - first) % self._line_range for code in range(256)]
        rows = _Rows()
        address, file, line, is_statement = 0, 1, 1, self._is_statement
        while at < end:
            code = content[at]
            at += 1
            if code >= first or code == _COPY:
                if code >= first:
                    address, line = address + steps[code], line + more[code]
                rows.addresses.append(address & _GREATEST)
                rows.files.append(file)
                rows.lines.append(line if 0 < line <= _GREATEST else 0)
                rows.statements.append(is_statement)
                continue
            self._at = at
            if not code:
                size = self._long()
                following, code = self._at + size, self._number(1)
                if code == _END:
                    if rows.begins:
                        rows.end = address
                        yield rows
                    rows = _Rows()
                    address, file, line, is_statement = 0, 1, 1, self._is_statement
                elif code == _SET_ADDRESS:
                    if size - 1 not in _ADDRESS_BYTES:
                        raise ValueError
                    address = self._number(size - 1)
                    rows.begins.append(address)
                self._at = following
            elif code == _ADVANCE:
                address += self._long() * self._unit
            elif code == _ADVANCE_LINE:
                line += self._long(is_signed=True)
            elif code == _SET_FILE:
                file = min(self._long(), _GREATEST)
            elif code == _NEGATE:
                is_statement = not is_statement
            elif code == _ADVANCE_CONSTANT:
                address += steps[255]
            elif code == _ADVANCE_FIXED:
                address += self._number(2)
            else:
                for _ in range(self._arguments[code]):
                    self._long()
            at = self._at


def _joined(folder: str, name: str) -> str:
    return f"{folder}/{name}" if folder and not name.startswith("/") else name
