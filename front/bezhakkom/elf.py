"""ELF files for this machine: 32-bit little-endian MIPS. Their segments become an image, their symbols names of addresses.

Time and memory are proportional to the size of the file, whatever its tables claim. So segments and names, which may share bytes, are
read in place, and a name that many symbols share is read once.
"""
from __future__ import annotations

import struct
from bisect import bisect_left
from dataclasses import dataclass, replace
from typing import Iterator, Literal, NamedTuple, Sequence

from .initial import Boot
from .errors import Problem
from .image import ELF_MAGIC, Image, SymbolFile
from .limits import RAM, RESET_PC, ROM
from .printable import printable

_MIPS = 8
_MACHINES = {3: "x86", 20: "PowerPC", 40: "ARM", 62: "x86-64", 183: "AArch64", 243: "RISC-V", 258: "LoongArch"}
_EXECUTABLE, _SHARED = 2, 3
_MAPPED_END = 0x8000_0000  # virtual addresses below it are mapped by translation entries
_LOAD = 1
_SYMBOL_TABLE = 2
_ALLOCATED, _COMPRESSED = 2, 0x800
_NOTES = {7, 0x7000_0006, 0x7000_002A}  # notes, .reginfo, .MIPS.abiflags
_UNDEFINED, _ABSOLUTE = 0, 0xFFF1
_KINDS = {0: "other", 1: "object", 2: "func"}
_FILE = 4
_LONGEST_NAME = 4096

_HEADER = struct.Struct("<HHIIIIIHHHHHH")
_PROGRAM_HEADER = struct.Struct("<8I")
_SECTION_HEADER = struct.Struct("<10I")
_SYMBOL = struct.Struct("<IIIBBH")


@dataclass(frozen=True)
class Segment:
    """A part of the file that is loaded: where it lies, its bytes, and its size in memory, which may be greater."""

    virtual: int
    physical: int
    content: memoryview
    size: int


@dataclass(frozen=True)
class Symbol:
    """A name of an address. `kind` is func, object or other; a size of 0 is not known. A name that is local to a source has its file, as
    far as the table says one."""

    name: str
    address: int
    size: int
    kind: str
    file: str = ""


@dataclass(frozen=True)
class Elf:
    """What an ELF file says that matters here."""

    entry: int
    architecture: int
    segments: list[Segment]
    symbols: list[Symbol]


class _Section(NamedTuple):
    """A section header."""

    name: int
    type: int
    flags: int
    address: int
    offset: int
    size: int
    link: int
    info: int
    alignment: int
    entry_size: int


def read(content: bytes, name: str) -> Elf:
    """Reads an ELF file, or refuses it with the reason."""
    return _Reader(content, name, (_EXECUTABLE,)).read()


def symbols(file: SymbolFile) -> Iterator[Symbol]:
    """The symbols of an ELF, which may be one that is linked to be moved, at their addresses with the offset."""
    for symbol in _Reader(file.content, file.name, (_EXECUTABLE, _SHARED)).read().symbols:
        yield replace(symbol, address=symbol.address + file.offset & 0xFFFF_FFFF)


def sections(file: SymbolFile, names: Sequence[str]) -> dict[str, bytes]:
    """The contents of sections of an ELF, by their names. Those that are compressed are left out."""
    return _Reader(file.content, file.name, (_EXECUTABLE, _SHARED)).sections(names)


class _Reader:
    def __init__(self, content: bytes, name: str, kinds: tuple[int, ...]) -> None:
        self.content = content
        self.name = name
        self.kinds = kinds
        self._names: dict[int, str] = {}  # that were read, by their places
        self._left = len(content)  # so many bytes of names may still be read

    def sections(self, names: Sequence[str]) -> dict[str, bytes]:
        *_, at, _, _, _, _, size, count, of_names = self._unpack(_HEADER, 16, "its header")
        headers = [_Section(*self._unpack(_SECTION_HEADER, at + it * size, f"section header {it}")) for it in range(count)]
        if of_names >= count:
            return {}
        texts = self._view(headers[of_names].offset, headers[of_names].size, "its names")
        titles = {name: name.encode() + b"\0" for name in names}
        found = {name: it for it in headers for name, title in titles.items() if texts[it.name:it.name + len(title)] == title}
        return {name: bytes(self._view(it.offset, it.size, name)) for name, it in found.items() if not it.flags & _COMPRESSED}

    def read(self) -> Elf:
        self._check_machine()
        (kind, _, _, entry, programs, sections, flags,
         _, program_size, program_count, section_size, section_count, _) = self._unpack(_HEADER, 16, "its header")
        if kind not in self.kinds:
            raise self._problem("has no fixed addresses yet: link it, without PIE (ld -static -no-pie -Ttext 0xbfc00000)")
        if program_count and program_size < _PROGRAM_HEADER.size or section_count and section_size < _SECTION_HEADER.size:
            raise self._problem("has headers that are too small")
        headers = [_Section(*self._unpack(_SECTION_HEADER, sections + it * section_size, f"section header {it}"))
                   for it in range(section_count)]
        notes = _Notes(headers)
        segments = [it for it in self._segments(programs, program_size, program_count) if not notes.are_all_of(it)]
        return Elf(entry, flags >> 28, segments, list(self._symbols(headers)))

    def _check_machine(self) -> None:
        if not self.content.startswith(ELF_MAGIC) or len(self.content) < 16:
            raise self._problem("is no ELF")
        order: Literal["little", "big"] = "big" if self.content[5] == 2 else "little"
        machine = int.from_bytes(self._view(18, 2, "its header"), order)
        if machine != _MIPS:
            known = f" ({_MACHINES[machine]})" if machine in _MACHINES else ""
            raise self._problem(f"is for machine {machine} of ELF's list{known}, not for MIPS ({_MIPS}): "
                                "compile it with a compiler for MIPS, such as mipsel-linux-gnu-gcc")
        if self.content[4] != 1:
            raise self._problem("is a 64-bit ELF; the machine is a 32-bit MIPS: compile with -mabi=32")
        if self.content[5] != 1:
            raise self._problem("is big-endian; the machine is little-endian: compile with -EL")

    def _segments(self, at: int, size: int, count: int) -> Iterator[Segment]:
        for number in range(count):
            kind, offset, virtual, physical, in_file, in_memory, _, _ = self._unpack(
                _PROGRAM_HEADER, at + number * size, f"program header {number}")
            if kind == _LOAD and in_memory:
                if in_file > in_memory:
                    raise self._problem(f"has a segment {number} that is larger in the file than in memory")
                yield Segment(virtual, physical, self._view(offset, in_file, f"segment {number}"), in_memory)

    def _symbols(self, headers: list[_Section]) -> Iterator[Symbol]:
        tables = [header for header in headers if header.type == _SYMBOL_TABLE]
        if sum(header.size for header in tables) > len(self.content):
            raise self._problem("has symbol tables that are larger than the file")
        for header in tables:
            if header.link >= len(headers) or header.entry_size < _SYMBOL.size:
                raise self._problem("has a symbol table without its strings")
            table = self._view(header.offset, header.size, "its symbols")
            strings = headers[header.link]
            self._view(strings.offset, strings.size, "its names")
            file = ""  # of the local symbols that follow
            for place in range(0, len(table) - header.entry_size + 1, header.entry_size):
                fields = _SYMBOL.unpack_from(table, place)
                name = self._name(strings, fields[0])
                if fields[3] & 15 == _FILE:
                    file = name
                else:
                    yield from _symbol(fields, name, file)

    def _name(self, strings: _Section, at: int) -> str:
        """The printable text at a place of a section, up to a byte 0, or nothing if none is near. All of them together have at most as many
        bytes as the file."""
        place = strings.offset + at
        if at >= strings.size or place in self._names:
            return self._names.get(place, "") if at < strings.size else ""
        end = self.content.find(b"\0", place, min(place + _LONGEST_NAME, strings.offset + strings.size))
        self._left -= max(end - place, 0)
        if self._left < 0:
            raise self._problem("has names that lie within each other")
        name = printable(self.content[place:end].decode("utf-8", "replace")) if end >= 0 else ""
        self._names[place] = name
        return name

    def _unpack(self, layout: struct.Struct, at: int, what: str) -> tuple:
        return layout.unpack(self._view(at, layout.size, what))

    def _view(self, at: int, size: int, what: str) -> memoryview:
        """Bytes of the file, which are not copied."""
        if at + size > len(self.content):
            raise self._problem(f"ends before the end of {what}")
        return memoryview(self.content)[at:at + size]

    def _problem(self, what: str) -> Problem:
        return Problem(f"{self.name} {what}", 1)


class _Notes:
    """Where the sections of a file are that hold notes of the tools, and where the others are."""

    def __init__(self, sections: list[_Section]) -> None:
        allocated = [it for it in sections if it.flags & _ALLOCATED]
        self._notes = sorted(it.address for it in allocated if it.type in _NOTES)
        self._others = sorted(it.address for it in allocated if it.type not in _NOTES)

    def are_all_of(self, segment: Segment) -> bool:
        """Whether a segment holds only notes, and nothing of the program. Linkers put it at 0x00400000."""
        notes, others = (bisect_left(starts, segment.virtual + segment.size) - bisect_left(starts, segment.virtual)
                         for starts in (self._notes, self._others))
        return notes > 0 and not others


def _symbol(fields: tuple, name: str, file: str) -> Iterator[Symbol]:
    """The symbol of an entry of the table, if it is a name of an address that people use."""
    _, address, size, info, _, section = fields
    if name and name[0] not in ".$" and info & 15 in _KINDS and section not in (_UNDEFINED, _ABSOLUTE):
        yield Symbol(name, address, size, _KINDS[info & 15], "" if info >> 4 else file)


# What an ELF becomes

def image_of(content: bytes, name: str) -> tuple[Image, list[str]]:
    """The image that an ELF file makes, and notes for the user."""
    elf = read(content, name)
    boot, notes = placed(elf, name)
    notes += begin(boot, elf.entry, name)
    return Image(name, "image", boot.write(), (SymbolFile(name, content),)), notes


def placed(elf: Elf, name: str) -> tuple[Boot, list[str]]:
    """What the segments of an ELF set, and notes for the user."""
    boot, notes = Boot(), []
    for address, run in _runs(elf, name):
        boot.put(address, run)
    mapped = [it for it in elf.segments if it.virtual == it.physical < _MAPPED_END]
    if mapped:
        more = f", and {len(mapped) - 1:,} more" if len(mapped) > 1 else ""
        notes.append(f"{name} has a segment at {mapped[0].virtual:#010x}{more}: it is put at that physical address; "
                     "at the virtual one nothing is mapped at reset")
    if elf.architecture:
        notes.append(f"{name} was compiled for a later MIPS, whose instructions the R3000 may lack: compile it with -march=r3000")
    return boot, notes


def begin(boot: Boot, entry: int, name: str) -> list[str]:
    """Puts a jump to an entry where the machine begins, if nothing is there. Gives notes for the user."""
    if boot.word(ROM.start) is not None:
        return []
    _jump_to_entry(boot, entry, name)
    return [f"{name} has nothing at the reset vector {RESET_PC:#010x}: a jump to its entry {entry:#010x} was put there"]


def _runs(elf: Elf, name: str) -> list[tuple[int, bytes]]:
    """The words that the segments set, with their physical addresses. Bytes of these words that no segment sets are 0."""
    runs: list[tuple[int, bytearray]] = []
    end = 0
    for start, segment in sorted(((_physical(it, name), it) for it in elf.segments), key=lambda it: it[0]):
        if not segment.content:
            continue
        if start < end:
            raise Problem(f"{name} has two segments at {segment.physical:#010x}", 1)
        if runs and start // 4 <= (end - 1) // 4:
            runs[-1][1].extend(bytes(start - end))
            runs[-1][1].extend(segment.content)
        else:
            runs.append((start & ~3, bytearray(start & 3) + segment.content))
        end = start + len(segment.content)
    return [(start, bytes(run) + bytes(-len(run) % 4)) for start, run in runs]


def _physical(segment: Segment, name: str) -> int:
    """Where a segment lies in RAM or ROM."""
    start = physical_of(segment.physical)
    why = outside(start, segment.size)
    if why:
        raise Problem(f"{name} has a segment of {segment.size:,} bytes at {segment.physical:#010x}, {why}", 1)
    return start


def outside(start: int, size: int) -> str:
    """Why bytes at a physical address are not all in RAM or ROM, and what to do, or the empty text."""
    for memory, text in ((RAM, "RAM, 8 MiB from 0x80000000"), (ROM, f"ROM, 256 KiB from {RESET_PC:#010x}")):
        if start in memory:
            over = start + size - memory.stop
            return f"which is too long by {over:,} byte{'s' * (over > 1)}: it ends after {text}. Make it shorter, or link it elsewhere" if over > 0 else ""
    return (f"which is neither in RAM, 8 MiB from 0x80000000, nor in ROM, 256 KiB from {RESET_PC:#010x}: "
            "link it there (ld -Ttext, -Tdata)")


def physical_of(address: int) -> int:
    """The physical address of one in kseg0 or kseg1; others are taken as they are."""
    return address & 0x1FFF_FFFF if 0x8000_0000 <= address < 0xC000_0000 else address


def in_kseg0(address: int) -> int:
    """The address in kseg0 of one in kseg1; others are taken as they are."""
    return address & ~0x2000_0000 if 0xA000_0000 <= address < 0xC000_0000 else address


def jump_to(entry: int) -> tuple[int, int, int, int]:
    """The words of a jump: lui r26; ori r26, r26; jr r26; sll."""
    return 0x3C1A_0000 | entry >> 16, 0x375A_0000 | entry & 0xFFFF, 0x0340_0008, 0


def _jump_to_entry(boot: Boot, entry: int, name: str) -> None:
    """Puts a jump to the entry at the reset vector, where nothing else is."""
    nothing = f"{name} has nothing at the reset vector {RESET_PC:#010x}"
    if physical_of(entry) == entry:
        raise Problem(f"{nothing}, and its entry {entry:#010x} is no address of kseg0 or kseg1, which alone are there at reset: "
                      "link it to 0x80010000 or so (ld -Ttext 0x80010000)", 1)
    if entry % 4 or boot.word(physical_of(entry)) is None:
        raise Problem(f"{nothing}, and at its entry {entry:#010x} there is no instruction", 1)
    jump = jump_to(entry)
    places = [ROM.start + 4 * it for it in range(len(jump))]
    if any(boot.word(it) is not None for it in places):
        raise Problem(f"{nothing}, and no room for a jump to its entry there", 1)
    for place, word in zip(places, jump):
        boot.patch(place, word)
