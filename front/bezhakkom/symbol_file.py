"""An ELF file that has names of addresses and nothing else, for gdb on an image that is none: the labels of a source.

gdb takes what stands at a name for a function, so that it need not look for its beginning.
"""
from __future__ import annotations

import struct
from typing import Iterable, Tuple

from .limits import RAM, RESET_PC, ROM

_MIPS_I_O32 = 0x1000
_EXECUTABLE, _MIPS = 2, 8
_SYMBOLS, _STRINGS, _NO_BITS = 2, 3, 8
_WRITTEN, _ALLOCATED, _RUN = 1, 2, 4
_GLOBAL_FUNCTION = 0x12

_HEADER = struct.Struct("<16sHHIIIIIHHHHHH")
_SECTION = struct.Struct("<10I")
_SYMBOL = struct.Struct("<IIIBBH")

KSEG0 = 0x8000_0000
_IN_ROM, _IN_RAM = 1, 2  # sections
_Section = Tuple[str, int, int, int, int, int, int, int, int]


def content(names: Iterable[tuple[str, int]], rom: int = len(ROM), ram: int = len(RAM)) -> bytes:
    """The file of names with their virtual addresses, in so many bytes of ROM and of RAM."""
    strings = bytearray(b"\0")
    symbols = bytearray(_SYMBOL.size)
    for name, address in names:
        section = _IN_ROM if RESET_PC <= address < RESET_PC + len(ROM) else _IN_RAM
        symbols += _SYMBOL.pack(len(strings), address, 0, _GLOBAL_FUNCTION, 0, section)
        strings += name.encode() + b"\0"
    titles = b"\0.rom\0.ram\0.symtab\0.strtab\0"
    start = _HEADER.size
    sections: list[_Section] = [
        ("", 0, 0, 0, 0, 0, 0, 0, 0),
        (".rom", _NO_BITS, _ALLOCATED | _RUN, RESET_PC, start, rom, 0, 0, 4),
        (".ram", _NO_BITS, _ALLOCATED | _RUN | _WRITTEN, KSEG0, start, ram, 0, 0, 4),
        (".symtab", _SYMBOLS, 0, 0, start, len(symbols), 4, 1, 4),
        (".strtab", _STRINGS, 0, 0, start + len(symbols), len(strings) + len(titles), 0, 0, 1),
    ]
    table = start + len(symbols) + len(strings) + len(titles)
    head = _HEADER.pack(b"\x7fELF\1\1\1", _EXECUTABLE, _MIPS, 1, RESET_PC, 0, table, _MIPS_I_O32, start, 0, 0,
                        _SECTION.size,
                        len(sections), 4)
    return head + symbols + strings + titles + _table(sections, titles, len(strings))


def _table(sections: list[_Section], titles: bytes, place: int) -> bytes:
    """The section headers; the sections' names stand in the last one, from a place on."""
    packed = []
    for title, kind, flags, address, offset, size, link, info, alignment in sections:
        name = place + titles.index(title.encode() + b"\0") if title else 0
        packed.append(_SECTION.pack(name, kind, flags, address, offset, size, link, info, alignment,
                                    _SYMBOL.size if kind == _SYMBOLS else 0))
    return b"".join(packed)
