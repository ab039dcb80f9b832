"""ELFs that were made to take long. Each is read with its names and lines in a process of its own, in time and memory proportional to its
size, or is refused in one line: one of a megabyte within 2 processor seconds and 200 MB. The tests take an eighth of that."""
from __future__ import annotations

import os
import resource
import struct
import unittest
from typing import Callable, Dict, Sequence

from bezhakkom import elf
from bezhakkom.errors import Problem
from bezhakkom.symbols import symbols_of
from front.tests.test_lines import END, begin, part

MEGABYTE = 1 << 20
SIZE = int(os.environ.get("WB_ELF_BYTES", MEGABYTE // 8))  # bytes, about, of each file
SECONDS, MEGABYTES = 2 * SIZE / MEGABYTE, 200 * SIZE / MEGABYTE
BUSY = 3  # times as long as on an idle machine, where other processes share the processor


Section = tuple[int, int, bytes, int, int]  # type, address, content, link, size of an entry


def elf_of(sections: Dict[str, Section], programs: Sequence[bytes] = (), body: bytes = b"", count: int = 0, headers: bytes = b"") -> bytes:
    """An ELF with sections by their names, program headers, and bytes of which these may tell. `count` repeats the last section's header."""
    names = b"\0" + b"".join(name.encode() + b"\0" for name in [*sections, ".shstrtab"])
    at = 52 + 32 * len(programs) + len(body)
    table, contents = bytes(40), b""
    for name, (kind, address, content, link, size) in [*sections.items(), (".shstrtab", (3, 0, names, 0, 0))]:
        header = struct.pack("<10I", names.index(b"\0" + name.encode() + b"\0") + 1, kind, 2 if address else 0, address, at + len(contents),
                             len(content), link, 0, 1, size)
        table += header * (1 + count * (name == [*sections, ""][len(sections) - 1]))
        contents += content
    number = len(table) // 40
    head = b"\x7fELF\1\1\1" + bytes(9) + struct.pack("<HHIIIIIHHHHHH", 2, 8, 1, 0xBFC00000, 52, at + len(contents), 0x1000, 52, 32, len(programs), 40,
                                                     number, number - 1)
    return head + b"".join(programs) + body + contents + table


ROM = struct.pack("<8I", 1, 0, 0xBFC00000, 0xBFC00000, 64, 64, 5, 4)  # a segment of the first bytes of the file


def lines(table: bytes, strings: bytes = b"") -> bytes:
    return elf_of({".debug_line": (1, 0, table, 0, 0), ".debug_line_str": (1, 0, strings, 0, 0)}, [ROM])


def symbols(table: bytes, names: bytes, count: int = 0) -> bytes:
    return elf_of({".strtab": (3, 0, names, 0, 0), ".symtab": (2, 0, table, 1, 16)}, [ROM], count=count)


def symbol(name: int, address: int, info: int = 2) -> bytes:
    return struct.pack("<IIIBBH", name, address & 0xFFFFFFFF, 4, info, 0, 1)


def special(count: int) -> bytes:
    """Rows, each by one byte: 4 bytes and one line on."""
    return bytes((13 + 12 + 4,)) * count


def long(number: int) -> bytes:
    made = bytearray()
    while number >= 0x80:
        made.append(number & 0x7F | 0x80)
        number >>= 7
    return bytes((*made, number))


def files_in_strings(count: int, place: Callable[[int], int]) -> bytes:
    """A part of version 5 with files whose names are in .debug_line_str."""
    named = bytes((1, 1, 0x1F)) + long(1) + bytes(4) + bytes((1, 1, 0x1F)) + long(count) + b"".join(struct.pack("<I", place(it)) for it in range(count))
    head = bytes((4, 1, 1, 0xFD, 12, 13)) + bytes((0, 1, 1, 1, 1, 0, 0, 0, 1, 0, 0, 1)) + named
    rest = struct.pack("<H", 5) + bytes((4, 0)) + struct.pack("<I", len(head)) + head + begin(0xBFC00000) + special(9) + END
    return struct.pack("<I", len(rest)) + rest


def without_form() -> bytes:
    """A list of 2^60 files that have no parts."""
    whole = bytearray(part(5, begin(0xBFC00000) + special(9) + END))
    place = whole.index(b"\x02\x01\x08\x02\x0b\x02one.c")
    whole[place:place + 6] = bytes((0, *[0xFF] * 8, 0x0F))
    return lines(bytes(whole))


def without_range() -> bytes:
    whole = bytearray(part(4, begin(0xBFC00000) + special(9) + b"\x08" + END))
    whole[whole.index(b"\xfd\x0c\x0d") + 1] = 0
    return lines(bytes(whole))


def entries(info: bytes, abbreviations: bytes) -> bytes:
    return elf_of({".debug_info": (1, 0, info, 0, 0), ".debug_abbrev": (1, 0, abbreviations, 0, 0), ".debug_str": (1, 0, b"n\0", 0, 0)}, [ROM])


def unit(abbreviations: int, content: bytes) -> bytes:
    return struct.pack("<IHBBI", len(content) + 8, 5, 1, 4, abbreviations) + content


def opened(program: bytes) -> bytes:
    return lines(part(4, begin(0xBFC00000) + program + END))


def extended(content: bytes) -> bytes:
    return b"\0" + long(len(content)) + content


NAME = b"n" * 4000 + b"\0"
MANY = SIZE // 16
HOSTILE: Dict[str, Callable[[], bytes]] = {
    "entries of attributes without bytes": lambda: entries(unit(0, b"\x01" * (SIZE // 2) + b"n\0"), b"\x01\x11\x00" + b"\x3f\x19" * (SIZE // 4) + b"\0\0\0"),
    "units whose abbreviations overlap": lambda: entries(b"".join(unit(3 * it, b"\x01n\0") for it in range(SIZE // 30)), b"\x01\x11\x00" * (SIZE // 6)),
    "copies that share ranges": lambda: elf_of({
        ".debug_info": (1, 0, unit(0, b"\x01" + struct.pack("<II", 0xBFC00000, 64) + b"\x02n\0" + (b"\x03" + struct.pack("<II", 21, 12)) * (SIZE // 18)), 0, 0),
        ".debug_abbrev": (1, 0, b"\x01\x11\x01\x11\x01\x12\x06\0\0\x02\x2e\0\x03\x08\0\0\x03\x1d\0\x31\x13\x55\x17\0\0\0", 0, 0),
        ".debug_rnglists": (1, 0, bytes(12) + b"\x07\0\0\xc0\xbf\x10" * (SIZE // 12) + b"\0", 0, 0)}, [ROM]),
    "files without parts": without_form,
    "a range of lines that is 0": without_range,
    "an advance without an end": lambda: opened(b"\x02" + b"\xff" * SIZE),
    "an address of a million bytes": lambda: opened(extended(b"\x02" + b"\xff" * (SIZE // 2)) + special(SIZE // 2)),
    "a line number that grows": lambda: opened(b"\x03\xff\xff\xff\xff\xff\xff\xff\xff\xff\x00\x01" * (SIZE // 12)),
    "a million rows": lambda: opened(special(SIZE)),
    "rows at one address": lambda: opened(b"\x01" * SIZE),
    "rows that go back": lambda: opened(b"".join(b"\0\x05\x02" + struct.pack("<I", 0xBFC00000 + (it * 7919 & 0xFFFF) * 4) + b"\x01" for it in range(SIZE // 8))),
    "sequences of one row": lambda: opened(b"".join(b"\x01\x02\x01" + END + begin(0xBFC00000 + 8 * it) for it in range(SIZE // 13))),
    "parts of no bytes": lambda: lines(bytes(SIZE)),
    "small parts": lambda: lines(part(4, b"", (b"x.c",)) * (SIZE // 50)),
    "begins that are none": lambda: opened(b"\0\x07" + b"\x00\x05\x02\x00\x00\xc0\xbf" * (SIZE // 7)),
    "files that share a long path": lambda: lines(files_in_strings(SIZE // 8, lambda it: 0), b"a/" * 2000 + b"x.c\0" + bytes(SIZE // 2)),
    "files within one text": lambda: lines(files_in_strings(SIZE // 8, lambda it: it), b"a/" * (SIZE // 4) + b"x.c\0"),
    "names that share one": lambda: symbols(b"".join(symbol(0, 0x80000000 + 4 * it) for it in range(MANY)), NAME),
    "labels that share one": lambda: symbols(b"".join(symbol(0, 0x80000000 + 4 * it, 0) for it in range(MANY)), b"L" + NAME),
    "names within one": lambda: symbols(b"".join(symbol(it, 0x80000000 + 4 * it) for it in range(MANY // 2)), b"n" * (SIZE // 2) + b"\0"),
    "names apart by file": lambda: symbols(b"".join(symbol(it % 2 * 4001, 0, 4) + symbol(8002 + it // 2 * 4, 0x80000000 + 4 * it)
                                                    for it in range(MANY // 3)), NAME + NAME.upper() + b"".join(b"%03x\0" % (it & 0xFFF) for it in range(MANY // 6))),
    "tables that overlap": lambda: symbols(b"".join(symbol(1, 0x80000000 + 4 * it) for it in range(MANY // 2)), b"\0name\0", count=SIZE // 80),
    "empty tables with one list of names": lambda: symbols(b"", b"n" * (SIZE // 2), count=SIZE // 80),
    "segments that share a megabyte": lambda: elf_of({}, [ROM, *(struct.pack("<8I", 1, 0, 0x80000000, 0x80000000, SIZE // 2, SIZE // 2, 5, 4)
                                                                 for _ in range(SIZE // 64))], bytes(SIZE // 2)),
    "segments apart that share it": lambda: elf_of({}, [ROM, *(struct.pack("<8I", 1, 0, it << 20, it << 20, SIZE, SIZE, 5, 4) for it in range(8))], bytes(SIZE)),
    "segments without bytes": lambda: elf_of({}, [ROM, *(struct.pack("<8I", 1, 0, it * 64, it * 64, 0, 4, 5, 4) for it in range(SIZE // 32))]),
    "segments and sections": lambda: elf_of({"x": (7, 0x80000000, b"", 0, 0)}, [ROM, *(struct.pack("<8I", 1, 0, 0x80000000, 0x80000000, 0, 4, 5, 4)
                                                                                       for _ in range(SIZE // 72))], count=SIZE // 72),
}


def read(content: bytes) -> str:
    """Reads an ELF as the front ends do, and asks for names and lines. Returns what the user is told."""
    notes: list[str] = []
    try:
        image, notes = elf.image_of(content, "x.elf")
        symbols = symbols_of(image)
        symbols.names(), symbols.name(0xBFC00004), symbols.line(0xBFC00000), symbols.line(0x80000800)
        symbols.inlined.named("n"), symbols.inlined.around([0xBFC00000, 0xBFC00010])
        for file in "one.c", "a/b/x.c":
            symbols.lines.addresses(file, 1)
    except Problem as problem:
        return str(problem)
    return "\n".join(notes)


def measured(content: bytes) -> tuple[str, float, float]:
    """What the user is told of an ELF, and how many processor seconds and megabytes it takes."""
    given, taken = os.pipe()
    child = os.fork()
    if not child:
        resource.setrlimit(resource.RLIMIT_CPU, (60, 60))
        before = resource.getrusage(resource.RUSAGE_SELF)
        said = read(content)
        after = resource.getrusage(resource.RUSAGE_SELF)
        seconds = after.ru_utime + after.ru_stime - before.ru_utime - before.ru_stime
        os.write(taken, f"{seconds} {(after.ru_maxrss - before.ru_maxrss) / 1024} {said[:1000]}".encode())
        os._exit(0)
    os.close(taken)
    with open(given) as pipe:
        shown = pipe.read()
    status = os.waitpid(child, 0)[1]
    if not shown:
        raise AssertionError(f"it ended with {status}")
    used, megabytes, told = shown.split(" ", 2)
    return told, float(used), float(megabytes)


class Hostile(unittest.TestCase):
    def test_elf_that_was_made_to_take_long_is_read_in_bounded_time_and_memory_or_refused_in_a_line(self) -> None:
        for name, make in HOSTILE.items():
            with self.subTest(name):
                content = make()
                told, seconds, megabytes = measured(content)
                if "WB_ELF_BYTES" in os.environ:
                    print(f"{seconds:5.2f} s {megabytes:4.0f} MB {len(content):9,} bytes  {name}: {told[:150]}", flush=True)
                self.assertLess(len(content), 1.2 * SIZE + 1000)
                self.assertLess(told.count("\n"), 2)
                self.assertLess(seconds, BUSY * SECONDS)
                self.assertLess(megabytes, MEGABYTES)


if __name__ == "__main__":
    unittest.main()
