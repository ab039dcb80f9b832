"""ELFs: what they become, why one is refused, and names of addresses. The files are made here, byte by byte."""
from __future__ import annotations

import random
import struct
import unittest
from dataclasses import replace
from typing import Sequence

from bezhakkom import elf
from bezhakkom.initial import Boot, Source, boot_of
from bezhakkom.elf import Symbol
from bezhakkom.errors import Problem
from bezhakkom.image import Image, SymbolFile, kind_of
from bezhakkom.symbols import Symbols, symbols_of

# Where the parts of a made ELF stand.
_HEADER_BYTES, _PROGRAM_BYTES, _SECTION_BYTES = 52, 32, 40

Part = tuple[int, int, bytes, int]  # virtual and physical address, bytes, size in memory


def made(parts: Sequence[Part], entry: int = 0xBFC0_0000, symbols: Sequence[tuple[str, int, int, int]] = (), *,
         bits: int = 1, order: int = 1, kind: int = 2, machine: int = 8, flags: int = 0x1001) -> bytes:
    """An ELF with segments, and with symbols: name, address, size, and type."""
    names, table = b"\0", bytes(16)
    for name, address, size, info in symbols:
        table += struct.pack("<IIIBBH", len(names), address, size, info, 0, 1)
        names += name.encode() + b"\0"
    at = _HEADER_BYTES + _PROGRAM_BYTES * len(parts)
    programs, body = b"", b""
    for virtual, physical, content, size in parts:
        programs += struct.pack("<8I", 1, at + len(body), virtual, physical, len(content), size, 5, 4)
        body += content
    sections = b""
    if symbols:
        tables = at + len(body)
        sections = bytes(_SECTION_BYTES)
        sections += struct.pack("<10I", 0, 2, 0, 0, tables, len(table), 2, 1, 4, 16)
        sections += struct.pack("<10I", 0, 3, 0, 0, tables + len(table), len(names), 0, 0, 1, 0)
        body += table + names
    head = b"\x7fELF" + bytes([bits, order, 1]) + bytes(9)
    head += struct.pack("<HHIIIIIHHHHHH", kind, machine, 1, entry, _HEADER_BYTES, at + len(body), flags, _HEADER_BYTES,
                        _PROGRAM_BYTES, len(parts), _SECTION_BYTES, len(sections) // _SECTION_BYTES, 0)
    return head + programs + body + sections


def words(content: bytes) -> Boot:
    image, _ = elf.image_of(content, "x.elf")
    return boot_of(image, lambda places: [])


class Images(unittest.TestCase):
    def test_segments(self) -> None:
        """kseg0, kseg1 and physical addresses; what is not in the file is not set; bytes share a word."""
        boot = words(made([
            (0xBFC0_0000, 0xBFC0_0000, b"\1\2\3\4", 4), (0x8000_1000, 0x8000_1000, b"\5\6\7\x08\x09", 64),
            (0xA000_2002, 0xA000_2002, b"\x0a", 1), (0x8000_2003, 0x2003, b"\x0b\x0c", 2),
            (0x8000_3000, 0x9FC0_0100, b"\x0d\0\0\0", 4)]))
        self.assertEqual(boot.runs(), [
            (0x1000, b"\5\6\7\x08\x09\0\0\0"), (0x2000, b"\0\0\x0a\x0b\x0c\0\0\0"),
            (0x1FC0_0000, b"\1\2\3\4"), (0x1FC0_0100, b"\x0d\0\0\0")])

    def test_raw_rom(self) -> None:
        boot = words(made([(0xBFC0_0000, 0xBFC0_0000, b"\1\2\3\4", 4), (0xBFC0_0010, 0xBFC0_0010, b"\5\0\0\0", 4)]))
        self.assertEqual(boot.raw_rom(), b"\1\2\3\4" + bytes(12) + b"\5\0\0\0")
        boot.patch(0, 1)
        self.assertIsNone(boot.raw_rom())

    def test_jump_to_the_entry(self) -> None:
        """lui r26, 0x8001; ori r26, r26, 0x0004; jr r26; sll r0, r0, 0"""
        content = made([(0x8001_0000, 0x8001_0000, bytes(8), 8)], entry=0x8001_0004)
        image, notes = elf.image_of(content, "x.elf")
        self.assertRegex(notes[0], "nothing at the reset vector 0xbfc00000: a jump to its entry 0x80010004")
        rom = boot_of(image, lambda places: []).runs()[1]
        self.assertEqual(rom, (0x1FC0_0000, struct.pack("<4I", 0x3C1A_8001, 0x375A_0004, 0x0340_0008, 0)))

    def test_a_later_mips(self) -> None:
        _, notes = elf.image_of(made([(0xBFC0_0000, 0xBFC0_0000, bytes(4), 4)], flags=0x7000_1001), "x.elf")
        self.assertRegex(notes[0], "later MIPS")

    def test_a_physical_segment(self) -> None:
        image, notes = elf.image_of(made([(0xBFC0_0000, 0xBFC0_0000, bytes(4), 4), (0x40_0000, 0x40_0000, b"data", 4)]), "x.elf")
        self.assertRegex(notes[0], "a segment at 0x00400000: it is put at that physical address")
        self.assertEqual(boot_of(image, lambda places: []).word(0x40_0000), int.from_bytes(b"data", "little"))

    def test_refused(self) -> None:
        rom = (0xBFC0_0000, 0xBFC0_0000, bytes(4), 4)
        for content, said in (
                (made([rom], bits=2), "64-bit"), (made([rom], order=2, machine=0x0800), "big-endian"), (made([rom], machine=3), "machine 3"),
                (made([rom], kind=1), "no fixed addresses"), (made([rom], kind=3), "no fixed addresses"),
                (made([rom, (0x1000_0000, 0x1000_0000, b"x", 1)]), "neither in RAM.*nor in ROM"),
                (made([rom, (0x8080_0000, 0x8080_0000, b"x", 1)]), "neither in RAM"),
                (made([rom, (0x807F_F000, 0x807F_F000, b"x", 0x1001)]), "4,097 bytes at 0x807ff000, which is too long by 1 byte: it ends after RAM"),
                (made([rom, (0x8000_0000, 0x8000_0000, bytes(8), 10 << 20)]), "10,485,760 bytes at 0x80000000, which is too long by 2,097,152 bytes"),
                (made([rom, (0xBFC3_FFFC, 0xBFC3_FFFC, bytes(8), 8)]), "which is too long by 4 bytes: it ends after ROM"),
                (made([rom], bits=2, machine=62), r"is for machine 62 of ELF's list \(x86-64\), not for MIPS"),
                (made([rom], order=2, machine=0x1400), "machine 20"),
                (made([rom, (0xC000_0000, 0xC000_0000, b"x", 1)]), "neither in RAM"),
                (made([rom, (0x9FC0_0002, 0x9FC0_0002, b"x", 1)]), "two segments"),
                (made([(0x40_0000, 0x40_0000, bytes(8), 8)], entry=0x40_0000), "no address of kseg0 or kseg1"),
                (made([(0x8000_0000, 0x8000_0000, bytes(8), 8)], entry=0x8000_0010), "no instruction"),
                (made([], entry=0x8000_0000), "no instruction"),
                (made([(0x8000_0000, 0x8000_0000, bytes(8), 8), (0xBFC0_0004, 0xBFC0_0004, bytes(4), 4)], entry=0x8000_0000),
                 "no room for a jump"),
                (made([rom])[:60], "ends before the end of program header 0"), (made([rom])[:30], "ends before the end of its header"),
                (made([rom])[:85], "ends before the end of segment 0"), (b"\x7fELF", "is no ELF"),
                (made([(0xBFC0_0000, 0xBFC0_0000, bytes(8), 4)]), "larger in the file")):
            with self.assertRaisesRegex(Problem, said):
                elf.image_of(content, "x.elf")

    def test_broken(self) -> None:
        """Whatever bytes are wrong, an ELF is read or refused."""
        good = made([(0xBFC0_0000, 0xBFC0_0000, bytes(40), 40), (0x8000_0000, 0x8000_0000, b"hello", 99)],
                    symbols=[("main", 0x8000_0000, 4, 2)])
        for seed in range(2000):
            source = random.Random(seed)
            content = bytearray(good[:source.choice((len(good), source.randrange(len(good))))])
            for _ in range(source.randrange(1, 4)):
                if content:
                    content[source.randrange(len(content))] = source.choice((0, 1, 0xFF, source.randrange(256)))
            try:
                elf.image_of(bytes(content), "x.elf")
            except Problem:
                pass


class Names(unittest.TestCase):
    def setUp(self) -> None:
        self.symbols = Symbols([
            Symbol("main", 0x8000_1000, 0x20, "func"), Symbol("other", 0x8000_1000, 0, "other"),
            Symbol("buffer", 0xA000_2000, 8, "object"), Symbol("label", 0xBFC0_0000, 0, "other")])

    def test_there_and_back(self) -> None:
        names = self.symbols
        self.assertEqual((names.address("main"), names.address("nobody")), (0x8000_1000, None))
        self.assertEqual([names.name(it) for it in (0x8000_1000, 0xA000_1004, 0x8000_101F, 0x8000_1020, 0x8000_0FFC)],
                         ["main", "main+0x4", "main+0x1f", "", ""])
        self.assertEqual([names.name(it) for it in (0x8000_2007, 0x9FC0_0008, 0xBFC0_2000, 0x7000_0000)],
                         ["buffer+0x7", "label+0x8", "", ""])
        self.assertEqual(names.names(), ["buffer", "label", "main", "other"])

    def test_static_names_of_several_sources_are_told_apart_by_file(self) -> None:
        """A symbol that two ELFs have at one place is one, and a name without a file is found by its address."""
        names = Symbols([Symbol("helper", 0x8000_1000, 8, "func", "src/a.c"), Symbol("helper", 0x8000_2000, 8, "func", "b.c"),
                         Symbol("once", 0x8000_3000, 8, "func", "a.c"), Symbol("once", 0xA000_3000, 8, "func", "a.c"),
                         Symbol("both", 0x8000_4000, 4, "object"), Symbol("both", 0x8000_5000, 4, "object")])
        self.assertEqual(names.names(), ["a.c:helper", "b.c:helper", "both", "once"])
        self.assertEqual([it.address for it in names.found("helper")], [0x8000_1000, 0x8000_2000])
        self.assertEqual([names.address(it) for it in ("a.c:helper", "b.c:helper", "c.c:helper", "once")],
                         [0x8000_1000, 0x8000_2000, None, 0x8000_3000])
        self.assertEqual([names.name(it) for it in (0x8000_1004, 0x8000_2000, 0x8000_5000)], ["a.c:helper+0x4", "b.c:helper", "both"])
        self.assertEqual([it.address for it in names.found("both")], [0x8000_4000, 0x8000_5000])

    def test_labels_of_tools_never_win_over_a_name(self) -> None:
        """Not at the begin of a function or a label, not within one, and not after a label without a size."""
        names = Symbols([Symbol("_ftext", 0x8000_0000, 0, "other"), Symbol("start", 0x8000_0000, 0, "other"), Symbol("L5", 0x8000_0010, 0, "other"),
                         Symbol(".L2", 0x8000_0024, 0, "other"), Symbol("main", 0x8000_0020, 16, "func"), Symbol("loop", 0x8000_0028, 0, "other"),
                         Symbol("_etext", 0x8000_0030, 0, "other"), Symbol("buffer", 0x8000_0040, 8, "object"), Symbol("_end", 0x8000_0048, 0, "other")])
        at = {0x8000_0000: "start", 0x8000_0010: "start+0x10", 0x8000_0024: "main+0x4", 0x8000_0028: "loop", 0x8000_0030: "_etext",
              0x8000_0044: "buffer+0x4", 0x8000_0048: "_end"}
        self.assertEqual({it: names.name(it) for it in at}, at)
        self.assertEqual(names.address("_ftext"), 0x8000_0000)

    def test_of_an_elf(self) -> None:
        content = made([(0xBFC0_0000, 0xBFC0_0000, bytes(16), 16)],
                       symbols=[("start", 0xBFC0_0000, 8, 2), ("$L1", 0xBFC0_0004, 0, 0), (".text", 0xBFC0_0000, 0, 3)])
        image, _ = elf.image_of(content, "x.elf")
        self.assertEqual(symbols_of(image).names(), ["start"])

    def test_of_several(self) -> None:
        """Those of the image's own ELF, and of others, which may be linked to be moved, at their offsets."""
        rom = [(0xBFC0_0000, 0xBFC0_0000, bytes(4), 4)]
        own = made(rom, symbols=[("start", 0xBFC0_0000, 4, 2)])
        moved = made(rom, symbols=[("module", 0x100, 4, 2), ("start", 0, 4, 2)], kind=3)
        image, _ = elf.image_of(own, "own.elf")
        image = replace(image, elves=(*image.elves, SymbolFile("moved.elf", moved, 0x8000_2000)))
        names = symbols_of(image)
        self.assertEqual([names.address(it) for it in ("start", "module")], [0xBFC0_0000, 0x8000_2100])
        self.assertEqual(names.name(0x8000_2000), "start")

    def test_of_a_source(self) -> None:
        source = Source(b"# c\n\n.bytetime 0x20\n.unit 007\n.clock 1 2 3 4 5 6 7 8 9 10 0x20 6\nfirst: # begins\n\tj first\r\n"
                        b" sll r0, r0, 0\nsecond:\n.org 0x100\n.word 5\nthird:\n")
        self.assertEqual(source.labels, {"first": 0x1FC0_0000, "second": 0x1FC0_0008, "third": 0x104})
        self.assertEqual(source.places, [0x1FC0_0000, 0x1FC0_0004, 0x100])
        self.assertEqual((source.byte_time, source.unit, source.clock), (32, 7, bytes([*range(1, 11), 0x20, 6])))
        names = symbols_of(Image("x.s", "source", b"first:\nsll r0, r0, 0\n.org 0x100\nthird:\n"))
        self.assertEqual([names.address(it) for it in ("first", "third")], [0xBFC0_0000, 0x8000_0100])


class Kinds(unittest.TestCase):
    def test_kinds(self) -> None:
        for name, content, kind in (("x", made([]), "elf"), ("x.s", made([]), "elf"), ("x.bin", b"R3KIMG1\n", "image"),
                                    ("x.img", b"?", "image"), ("x.s", b"?", "source"), ("x", b"?", "rom")):
            self.assertEqual(kind_of(name, content), kind)

    def test_refused(self) -> None:
        for name, content, said in (("x", b"R3KLOG1\n", "--log x IMAGE"), ("x", b"", "--kind rom"), ("x.S", b"?", "gcc"),
                                    ("Makefile", b"all:\n\ttrue\n", "is text, and no image")):
            with self.assertRaisesRegex(Problem, said):
                kind_of(name, content)


class Boots(unittest.TestCase):
    def test_format(self) -> None:
        """The worked image of 68 bytes, and words that are set one by one."""
        content = bytes.fromhex("52334b494d47310a 10000000 01000000 000000000000010101002006 02000000 00010000 01000000 05000000 "
                                "0000c01f 04000000 00a0013c 0001228c 21184000 21204000")
        boot = boot_of(Image("x", "image", content), lambda places: [])
        self.assertEqual(boot.write(), content)
        self.assertEqual([boot.word(it) for it in (0x100, 0x104, 0x1FC0_0004)], [5, None, 0x8C22_0100])
        for seed in range(100):
            source = random.Random(seed)
            boot, wanted = Boot(), {}
            for _ in range(source.randrange(30)):
                address, word = 4 * source.randrange(20), source.randrange(1 << 32)
                boot.patch(address, word)
                wanted[address] = word
            again = boot_of(Image("x", "image", boot.write()), lambda places: [])
            for it in (boot, again):
                self.assertEqual({at: it.word(at) for at in range(0, 80, 4) if it.word(at) is not None}, wanted)
            ends = [at + len(run) for at, run in again.runs()]
            self.assertFalse(set(ends) & {at for at, _ in again.runs()})

    def test_rom(self) -> None:
        boot = boot_of(Image("x", "rom", b"\1\2\3\4\5"), lambda places: [])
        self.assertEqual(boot.runs(), [(0x1FC0_0000, b"\1\2\3\4\5\0\0\0")])
        self.assertEqual(boot_of(Image("x", "rom", b""), lambda places: []).runs(), [])


if __name__ == "__main__":
    unittest.main()
