"""Source lines of addresses: those of gdb, and of tables that are made here."""
from __future__ import annotations

import random
import re
import shutil
import struct
import subprocess
import tempfile
import time
import unittest
from pathlib import Path
from typing import Dict, List, Optional

from bezhakkom import elf
from bezhakkom.image import SymbolFile
from bezhakkom.lines import Lines
from front.tests import debugger
from front.tests.support import ROOT


def file_of(name: str, offset: int = 0) -> SymbolFile:
    return SymbolFile(name, (ROOT / "examples" / name).read_bytes(), offset)


def elf_with(table: bytes) -> bytes:
    """An ELF that has nothing but a line table."""
    names = b"\0.debug_line\0"
    header = b"\x7fELF\x01\x01\x01" + bytes(9) + struct.pack("<HHIIIIIHHHHHH", 2, 8, 1, 0, 0, 52, 0, 52, 0, 0, 40, 3, 2)
    sections = bytes(40)
    for name, at, content in (1, 172, table), (0, 172 + len(table), names):
        sections += struct.pack("<10I", name, 1, 0, 0, at, len(content), 0, 0, 1, 0)
    return header + sections + table + names


def part(version: int, program: bytes, files: tuple[bytes, ...] = (b"one.c", b"dir/two.c")) -> bytes:
    """A part of a table. A line is at least -3 from the one before, and instructions have 4 bytes."""
    if version > 4:
        named = bytes((1, 1, 8, 1)) + b"/\0" + bytes((2, 1, 8, 2, 11, len(files))) + b"".join(it + b"\0\0" for it in files)
    else:
        named = b"include\0\0" + b"".join(it + b"\0\0\0\0" for it in files) + b"\0"
    head = bytes((4, *[1] * (version > 3), 1, 0xFD, 12, 13)) + bytes((0, 1, 1, 1, 1, 0, 0, 0, 1, 0, 0, 1)) + named
    sizes = bytes((4, 0)) if version > 4 else b""
    rest = struct.pack("<H", version) + sizes + struct.pack("<I", len(head)) + head + program
    return struct.pack("<I", len(rest)) + rest


def begin(address: int) -> bytes:
    return b"\0\x05\x02" + struct.pack("<I", address)


END = b"\0\x01\x01"


def said(lines: Lines, address: int) -> str:
    """The line of an address as text, or the empty text."""
    return str(lines.at(address) or "")


class OfGdb(unittest.TestCase):
    def test_all_addresses(self) -> None:
        debugger.needed()
        for name in "login/login.elf", "loader/loader.elf", "linux/guest.elf":
            file = file_of(name)
            lines = Lines([file])
            addresses = [it for segment in elf.read(file.content, name).segments
                         for it in range(segment.virtual, segment.virtual + len(segment.content), 4)]
            with tempfile.NamedTemporaryFile("w") as script:
                script.write("".join(f"echo @\\n\ninfo line *{it:#x}\n" for it in addresses))
                script.flush()
                words = [debugger.DEBUGGER, *debugger.PLAIN, "--readnow", "-batch", "-x", script.name, str(ROOT / "examples" / name)]
                shown = subprocess.run(words, capture_output=True, text=True, stdin=subprocess.DEVNULL).stdout.split("@\n")[1:]
            found = [re.match(r'Line (\d+) of "([^"]*)"', it) for it in shown]
            self.assertEqual([said(lines, it) for it in addresses], [f"{it[2].rpartition('/')[2]}:{it[1]}" if it else "" for it in found])
            self.assertGreater(len(set(found)), 100)

    def test_addresses_without_a_line(self) -> None:
        lines = Lines([file_of("login/login.elf")])
        # Both addresses of a word of ROM have the line.
        self.assertEqual([said(lines, it) for it in (0, 5, 0x8000_1000, 0xBFBF_FFFC, 0xBFC3_FFFC, 0xFFFF_FFFF, 0xBFC0_0258, 0x9FC0_0258)],
                         [""] * 6 + ["login.c:44"] * 2)
        self.assertEqual(said(Lines([file_of("login/login.elf", 0x1000)]), 0xBFC0_1258), "login.c:44")
        self.assertIsNone(Lines().at(0))


SOURCES = {
    "start.c": """\
extern int second(int x);
volatile int ticks;
void start(void)
{
    for (;;)
        second(ticks);
}
""",
    "ends.c": """\
extern volatile int ticks;
static int helper(int x) { return x * 3 + ticks; }
int first(int x) { ticks = helper(x); return helper(x + 1); }
__attribute__((noreturn)) void never(void) { __builtin_unreachable(); }
""",
    "second.c": """\
extern volatile int ticks;
int first(int x);
static __attribute__((noinline)) int helper(int x)
{
    return x - ticks;
}
int second(int x)
{
    ticks++;
    return helper(x) + first(x);
}
"""}
COMPILER, READELF = "mipsel-linux-gnu-gcc", "mipsel-linux-gnu-readelf"
OPTIONS = ("-march=r3000 -mabi=32 -mno-abicalls -fno-pic -G0 -ffreestanding -nostdlib -msoft-float -static -g "
           "-Wl,-Ttext=0x80000000 -Wl,-e,start -Wl,--build-id=none").split()


@unittest.skipUnless(shutil.which(READELF), f"{READELF} is not installed")
class OfReadelf(unittest.TestCase):
    """Over every address of a file, and over others near and far."""

    def check(self, path: Path) -> int:
        content = path.read_bytes()
        lines = Lines([SymbolFile(str(path), content)])
        wanted = self.lines_of(path)
        addresses = {near for it in wanted for near in range(it - 64, it + 68, 4)} | {0, 4, 0x80, 0x400000, 0x8000_0080, 0xBFC0_0000, 0xBFC0_0180}
        self.assertEqual({it: said(lines, it) for it in sorted(addresses)}, {it: wanted.get(it, "") for it in sorted(addresses)}, path.name)
        return len(wanted)

    def lines_of(self, path: Path) -> Dict[int, str]:
        """The line of each address, as readelf shows the rows. At one address the last row with a statement counts, or else the last."""
        found: Dict[int, str] = {}
        rows: List[tuple[int, str, bool]] = []
        shown = subprocess.run([READELF, "-W", "--debug-dump=decodedline", str(path)], capture_output=True, text=True, check=True).stdout
        for line in shown.splitlines():
            row = re.match(r"(\S+)\s+(\d+|-)\s+(0x[0-9a-f]+|0)(?:\s+\d+)?(\s+x)?\s*$", line)
            if not row:
                continue
            address = int(row[3], 16)
            if row[2] != "-":
                rows.append((address, f"{row[1]}:{row[2]}", bool(row[4])))
                continue
            at: Optional[int] = None
            for place, (begin_, _, _) in enumerate(rows):
                end = rows[place + 1][0] if place + 1 < len(rows) else address
                if begin_ == end or not begin_:
                    continue
                same = [it for it in rows if it[0] == begin_]
                shown_line = ([it for it in same if it[2]] or same)[-1][1]
                for at in range(begin_, end, 4):
                    found[at] = shown_line
            rows = []
        return found

    def test_files_of_the_examples(self) -> None:
        for name in "login/login.elf", "loader/loader.elf", "loader/checked.elf", "linux/guest.elf", "linux/prom.elf":
            self.assertGreater(self.check(ROOT / "examples" / name), 10)

    @unittest.skipUnless(shutil.which(COMPILER), f"{COMPILER} is not installed")
    def test_file_that_ends_in_unreachable_code(self) -> None:
        """As compiled here, in each order of the files, with and without optimisation, and with a section for each function."""
        with tempfile.TemporaryDirectory() as folder:
            for name, text in SOURCES.items():
                Path(folder, name).write_text(text)
            for names in ("ends.c", "start.c", "second.c"), ("start.c", "second.c", "ends.c"):
                for more in ("-O1",), ("-O0",), ("-O1", "-gdwarf-4"), ("-O2", "-ffunction-sections", "-Wl,--gc-sections"):
                    path = Path(folder, "made.elf")
                    subprocess.run([COMPILER, *OPTIONS, *more, "-o", str(path), *names], cwd=folder, check=True)
                    self.assertGreater(self.check(path), 30)


class Made(unittest.TestCase):
    def lines(self, *parts: bytes) -> Lines:
        return Lines([SymbolFile("made", elf_with(b"".join(parts)))])

    def test_each_version(self) -> None:
        # Line 1 + 9 at the begin; by a special one, 2 instructions and 3 lines on; then the second file, line 10 again; its end after 0x100.
        special = bytes((13 + 2 * 12 + 6,))
        for version in 2, 3, 4, 5:
            second = 2 if version < 5 else 1
            program = begin(0x8000_0200) + b"\x03\x09\x01" + special + bytes((4, second)) + b"\x03\x7d\x02\x01\x01" + b"\x09\x00\x01" + END
            if version > 4:
                program = begin(0x8000_0200)[:7] + b"\x04\x00" + program[7:]  # the first file is number 0
            lines = self.lines(part(version, program))
            at = {0x8000_01FC: "", 0x8000_0200: "one.c:10", 0x8000_0207: "one.c:10", 0x8000_0208: "one.c:13", 0x8000_020B: "one.c:13",
                  0x8000_020C: "two.c:10", 0x8000_030B: "two.c:10", 0x8000_030C: ""}
            self.assertEqual({it: said(lines, it) for it in at}, at, version)

    def test_pieces_that_the_linker_left_out(self) -> None:
        """They are at 0, and no line of them is that of a small number, nor is that of code in kseg0."""
        left_out = begin(0) + b"\x03\x09\x01\x02\x80\x08" + END
        lines = self.lines(part(4, left_out + begin(0x8000_0100) + b"\x03\x04\x01\x02\x04" + END))
        self.assertEqual([said(lines, it) for it in (0, 5, 0x100, 0x8000_0100, 0x8000_010F, 0x8000_0110)], ["", "", "", "one.c:5", "one.c:5", ""])

    def test_row_at_end_of_sequence_has_no_address(self) -> None:
        """A function without an instruction at the end: the row is at the same address as the end, which ends the row before all the same."""
        empty_at_end = begin(0x8000_0100) + b"\x03\x04\x01\x02\x04\x03\x09\x01" + END
        lines = self.lines(part(4, empty_at_end))
        at = {0x8000_00FC: "", 0x8000_0100: "one.c:5", 0x8000_010C: "one.c:5", 0x8000_0110: "", 0x8000_2000: "", 0xBFC0_0000: ""}
        self.assertEqual({it: said(lines, it) for it in at}, at)

    def test_end_of_sequence_leaves_row_of_another_one(self) -> None:
        """Of three sequences the first one ends where the third one begins, and the second one has no address at all."""
        first = begin(0x8000_0100) + b"\x03\x04\x01\x02\x04" + END
        empty = begin(0x8000_0110) + b"\x03\x14\x01" + END
        third = begin(0x8000_0110) + b"\x03\x09\x01\x02\x04" + END
        at = {0x8000_010C: "one.c:5", 0x8000_0110: "one.c:10", 0x8000_011C: "one.c:10", 0x8000_0120: ""}
        for order in (first, empty, third), (third, first, empty), (empty, third, first):
            for lines in self.lines(part(4, b"".join(order))), self.lines(*(part(4, it) for it in order)):
                self.assertEqual({it: said(lines, it) for it in at}, at)

    def test_sequence_without_an_end_has_no_line(self) -> None:
        self.assertEqual(said(self.lines(part(4, begin(0x8000_0100) + b"\x03\x04\x01\x02\x04")), 0x8000_0100), "")

    def test_statements_at_one_address(self) -> None:
        """The last one that begins there, or else the last of all."""
        first = begin(0x8000_0100) + b"\x01\x03\x01\x01\x06\x03\x01\x01"  # lines 1 and 2, and 3, which is no statement
        lines = self.lines(part(4, first + b"\x02\x01\x03\x01\x01\x03\x01\x01\x02\x01" + END))
        self.assertEqual([said(lines, it) for it in (0x8000_0100, 0x8000_0104, 0x8000_0108)], ["one.c:2", "one.c:5", ""])

    def test_damaged_table_ends_soon(self) -> None:
        """A list of 2^60 files without parts, a number of a million bytes, a range of lines that is 0, and texts that no byte 0 ends."""
        whole = begin(0x8000_0200) + b"\x03\x09\x01\x02\x08" + END
        many = bytearray(part(5, whole))
        place = many.index(b"\x02\x01\x08\x02\x0b\x02one.c")
        many[place:place + 6] = bytes((0, *[0xFF] * 8, 0x0F))
        no_range = bytearray(part(4, begin(0x8000_0200) + b"\x40" + END))
        no_range[no_range.index(b"\xfd\x0c\x0d") + 1] = 0
        no_end = part(4, whole)[:-60] + b"a" * 1_000_000
        begun = time.monotonic()
        for table in bytes(many), bytes(no_range), no_end, part(4, begin(0x8000_0200) + b"\x02" + b"\xff" * 1_000_000 + END):
            Lines([SymbolFile("damaged", elf_with(struct.pack("<I", len(table) - 4) + table[4:]))]).at(0x8000_0200)
        self.assertLess(time.monotonic() - begun, 5)

    def test_damaged_tables(self) -> None:
        """They have some lines or none, and never fail."""
        source = random.Random(4)
        whole = elf_with(part(5, begin(0x8000_0200) + b"\x04\x00\x03\x09\x01\x02\x08" + END))
        self.assertIsNone(self.lines(part(6, begin(0x8000_0200) + b"\x01\x02\x08" + END)).at(0x8000_0200))
        for _ in range(3000):
            content = bytearray(whole)
            for _ in range(source.choice((1, 1, 4))):
                content[source.randrange(len(content))] = source.randrange(256)
            Lines([SymbolFile("damaged", bytes(content[:source.choice((len(content), source.randrange(len(content)))) ]))]).at(0x8000_0200)


if __name__ == "__main__":
    unittest.main()
