"""Logs: the format, the text, and the changes that make one of another; and files that are written whole or not at all."""
from __future__ import annotations

import os
import random
import stat
import tempfile
import unittest
from pathlib import Path
from unittest import mock

from bezhakkom import log as logs
from bezhakkom.errors import Problem
from bezhakkom.log import Event, Kind
from bezhakkom.image import IMAGE, RAW_ROM
from bezhakkom.saving import save
from front.tests.support import ROOT


def random_log(source: random.Random) -> list[Event]:
    """A log with runs of equal gaps, several kinds and lines, and events of one time."""
    events: list[Event] = []
    time = 0
    for _ in range(source.randrange(8)):
        time += source.randrange(3)
        gap, kind = source.choice((0, 0, 1, 7)), source.choice((Kind.BYTE, Kind.BYTE, Kind.FRAMING, Kind.WIRE))
        line = source.randrange(3 if kind == Kind.WIRE else 4)
        for byte in source.choice((b"\0\1", b"\1") if kind == Kind.WIRE else (b"a", b"help\r", b"'\\\b\xff\0", b"xx")):
            events.append(Event(time, line, byte, kind))
            time += gap
    return sorted(events, key=lambda it: it.time)


class Format(unittest.TestCase):
    def test_worked_example(self) -> None:
        content = bytes.fromhex("52334b4c4f47310a 01000000 46000000 00 41")
        self.assertEqual(logs.read(content, "x"), [Event(70, 0, 0x41)])
        self.assertEqual(logs.write([Event(70, 0, 0x41)]), content)
        self.assertEqual(logs.read(b"", "x"), [])

    def test_times_at_the_limits(self) -> None:
        """Format 1 has the times below 2^32 - 1, and format 2 those below 2^40 - 1."""
        for time, content in ((0xFFFF_FFFE, "52334b4c4f47310a 01000000 feffffff 00 01"),
                              (0xFFFF_FFFF, "52334b4c4f47320a 01000000 ffffffff00000000 00 00 01"),
                              (1_099_511_627_774, "52334b4c4f47320a 01000000 feffffffff000000 00 00 01")):
            self.assertEqual(logs.write([Event(time, 0, 1)]), bytes.fromhex(content))
            self.assertEqual(logs.read(bytes.fromhex(content), "x"), [Event(time, 0, 1)])

    def test_worked_example_of_format_2(self) -> None:
        content = bytes.fromhex("52334b4c4f47320a 01000000 4600000000000000 01 00 41")
        self.assertEqual(logs.read(content, "x"), [Event(70, 0, 0x41, Kind.FRAMING)])
        self.assertEqual(logs.write([Event(70, 0, 0x41, Kind.FRAMING)]), content)
        # A log of bytes may stand in either format, and is written in format 1.
        sound = [Event(70, 0, 0x41)]
        self.assertEqual(logs.read(content.replace(b"\1\0\x41", b"\0\0\x41"), "x"), sound)
        self.assertEqual(logs.write(sound)[:8], b"R3KLOG1\n")
        wires = logs.write([Event(70, 2, 1, Kind.WIRE), Event(71, 0, 0, Kind.WIRE)])
        self.assertEqual(wires[12:], bytes.fromhex("4600000000000000 02 02 01 4700000000000000 02 00 00"))

    def test_faults_of_format_2(self) -> None:
        good = logs.write([Event(70, 0, 0x41, Kind.FRAMING), Event(71, 2, 1, Kind.WIRE)])
        for content, said in (
                (good[:-1], "are 22 bytes; it has 21"), (good + b"\0", "it has 23"), (good[:9], "ends before"),
                (good[:20] + b"\3" + good[21:], "event 0 is of kind 3"), (good[:-2] + b"\3\1", "external line 3; they are 0 to 2"),
                (good[:-1] + b"\2", "level 2; a level is 0 or 1"), (good[:21] + b"\4" + good[22:], "lines 0 to 3"),
                (good[:12] + b"\x48" + good[13:], "steps don't fall"), (good[:30] + b"\xff" + good[31:], "at most")):
            with self.assertRaisesRegex(Problem, said):
                logs.read(content, "x")

    def test_faults(self) -> None:
        good = logs.write([Event(70, 0, 0x41), Event(71, 3, 0)])
        for content, said in (
                (good[:-1], "are 12 bytes; it has 11"), (good + b"\0", "it has 13"), (good[:9], "ends before"),
                (b"hello", "is no log"), (good[:8] + b"\xff\xff\xff\xff" + good[12:], "at most 1,048,576"),
                (logs.write([Event(70, 0, 1), Event(69, 0, 1)]), "steps don't fall"), (logs.write([Event(70, 4, 1)]), "lines 0 to 3"),
                (good[:12] + b"\xff\xff\xff\xff" + good[16:], "at most 4,294,967,294"),
                (logs.write([Event((1 << 40) - 1, 0, 1)]), "at most 1,099,511,627,774")):
            with self.assertRaisesRegex(Problem, said):
                logs.read(content, "x")


class Text(unittest.TestCase):
    def test_by_hand(self) -> None:
        made = logs.make(["# a comment", "", "150000 0 'help\\r' 10  # typed", "+5 2 'a\\x41'", "7 1 '\\'\\\\\\b'"], "x")
        self.assertEqual(made, [
            *(Event(7, 1, it) for it in b"'\\\b"), *(Event(150000 + 10 * at, 0, it) for at, it in enumerate(b"help\r")),
            Event(150045, 2, 0x61), Event(150045, 2, 0x41)])

    def test_other_kinds_by_hand(self) -> None:
        made = logs.make(["70 0 'ab' 10 framing  # noise", "+5 2 1 wire", "+1 2 0 wire", "75 1 '\\xff' framing"], "x")
        self.assertEqual(made, [
            Event(70, 0, 0x61, Kind.FRAMING), Event(75, 1, 0xFF, Kind.FRAMING), Event(80, 0, 0x62, Kind.FRAMING),
            Event(85, 2, 1, Kind.WIRE), Event(86, 2, 0, Kind.WIRE)])
        self.assertEqual(list(logs.show(made)), ["70 0 'a' framing", "75 1 '\\xff' framing", "80 0 'b' framing", "85 2 1 wire",
                                                 "86 2 0 wire"])
        typed = [Event(500 + 10 * at, 0, it, Kind.FRAMING) for at, it in enumerate(b"abc")]
        self.assertEqual(list(logs.show([*typed, Event(530, 0, 0x64)])), ["500 0 'abc' 10 framing", "530 0 'd'"])

    def test_shown(self) -> None:
        events = logs.read((ROOT / "examples/driver/log").read_bytes(), "x")
        self.assertEqual(list(logs.show(events)), [
            "100 0 'Hi!'", "120 1 'a'", "120 2 'b'", "120 3 'c'", "5000 2 'ABCDEFGHIJKLMNOPQR'", "8191 3 'Z'", "12000 1 '\\xff'"])
        typed = [Event(9, 0, 0x21), *(Event(500 + 10 * at, 0, it) for at, it in enumerate(b"abc"))]
        self.assertEqual(list(logs.show(typed)), ["9 0 '!'", "500 0 'abc' 10"])

    def test_there_and_back(self) -> None:
        for seed in range(300):
            events = random_log(random.Random(seed))
            self.assertEqual(logs.make(logs.show(events), "x"), events)
            self.assertEqual(logs.read(logs.write(events), "x"), events)

    def test_faults(self) -> None:
        for line, said in (("5 0 help", "x:1: .* is not of the form"), ("5 0 '\\q'", "no escape"), ("5 9 'a'", "lines 0 to 3"),
                           ("a 0 'b'", "a is no number"), ("1099511627775 0 'a'", "at most 1,099,511,627,774"), ("5 0 'a' b", "b is no number"),
                           ("5 3 1 wire", "external line 3"), ("5 0 2 wire", "level 2"), ("5 0 wire", "is not of the form"),
                           ("5 0 1", "or TIME LINE LEVEL wire"), ("5 0 1 framing", "is not of the form")):
            with self.assertRaisesRegex(Problem, said):
                logs.make([line], "x")


class Saving(unittest.TestCase):
    def setUp(self) -> None:
        folder = tempfile.TemporaryDirectory()
        self.addCleanup(folder.cleanup)
        self.folder = Path(folder.name)

    def test_whole(self) -> None:
        path = self.folder / "log"
        save(str(path), logs.FORMAT_1, logs.LOG)
        self.assertEqual(path.read_bytes(), logs.FORMAT_1)
        path.chmod(0o640)
        (self.folder / "link").symlink_to(path)
        save(str(self.folder / "link"), b"two", logs.LOG)
        self.assertEqual((path.read_bytes(), (self.folder / "link").is_symlink()), (b"two", True))
        self.assertEqual(stat.S_IMODE(path.stat().st_mode), 0o640)
        self.assertEqual(sorted(os.listdir(self.folder)), ["link", "log"])

    def test_not_at_all(self) -> None:
        path = self.folder / "log"
        path.write_bytes(b"what was saved")
        with mock.patch("os.fsync", side_effect=OSError(28, "No space left on device")):
            with self.assertRaisesRegex(Problem, "No space left on device"):
                save(str(path), b"new", logs.LOG, force=True)
        self.assertEqual(path.read_bytes(), b"what was saved")
        self.assertEqual(os.listdir(self.folder), ["log"])
        for name in ("/dev/full", str(self.folder / "no/such"), str(self.folder)):
            with self.assertRaisesRegex(Problem, "can't be written"):
                save(name, b"x" * 10000, logs.LOG)

    def test_over_files_of_its_form_alone(self) -> None:
        """A log over a log, an image over an image; a raw ROM over itself; anything over an empty file, or by force."""
        path = self.folder / "file"
        contents = {"log": logs.FORMAT_2 + bytes(4), "image": b"R3KIMG1\n", "elf": b"\x7fELF", "text": b"R3K", "empty": b""}
        allowed = {(logs.LOG, "log"), (IMAGE, "image"), (logs.LOG, "empty"), (IMAGE, "empty"), (RAW_ROM, "empty")}
        for form in (logs.LOG, IMAGE, RAW_ROM):
            for name, content in contents.items():
                path.write_bytes(content)
                if (form, name) in allowed:
                    save(str(path), b"new", form)
                    self.assertEqual(path.read_bytes(), b"new")
                    continue
                with self.assertRaisesRegex(Problem, "file is there.* `save-log x force` overwrites it"):
                    save(str(path), b"new", form, how="save-log x force")
                self.assertEqual(path.read_bytes(), content)
                save(str(path), b"new", form, force=True)
                self.assertEqual(path.read_bytes(), b"new")
        save(str(path), b"new", RAW_ROM)


if __name__ == "__main__":
    unittest.main()
