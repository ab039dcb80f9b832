"""The driver against the program itself: what it mirrors, and that nothing is lost where the program is started anew."""
from __future__ import annotations

import os
import random
import signal
import threading
import time
import unittest
from typing import Optional
from unittest import mock

from bezhakkom import driver as drivers
from bezhakkom import loading
from bezhakkom.driver import Driver
from bezhakkom.errors import Ended, Interrupted, Refused
from bezhakkom.image import Image
from bezhakkom.log import Event, Kind
from bezhakkom.replies import WORD_LINE, Where, Writer
from front.tests.support import ROOT, needs_erase, needs_kinds, random_rom, rom, start

ECHO = ROOT / "examples/echo"

# The words of the echo program that turn the receiver on and go to its loop.
LOOP = 0xBFC0_1000


def echo() -> Driver:
    return loading.start(loading.image(str(ECHO / "boot.s")), str(ECHO / "log"))


def random_command(source: random.Random, events: int) -> str:
    """A command that moves, edits or asks, mostly one that is not refused."""
    step = source.randrange(600)
    if source.randrange(10) == 0:
        return f"erase {step} {step + source.randrange(-20, 200)}"
    if source.randrange(5) == 0:
        return source.choice((
            f"ferr {step} {source.randrange(5)} {source.randrange(256)}", f"wire {step} {source.randrange(4)} {source.randrange(3)}",
            f"set {source.randrange(events + 1)} {source.randrange(3)}"))
    return source.choice((
        f"goto {step}", f"step {step // 50}", f"back {step // 50}", "pos", "regs", f"reg {source.randrange(34)}", "cp0",
        f"mem {source.choice((0x100, 0x104, 0x1FC0_0000, 0x102))} {source.randrange(1, 6)}", "dis 0x1fc00000 3",
        f"writer {0x100 + 4 * source.randrange(4)}", f"visit 0xbfc00014 {1 + step}", "console 0 0 9", "", "# a comment", "?",
        f"log {source.randrange(6)} {source.randrange(1, 9)}", f"add {step} {source.randrange(5)} {source.randrange(256)}",
        f"del {source.randrange(events + 1)}", f"set {source.randrange(events + 1)} {source.randrange(300)}",
        f"move {source.randrange(events + 1)} {step}",
        f"patch {source.choice((0x100, 0x200, 0x1FC0_0024, 0x1FE0_0000))} {source.randrange(1 << 32)}"))


class Values(unittest.TestCase):
    """What is asked by values, with those of the worked examples."""

    def setUp(self) -> None:
        self.driver = echo()
        self.addCleanup(self.driver.close)

    def test_values(self) -> None:
        driver = self.driver
        self.assertEqual(driver.log, [Event(70, 0, 0x41), Event(200, 0, 0x42)])
        driver.goto(256)
        self.assertEqual(driver.writer(0x104), Writer("step", 213))
        self.assertEqual(driver.writer(0x1FC0_0000), Writer("image", None))
        self.assertEqual(driver.writer(0x200), Writer("never", None))
        self.assertEqual((driver.console(0), driver.console(0, 1), driver.sent(0), driver.find(0, 1)), (b"AB", b"B", 2, 215))
        self.assertEqual(driver.where(0x8000_0010), Where("cached", 0x10))
        self.assertEqual(driver.where(0xC000_0000), Where("tlbl", None))
        self.assertEqual(driver.where(0x1000), Where("refill", None))
        driver.goto(20)
        self.assertEqual(driver.registers().pc, LOOP)
        self.assertEqual(driver.control()["prid"], 0x220)
        self.assertEqual(driver.words(0x1FC0_0000, 9)[-1], 0xAC25_0000)
        self.assertEqual(len(driver.words(0, 100)), 100)

    def test_refusals(self) -> None:
        with self.assertRaises(Refused) as caught:
            self.driver.words(0x1FE0_0000, 1)
        self.assertEqual((caught.exception.number, caught.exception.name), (6, "NotMemory"))
        with self.assertRaises(Refused):
            self.driver.goto(1 << 40)
        self.assertEqual(self.driver.ask("back 1"), ["error 7 TooFar"])
        self.assertEqual((self.driver.ask("#"), self.driver.ask("?")), ([], ["error 2 Syntax"]))

    def test_memory_as_it_is_shown(self) -> None:
        """As one text, of any number of words; also where the reads of a program are used up, and after a wish to stop."""
        driver = self.driver
        driver.goto(78)
        wanted = "".join(f"{it}\n" for first in range(0xC0, 0x200, 128) for it in driver.value(f"mem {first} 32"))[:70 * WORD_LINE]
        self.assertIn("0x00000100 0x00008041\n", wanted)
        self.assertEqual(driver.shown(0xC0, 70).decode(), wanted)
        self.assertEqual((driver.shown(0xC0, 0), driver.position), (b"", 78))
        driver.wants_stop = lambda: True
        with self.assertRaises(Interrupted):
            driver.shown(0xC0, 70)
        driver.wants_stop = lambda: False
        self.assertEqual(driver.words(0x100, 1), [0x8041])
        driver.goto(77)
        self.assertNotIn(b"8041", driver.shown(0x100, 1))
        with self.assertRaises(Refused) as caught:
            driver.shown(0x7F_FFF8, 3)
        self.assertEqual((caught.exception.number, caught.exception.name, driver.ask("pos")), (6, "NotMemory", ["pos 77"]))
        few = start(driver.image, driver.log, most_reads=9)
        self.addCleanup(few.close)
        few.goto(78)
        self.assertEqual([few.shown(0xC0, 70).decode() for _ in range(9)], [wanted] * 9)

    def test_edits(self) -> None:
        driver = self.driver
        driver.goto(256)
        driver.delete(1)
        self.assertEqual((driver.writer(0x104).step, driver.console(0)), (81, b"A"))
        driver.patch(0x1FC0_1014, 0x24C6_0001)
        self.assertEqual(driver.console(0), b"B")
        self.assertEqual(driver.boot().word(0x1FC0_1014), 0x24C6_0001)
        log = [Event(70, 0, 0x41), Event(200, 0, 0x42)]
        driver.revert(log, [])
        self.assertEqual((driver.log, driver.patches, driver.console(0)), (log, [], b"AB"))

    def test_a_range_is_erased(self) -> None:
        needs_erase(self)
        driver = self.driver
        before = list(driver.log)
        driver.goto(256)
        self.assertEqual((driver.add(130, 0, 0x43), driver.console(0)), (1, b"ACB"))
        with self.assertRaises(Refused) as caught:
            driver.erase(131, 70)
        self.assertEqual((caught.exception.number, driver.erase(0, 0), len(driver.log)), (3, 3, 3))
        self.assertEqual((driver.erase(70, 131), driver.log), (1, [Event(200, 0, 0x42)]))
        self.assertEqual((driver.writer(0x104).step, driver.console(0), driver.find(0, 0)), (213, b"B", 215))
        driver.close()  # It is started anew with this log.
        self.assertEqual((driver.ask("log 0 8"), driver.console(0)), (["log 1", "0 200 0 0x42"], b"B"))
        driver.revert(before, [])
        self.assertEqual((driver.erase(200, 201), driver.log, driver.console(0)), (1, before[:1], b"A"))

    def test_times_and_positions_near_the_greatest(self) -> None:
        needs_erase(self)
        driver = self.driver
        last = (1 << 40) - 1
        self.assertEqual(driver.ask_all([f"goto {last}", "step 1", f"goto {last + 1}", "pos", f"add {last} 0 1"]),
                         [[f"pos {last}"], ["error 7 TooFar"], ["error 7 TooFar"], [f"pos {last}"], ["error 3 Range"]])
        self.assertEqual((driver.add(last - 1, 0, 1), driver.add(0xFFFF_FFFF, 0, 2), driver.position), (2, 2, last))
        far = [Event(0xFFFF_FFFF, 0, 2), Event(last - 1, 0, 1)]
        driver.close()
        self.assertEqual(driver.ask("log 2 8"), ["log 4", "2 4294967295 0 0x02", f"3 {last - 1} 0 0x01"])
        self.assertEqual((driver.log[2:], driver.erase(201, last), len(driver.log)), (far, 2, 2))

    def test_a_framing_error(self) -> None:
        needs_kinds(self)
        driver = self.driver
        before = list(driver.log)
        driver.delete(1)
        driver.delete(0)
        self.assertEqual(driver.add(70, 0, 0x41, Kind.FRAMING), 0)
        self.assertEqual(driver.log, [Event(70, 0, 0x41, Kind.FRAMING)])
        self.assertEqual(driver.ask("log 0 1"), ["log 1", "0 70 0 0x41 framing"])
        driver.goto(256)
        self.assertEqual((driver.writer(0x104).step, driver.console(0)), (81, b"A"))
        driver.goto(78)
        self.assertEqual(driver.words(0x100, 1), [0xA041])
        driver.close()  # It is started anew with this log.
        self.assertEqual((driver.words(0x100, 1), driver.ask("log 0 1")[1]), ([0xA041], "0 70 0 0x41 framing"))
        driver.revert(before, [])
        self.assertEqual((driver.log, driver.words(0x100, 1)), (before, [0x8041]))

    def test_an_external_line(self) -> None:
        """lui r2, 0xbff0; lui r3, 1; sw r3, 0(r2) enables line 0."""
        needs_kinds(self)
        driver = start(rom([0x3C02BFF0, 0x3C030001, 0xAC430000]))
        self.addCleanup(driver.close)
        self.assertEqual((driver.add(10, 0, 1, Kind.WIRE), driver.add(20, 0, 0, Kind.WIRE)), (0, 1))
        causes = []
        for position in (10, 11, 20, 21):
            driver.goto(position)
            causes.append(driver.control()["cause"])
        self.assertEqual(causes, [0, 0x400, 0x400, 0])
        self.assertEqual(driver.ask_all(["set 0 2", "wire 5 3 1", "set 0 0"]), [["error 3 Range"], ["error 3 Range"], ["event 0"]])
        self.assertEqual(driver.log, [Event(10, 0, 0, Kind.WIRE), Event(20, 0, 0, Kind.WIRE)])
        driver.goto(11)
        self.assertEqual(driver.control()["cause"], 0)

    def test_a_patch_of_an_unset_word_is_taken_back(self) -> None:
        self.driver.goto(5)
        self.driver.patch(0x300, 7)
        self.driver.patch(0x1FC0_1014, 0x24C6_0001)
        self.assertEqual(self.driver.writer(0x300).kind, "image")
        self.driver.revert(self.driver.log, [])
        self.assertEqual(self.driver.writer(0x300).kind, "never")
        self.assertEqual((self.driver.words(0x1FC0_1014, 1), self.driver.boot().word(0x1FC0_1014)), ([0], 0))


class Mirrors(unittest.TestCase):
    def test_random_commands(self) -> None:
        """Each reply is the program's own, with as few reads as a program may have that is started anew again and again."""
        for seed in range(5):
            source = random.Random(seed)
            image = rom(random_rom(source))
            log = sorted((Event(source.randrange(400), 0, source.randrange(256)) for _ in range(3)), key=lambda it: it.time)
            commands = [random_command(source, 6) for _ in range(150)]
            plain, anew = start(image, log), start(image, log, most_reads=12)
            with self.subTest(seed=seed):
                self.assertEqual(anew.ask_all(commands), plain.ask_all(commands))
                self.assertEqual((anew.log, anew.patches, anew.position), (plain.log, plain.patches, plain.position))
                self.assertEqual([_event(it) for it in plain.ask("log 0 32")[1:]], plain.log)
                self.assertEqual(f"pos {plain.position}", plain.ask("pos")[0])
                self.plays_again(plain, start(image, log))
            plain.close()
            anew.close()

    def plays_again(self, driver: Driver, fresh: Driver) -> None:
        """The journal makes of a fresh program what a driver starts again with."""
        look = ["goto 400", "regs", "mem 0x100 8", "mem 0x200 1", "mem 0x1fc00000 32", "log 0 32"]
        driver.close()
        fresh.values(driver.journal)
        self.assertEqual(fresh.ask_all(look), driver.ask_all(look))
        fresh.close()

    def test_reverting(self) -> None:
        """Any log becomes any other one, also among events of one time."""
        self.reverts([Kind.BYTE])

    def test_reverting_all_kinds(self) -> None:
        needs_kinds(self)
        self.reverts(list(Kind))

    def reverts(self, kinds: list[Kind]) -> None:
        source = random.Random(7)
        driver = start(rom([]))
        self.addCleanup(driver.close)
        for _ in range(60):
            wanted = sorted((Event(source.randrange(4), 0, source.randrange(2), source.choice(kinds))
                             for _ in range(source.randrange(9))), key=lambda it: it.time)
            driver.revert(wanted, [])
            self.assertEqual([_event(it) for it in driver.ask("log 0 32")[1:]], wanted)


def _event(line: str) -> Event:
    _, when, place, byte, *kind = line.split()
    return Event(int(when), int(place), int(byte, 16), Kind[kind[0].upper()] if kind else Kind.BYTE)


class Ends(unittest.TestCase):
    """A program that dies, and turns that are ended."""

    def setUp(self) -> None:
        self.driver = echo()
        self.addCleanup(self.driver.close)

    def check(self) -> None:
        """The edits are there, and replies are in step."""
        self.assertEqual(self.driver.ask_all(["goto 256", "writer 0x104", "log 2 1"]),
                         [["pos 256"], ["writer 213"], ["log 3", "2 300 0 0x43"]])

    def test_killed(self) -> None:
        self.driver.add(300, 0, 0x43)
        self.driver.patch(0x1FC0_2000, 5)
        self.driver.goto(40)
        assert self.driver._program
        os.kill(self.driver._program._process.pid, signal.SIGKILL)
        with self.assertRaisesRegex(Ended, "SIGKILL"):
            self.driver.registers()
        self.assertEqual(self.driver.position, 40)
        self.assertEqual(self.driver.words(0x1FC0_2000, 1), [5])
        self.check()

    def test_ctrl_c(self) -> None:
        """Ctrl-C ends a turn that would take minutes, between two commands."""
        self.driver.add(300, 0, 0x43)
        before = signal.signal(signal.SIGINT, signal.default_int_handler)
        self.addCleanup(signal.signal, signal.SIGINT, before)
        ended = threading.Timer(0.2, os.kill, (os.getpid(), signal.SIGINT))
        ended.start()
        begin = time.monotonic()
        with self.assertRaises(Interrupted):
            self.driver.ask_all(["goto 4000000000", "regs"])
        self.assertLess(time.monotonic() - begin, 5)
        self.assertIs(signal.getsignal(signal.SIGINT), signal.default_int_handler)
        self.check()

    def test_a_wish_to_stop(self) -> None:
        self.driver.add(300, 0, 0x43)
        asked = 0

        def wants_stop() -> bool:
            nonlocal asked
            asked += 1
            return asked > 40
        self.driver.wants_stop = wants_stop
        with self.assertRaises(Interrupted):
            for _ in range(100):
                self.driver.ask_all(["visit 0 100000"] * 10)
        self.driver.wants_stop = lambda: False
        self.check()

    def test_refused_at_the_start(self) -> None:
        cases: list[tuple[Image, list[Event], str]] = [
            (Image("x", "image", b"R3KIMG1\n"), [], "BadImage Short"), (Image("x", "source", b"foo\n"), [], "BadSource 1 Name"),
            (rom([]), [Event(3, 9, 0)], "BadLog Line")]
        for image, log, said in cases:
            with self.assertRaisesRegex(Ended, said) as caught:
                Driver.start(image, log)
            self.assertEqual(caught.exception.status, 1)

    def test_no_program(self) -> None:
        with mock.patch.dict(os.environ, WB_PROGRAM="/nowhere"), self.assertRaisesRegex(Exception, "can't be started"):
            start(rom([]))


class LongRuns(unittest.TestCase):
    def test_pieces(self) -> None:
        """A long run is shown, and its end is that of a run at once; an edit lets only what is after it be run again."""
        class Progress:
            shown: list[tuple[int, int]] = []
            closed = 0

            def __call__(self, position: int, begin: int, end: Optional[int]) -> None:
                self.shown.append((position, begin))

            def close(self) -> None:
                self.closed += 1

        progress = Progress()
        words = random_rom(random.Random(3))
        end = 5 * drivers.SPAN + 3
        with mock.patch.object(drivers, "PIECE", drivers.SPAN):
            driver = Driver.start(rom(words), report=progress)  # type: ignore[arg-type]
            driver.goto(end)
            state = driver.registers()
            self.assertEqual(progress.shown, [(it * drivers.SPAN, 0) for it in (1, 2, 3, 4, 5)])
            progress.shown.clear()
            driver.add(3 * drivers.SPAN + 9, 0, 1)
            self.assertEqual(driver.registers(), state)
            self.assertEqual(progress.shown, [(it * drivers.SPAN, 3 * drivers.SPAN + 9) for it in (4, 5)])
        plain = start(rom(words))
        plain.goto(end)
        self.assertEqual(plain.registers(), state)
        plain.close()
        driver.close()


if __name__ == "__main__":
    unittest.main()
