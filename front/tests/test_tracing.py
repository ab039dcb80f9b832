"""What steps do, against the machine stepped from outside: its registers, memory and console before and after each step."""
from __future__ import annotations

import json
import unittest
from pathlib import Path
from tempfile import TemporaryDirectory

import bezhakkom
from bezhakkom import tracing
from bezhakkom.driver import Driver
from bezhakkom.limits import GREATEST_POSITION, RAM
from front.tests import brute, debugger, scripts
from front.tests.support import ROOT

STEPS = 150
VECTORS = (0x8000_0000, 0x8000_0080, 0xBFC0_0100, 0xBFC0_0180)


class Lines(unittest.TestCase):
    def test_all_parts(self) -> None:
        line = ("7 pc 0xbfc00004 word 0x8c220100 r2 0x00000005 hi 0x00000001 lo 0x00000002 store 0x00000100 0x00000003 sent 3 0x41 ts "
                "exception 12")
        self.assertEqual(tracing.read(line), tracing.Traced(7, 0xBFC0_0004, 0x8C22_0100, (2, 5), (1, 2), tracing.Access("store", 0x100, 3),
                                                            (3, 0x41), True, 12))
        self.assertEqual(tracing.read("0 pc 0xbfc00180 word none exception 0"), tracing.Traced(0, 0xBFC0_0180, None, exception=0))
        self.assertEqual(tracing.value("0 pc 0x00000004 word none exception 6"), {"step": 0, "pc": 4, "word": None, "exception": 6})

    def test_marks_belong_to_the_access(self) -> None:
        """Lines of the worked example: a store to ROM, and a load of the isolated cache; and a mark with what may come after it."""
        store = tracing.read("2 pc 0xbfc00008 word 0xac220100 store 0x1fc00100 0x00000007 ignored")
        self.assertEqual(store.access, tracing.Access("store", 0x1FC0_0100, 7, "ignored"))
        self.assertEqual(tracing.value_of(store), {"step": 2, "pc": 0xBFC0_0008, "word": 0xAC22_0100,
                                                   "store": {"address": 0x1FC0_0100, "word": 7, "ignored": True}})
        load = tracing.value("10 pc 0xbfc00028 word 0x8ca70004 r7 0x00000007 load 0x00000004 0x00000007 isolated")
        self.assertEqual(load["load"], {"address": 4, "word": 7, "isolated": True})
        self.assertTrue(tracing.read("1 pc 0x00000004 word 0xac220100 store 0x00000004 0x00000007 isolated ts").shuts_down)
        with self.assertRaisesRegex(bezhakkom.Problem, "is no reply of the program"):
            tracing.read("2 pc 0xbfc00008 word 0xac220100 ignored")


class Steps(unittest.TestCase):
    def check(self, run: Driver, first: int) -> set[str]:
        """Each step is as its neighbours show it. Gives the parts that were met."""
        met: set[str] = set()
        run.goto(first + 1)
        steps = list(run.traced(first, first + STEPS))
        self.assertEqual((run.position, [it.step for it in steps]), (first + 1, list(range(first, first + STEPS))))
        for it in steps:
            run.goto(it.step)
            before, place = run.registers(), run.physical(it.pc)
            sent = [run.sent(line) for line in range(4)]
            run.goto(it.step + 1)
            after = run.registers()
            self.assertEqual(it.pc, before.pc)
            if it.word is not None:
                assert place is not None
                self.assertEqual(it.word, run.words(place, 1)[0])
            if it.exception is not None:
                met.add("interrupt" if it.exception == 0 else "exception")
                self.assertIn(after.pc, VECTORS)
                self.assertEqual(run.control()["cause"] >> 2 & 31, it.exception)
                self.assertIsNone(it.write)
            elif it.access and it.access.kind == "load" or after.load:
                met.add("load")
                self.assertEqual(it.write, after.load)
            else:
                landed = list(before.general)
                for register, value in filter(None, (before.load, it.write)):
                    landed[register] = value
                self.assertEqual(after.general, landed)
            if it.access and it.access.kind == "store" and it.access.address in RAM:
                met.add("store")
                self.assertEqual(run.writer(it.access.address).step, it.step)
                self.assertEqual(run.words(it.access.address, 1), [it.access.word])
            if it.hi_lo or (before.hi, before.lo) != (after.hi, after.lo):
                self.assertEqual(it.hi_lo, (after.hi, after.lo))
            told = [run.sent(line) for line in range(4)]
            if it.sent:
                met.add("sent")
                line, byte = it.sent
                self.assertEqual((told[line], run.console(line)[-1]), (sent[line] + 1, byte))
            else:
                self.assertEqual(told, sent)
        return met

    def test_a_login(self) -> None:
        with brute.fresh(brute.image("login/login.elf"), brute.log_of("login")) as run:
            met = self.check(run, 0) | self.check(run, 39_990) | self.check(run, 110_900)
        self.assertLessEqual({"load", "store", "sent"}, met)

    def test_a_driver(self) -> None:
        with brute.fresh(brute.image("driver/boot.s"), brute.log_of("driver")) as run:
            met = set().union(*(self.check(run, at) for at in (0, 400, 4_096)))
        self.assertIn("interrupt", met)

    def test_exceptions(self) -> None:
        with brute.fresh(brute.image("exceptions/boot.s"), []) as run:
            self.assertIn("exception", self.check(run, 0))


class InTheShell(unittest.TestCase):
    """Numbers by hand, as in the walk of docs/DEBUGGING.md: the step at 40,024 stores the length that the one before made -1."""

    def shown(self, *lines: str) -> str:
        return scripts.shell("--log", "examples/login/log", "examples/login/login.elf", lines=lines).stdout

    def test_trace(self) -> None:
        shown = self.shown("goto 40,023", "trace 2").splitlines()
        self.assertRegex(shown[-2], r"^40,023 read_line\+\w+ \(login.c:44\): addiu r3, r3, -1   v1 = 0xffffffff$")
        self.assertRegex(shown[-1], r"^40,024 read_line\+\w+ \(login.c:44\): sw r3, 32\(r2\)   stores 0xffffffff into 0x80001020 <session\+0x20>$")

    def test_trace_and_stores_as_json(self) -> None:
        """Each step is an object on its line, and stores are an array. The address is the physical one of session+0x20."""
        steps = [json.loads(it) for it in self.shown("goto 40,023", "trace 2 --json").splitlines()[-2:]]
        self.assertEqual([(it["step"], it["source"]) for it in steps], [(40_023, "login.c:44"), (40_024, "login.c:44")])
        self.assertEqual((steps[0]["register"], steps[0]["value"]), (3, 0xFFFF_FFFF))
        self.assertEqual(steps[1]["store"], {"address": 0x1020, "word": 0xFFFF_FFFF})
        stored = json.loads(self.shown("goto 40,025", "stores session+0x20 1 --json").splitlines()[-1])
        self.assertEqual([(it["step"], it["word"], it["place"], it["source"]) for it in stored],
                         [(40_024, 0xFFFF_FFFF, "read_line+0x30", "login.c:44")])
        self.assertIn("usage: trace [C] [--json], or trace [C] to FILE", self.shown("trace 2 to here --json"))

    def test_a_trace_in_a_file(self) -> None:
        with TemporaryDirectory() as folder:
            name = Path(folder, "steps")
            shown = self.shown("goto 40,000", f"trace 100 to {name}", "position")
            self.assertIn("has 100 steps", shown)
            lines = name.read_text().splitlines()
        self.assertEqual((lines[0], len(lines)), ("# what steps 40,000 to 40,099 do", 101))
        self.assertTrue(lines[25].startswith("40,024 read_line"))

    def test_in_gdb(self) -> None:
        debugger.needed()
        with TemporaryDirectory() as folder:
            name = Path(folder, "steps")
            shown = "\n".join(debugger.batch("login/login.elf", "wb goto 40,023", "wb trace 2", f"wb trace 5 to {name}", "wb goto 40,025",
                                             "wb stores &session.length 1", log="login/log"))
            self.assertEqual(len(name.read_text().splitlines()), 6)
        self.assertIn("40,024 read_line+0x30 (login.c:44): sw r3, 32(r2)   stores 0xffffffff into 0x80001020 <session+0x20>", shown)
        self.assertIn("0xffffffff by step 40,024, read_line+0x30 (login.c:44), 1 step ago", shown)

    def test_io(self) -> None:
        shown = self.shown("goto 6684", "io 3").splitlines()
        self.assertRegex("\n".join(shown), r"(?m)^6,684 receive\+0x4 \(login.c:33\): lw r2, 8\(r2\)   v0 = 0x00000000; loads 0x00000000 from p:0x1fe00008$")
        self.assertIn("none of the next 2 steps does", self.shown("goto 6685", "io 2"))

    def test_accesses_without_effect_are_marked(self) -> None:
        """A store to ROM and one to where nothing is; and with the cache isolated (IsC is bit 16 of Status, register 12) a store and a load
        through kseg0, and a store through kseg0 to the address of the serial part."""
        lines = ("lui r1, 0xbfc0", "addiu r2, r0, 7", "sw r2, 0x100(r1)", "lui r3, 0xbf00", "sb r2, 1(r3)", "lui r4, 1", "mtc0 r4, c12",
                 "lui r5, 0x8000", "sw r2, 4(r5)", "lw r7, 4(r5)", "lui r6, 0x9fe0", "sw r2, 24(r6)")
        with TemporaryDirectory() as folder:
            name = Path(folder, "boot.s")
            name.write_text("\n".join(lines) + "\n")
            shown = scripts.shell(str(name), lines=("trace 12", "io 12")).stdout.splitlines()
        self.assertEqual([it.partition("   ")[2] for it in (shown[2], shown[4], shown[8], shown[9])], [
            "stores 0x00000007 into 0xbfc00100, ignored: that is ROM", "stores 0x00000700 into p:0x1f000000, ignored: nothing is there",
            "stores 0x00000007 into 0x80000004, in the isolated cache",
            "a3 = 0x00000007; loads 0x00000007 from 0x80000004, in the isolated cache"])
        self.assertEqual(shown[12:], shown[4:5])  # `io` has the store to where nothing is, and not the one that no device sees

    def test_stores(self) -> None:
        shown = self.shown("goto 40,025", "stores session+0x20 2").splitlines()
        self.assertRegex(shown[-2], r"^0xffffffff by step 40,024, ")
        self.assertRegex(shown[-1], r"^0x00000000 by step \d\d,\d{3}, ")
        self.assertIn("no step before this position stored at", self.shown("stores session+0x20"))

    def test_refusals(self) -> None:
        shown = self.shown("trace 0", "trace 1 2", "trace to")
        self.assertIn("how many are shown is 1 or more", shown)
        self.assertEqual(shown.count("usage: trace [C]"), 2)
        with bezhakkom.boot(ROOT / "examples/load-slot/boot.s") as machine:
            machine.goto(GREATEST_POSITION)
            with self.assertRaisesRegex(bezhakkom.Problem, "1 steps can't be followed: a position is 0 to 1,099,511,627,775"):
                machine.trace(1)


if __name__ == "__main__":
    unittest.main()
