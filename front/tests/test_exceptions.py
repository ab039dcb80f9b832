"""Stops at exceptions and lists of visits, against each step of a run, in the shell and in gdb."""
from __future__ import annotations

import json
import re
import shutil
import tempfile
import unittest
from typing import List, Tuple

import bezhakkom
from bezhakkom import travel
from bezhakkom.conditions import all_hits
from bezhakkom.driver import Driver
from bezhakkom.errors import Problem
from bezhakkom.exceptions import NAMES, TEXTS, Catch
from bezhakkom.travel import Reason, Stops
from front.tests import brute, debugger, scripts
from front.tests.support import ROOT, immediate, rom

EXCEPTIONS = "examples/exceptions/boot.s"
RUNS = (("driver/boot.s", "driver"), ("exceptions/boot.s", None), ("user-mode/boot.s", None), ("loader/loader.elf", "loader"))
STEPS = 4_000


def stops(kind: str) -> Stops:
    conditions = {handler: [it] for handler, it in Catch(kind).conditions().items()}
    return Stops(set(conditions), conditions=conditions, end=STEPS)


class Caught(unittest.TestCase):
    def check(self, run: Driver) -> int:
        taken = [(it.step + 1, NAMES[it.exception]) for it in run.traced(0, STEPS - 1) if it.exception is not None]
        for kind in ("", *{name for _, name in taken}, "dbe"):
            wanted = [position for position, name in taken if kind in ("", name)]
            conditions = stops(kind).conditions
            run.goto(17)
            self.assertEqual(list(all_hits(run, list(conditions), conditions, 0, STEPS)), wanted, kind)
            self.assertEqual(run.position, 17)
            run.goto(0)
            on = []
            while (stop := travel.forward(run, stops(kind), lambda: False)).reason is Reason.BREAKPOINT:
                on.append(stop.position)
            run.goto(STEPS)
            back = []
            while (stop := travel.backward(run, stops(kind), lambda: False)).reason is Reason.BREAKPOINT:
                back.append(stop.position)
            self.assertEqual((on, back[::-1]), (wanted, wanted), kind)
        return len(taken)

    def test_runs(self) -> None:
        for name, log in RUNS:
            with self.subTest(name), brute.fresh(brute.image(name), brute.log_of(log) if log else []) as run:
                self.assertTrue(self.check(run) or name == "loader/loader.elf")

    def test_a_jump_to_a_handler(self) -> None:
        """Code that runs through a handler takes no exception."""
        words = [2 << 26 | 0x0FF0_0060, 0, *[0] * 94, immediate(4, 0, 0, -1), 0]
        with brute.fresh(rom(words), []) as run:
            self.assertEqual(run.ask_all(["goto 2", "regs"])[1][0].split()[1], "0xbfc00180")
            conditions = stops("").conditions
            self.assertEqual(list(all_hits(run, list(conditions), conditions, 0, 100)), [])

    def test_kinds(self) -> None:
        self.assertEqual(len(NAMES), len(TEXTS))
        with self.assertRaisesRegex(Problem, "there is no kind foo of exceptions: they are int, mod, tlbl"):
            Catch("foo")


class Visits(unittest.TestCase):
    def test_all(self) -> None:
        with brute.fresh(brute.image("login/login.elf"), brute.log_of("login")) as run:
            counters = [it.pc for it in run.traced(0, STEPS + 1)]
            for address in sorted(set(counters))[::7]:
                for begin, end in ((0, STEPS), (150, 400)):
                    wanted = [at for at in range(begin, end + 1) if counters[at] == address]
                    self.assertEqual(list(all_hits(run, [address], {}, begin, end)), wanted)

    def test_in_the_library(self) -> None:
        with bezhakkom.boot(ROOT / EXCEPTIONS) as machine:
            machine.goto(100)
            # By hand: each exception's code is noted by the handler, in this order.
            steps = machine.exceptions()
            self.assertEqual([machine.driver.values([f"goto {it}", "trace 1"])[1][0].split()[-1] for it in steps], ["8", "12", "4"])
            self.assertEqual(machine.exceptions("ov"), steps[1:2])
            machine.goto(100)
            self.assertEqual(machine.hits(0x8000_0080), [it + 1 for it in steps])
            self.assertEqual(machine.position, 100)


class InTheShell(unittest.TestCase):
    maxDiff = None

    def said(self, *lines: str, files: Tuple[str, ...] = (EXCEPTIONS,)) -> List[str]:
        return scripts.shell("--echo", *files, lines=lines).stdout.rpartition(f"> {lines[-1]}\n")[2].splitlines()

    def test_on_and_back(self) -> None:
        first = ["1: exception sys, system call, in step 33, copy+0x28", "step 34, 0x80000080: lui r26, 0xbfc0"]
        self.assertEqual(self.said("catch exception"), ["1: all exceptions"])
        self.assertEqual(self.said("catch exception", "continue"), first)
        self.assertEqual(self.said("catch exception", "continue", "continue")[0], "1: exception ov, overflow, in step 51, copy+0x34")
        self.assertEqual(self.said("catch exception", "goto 50", "reverse-continue"), first)
        self.assertEqual(self.said("catch exception ov", "goto 50", "reverse-continue")[0], "that is the beginning of the run")
        self.assertEqual(self.said("catch exception ov", "stops"), ["1: exceptions: overflow"])
        self.assertEqual(self.said("catch exception ov", "delete 1", "stops"),
                         ["there are none; `break A`, `watch A` and `catch exception` make one"])
        # A breakpoint at the handler stops there too.
        self.assertEqual(self.said("catch exception ov", "break 0x80000080", "continue")[0], "2: breakpoint at 0x80000080")

    def test_hits(self) -> None:
        self.assertEqual(self.said("goto 100", "hits exception"), [
            "all exceptions, up to step 100: 3", "  step 33, copy+0x28: sys, system call", "  step 51, copy+0x34: ov, overflow",
            "  step 67, copy+0x38: adel, address error of a load or fetch"])
        self.assertEqual(self.said("goto 100", "hits exception last 1")[1:], ["  step 67, copy+0x38: adel, address error of a load or fetch"])
        self.assertEqual(self.said("catch exception ov", "goto 100", "hits 1"), ["exceptions: overflow, up to step 100: 1", "  step 51, copy+0x34: ov, overflow"])
        self.assertEqual(self.said("break 0x80000080", "goto 51", "hits 1"), ["visits of 0x80000080, up to step 51: 1", "  step 34"])
        self.assertEqual(self.said("goto 52", "hits 0x80000080 last 9"), ["visits of 0x80000080, up to step 52: 2", "  step 34", "  step 52"])
        self.assertEqual(json.loads(*self.said("goto 52", "hits 0x80000080 last 9 --json")),
                         {"position": 52, "hits": [{"step": 34}, {"step": 52}], "stopped": False})
        found = json.loads(*self.said("goto 100", "hits exception last 1 --json"))["hits"]
        self.assertEqual([(it["step"], it["place"], it["exception"]) for it in found], [(67, "copy+0x38", "adel")])
        self.assertEqual(self.said("hits 0xbfc00000"), ["visits of 0xbfc00000, up to step 0: 1", "  step 0"])
        # The loop of the echo program takes 11 steps, from step 9 on.
        echo = (str(ROOT / "examples/echo/boot.s"),)
        shown = self.said("goto 20,000", "hits loop", files=echo)
        self.assertEqual((shown[0], len(shown)), ("visits of loop, up to step 20,000: 1,818", 1_002))
        self.assertEqual(shown[-2:], ["  step 10,998", "  and 818 later ones: `hits loop last C` lists as many as C says"])
        shown = self.said("goto 20,000", "hits loop last 1500", files=echo)
        self.assertEqual((len(shown), shown[-1]), (1_501, "  step 19,996"))

    def test_a_session(self) -> None:
        """The shell finds its catches in a session again, and gdb has them as breakpoints."""
        with tempfile.TemporaryDirectory() as folder:
            name = f"{folder}/kept.session"
            self.said("catch exception sys", f"save {name}")
            self.assertEqual(self.said("stops", files=(name,)), ["1: exceptions: system call"])
            if shutil.which(debugger.DEBUGGER):
                shown = debugger.run([debugger.WB, "gdb", name, *debugger.PLAIN, "-batch", "-ex", "info breakpoints"])
                self.assertEqual(shown.count("stop only if ($cause >> 2 & 31) == 8 && $exception == 8"), 2, shown)

    def test_refusals(self) -> None:
        usage = "usage: hits A [last C] [--json], where A is an address, the number of a breakpoint or a catch, or `exception [KIND]`"
        kinds = "they are int, mod, tlbl, tlbs, adel, ades, ibe, dbe, sys, bp, ri, cpu, ov, and without one all are caught"
        for line, wanted in (
                ("catch", "usage: catch exception [KIND]"), ("catch throw", "the shell catches exceptions alone: catch exception [KIND]"),
                ("catch exception foo", f"there is no kind foo of exceptions: {kinds}"), ("hits", "usage: hits A .."),
                ("hits exception foo", f"there is no kind foo of exceptions: {kinds}"), ("hits copy foo", usage), ("hits copy last", usage),
                ("hits copy last 0", "how many are shown is 1 or more"), ("hits nothing", "there is no symbol and no register nothing"),
                ("hits 3", "3 is no stop, and no address of an instruction: these are multiples of 4, below 0x100000000")):
            self.assertEqual(self.said(line), [wanted], line)
        self.assertEqual(self.said("watch 0x80001000", "hits 1"), ["1 is a watch; `stores` lists the stores into a word"])


class InGdb(unittest.TestCase):
    def test_on_and_back(self) -> None:
        debugger.needed()
        shown = "\n".join(debugger.batch(
            "exceptions/boot.s", "catch exception sys", "continue", "output $position", "output $exception", "delete", "catch exception",
            "continue", "output $position", "reverse-continue", "output $position", "output $exception", "wb hits exception", "wb hits 1",
            "catch exception foo", "wb catch exception"))
        self.assertEqual(re.findall(r"Breakpoint \d+ at (\w+)", shown),
                         ["0x80000080", "0xbfc00180", "0x80000080", "0xbfc00180", "0x80000000", "0xbfc00100"])
        self.assertIn("348", shown)  # position 34, code 8
        self.assertIn("all exceptions, up to step 34: 1\n  step 33, copy+0x28: sys, system call", shown)
        self.assertIn("there is no kind foo of exceptions", shown)
        self.assertIn("gdb has its own `catch`", shown)

    def test_the_same_breakpoints(self) -> None:
        """Those that gdb makes by itself are those that it has in a session of the shell."""
        debugger.needed()
        kinds = "", "sys", "tlbl"
        shown = "\n".join(debugger.batch("exceptions/boot.s", *(
            it for kind in kinds for it in ("echo <kind>\\n", f"catch exception {kind}", "info breakpoints", "delete"))))
        for kind, part in zip(kinds, shown.split("<kind>\n")[1:]):
            for line in (it.split(" ", 1)[1] for it in Catch(kind).lines_of_gdb()):
                place, condition = line.split(" if ")
                self.assertRegex(part, rf"{place[1:]} .*\n\tstop only if {re.escape(condition)}")

    def test_breakpoints_by_number(self) -> None:
        debugger.needed()
        shown = "\n".join(debugger.batch("login/login.elf", "break print", "wb goto 40025", "wb hits 1", "wb hits print", "wb hits login.c:24",
                                         "wb hits &print last 1", "wb hits nothing.c:1", "watch session.length", "wb hits 2", log="login/log"))
        self.assertEqual(shown.count("visits of print (login.c:24), up to step 40,025: 2\n  step 127\n  step 30,029\n"), 3)
        self.assertIn("visits of print (login.c:24), up to step 40,025: 1\n  step 30,029\nNo source file named nothing.c.", shown)
        self.assertIn("stop 2 is no breakpoint; `wb stores` lists the stores into a word", shown)


if __name__ == "__main__":
    unittest.main()
