"""The steps that transfer control. Programs are assembled by hand, and their steps counted by hand, by Kane and Heinrich, appendix A."""
from __future__ import annotations

import json
import unittest
from pathlib import Path
from tempfile import TemporaryDirectory
from typing import Iterator
from unittest import mock

import bezhakkom
from bezhakkom import jumps, protocol
from bezhakkom.driver import Driver
from bezhakkom.errors import Problem
from bezhakkom.jumping import Jumps
from bezhakkom.jumps import Jump
from bezhakkom.limits import GREATEST_POSITION
from front.tests import brute, debugger, scripts
from front.tests.support import immediate, rom

ROM = 0xBFC0_0000

# A call whose function returns with a taken branch before that, a tail call by register, a system call, and a branch to itself.
SOURCE = """\
start:
        jal twice               # step 0
        addiu r4, r0, 2         # 1, in the delay slot
        syscall 0               # 8
        .org 0x1fc00020
twice:
        beq r4, r0, 0x1fc0002c  # 2: not taken
        addu r2, r4, r4         # 3
        bgez r4, 0x1fc00034     # 4: taken
        sll r0, r0, 0           # 5
        .org 0x1fc00034
        jr r31                  # 6
        sll r0, r0, 0           # 7
        .org 0x1fc00180
handler:
        lui r26, 0xbfc0         # 9
        ori r26, r26, 0x0200    # 10
        jr r26                  # 11
        rfe                     # 12, in the delay slot
        .org 0x1fc00200
stuck:
        beq r0, r0, stuck       # 13, 15, ..
        sll r0, r0, 0
"""
CALL = Jump(0, ROM, 0x0FF0_0008, ROM + 0x20)
TAKEN = Jump(4, ROM + 0x28, 0x0481_0002, ROM + 0x34)
RETURN = Jump(6, ROM + 0x34, 0x03E0_0008, ROM + 8)
SYSCALL = Jump(8, ROM + 8, 0x0000_000C, ROM + 0x180, 8)
BY_REGISTER = Jump(11, ROM + 0x188, 0x0340_0008, ROM + 0x200)
RFE = Jump(12, ROM + 0x18C, 0x4200_0010, ROM + 0x200)
STUCK = tuple(Jump(step, ROM + 0x200, 0x1000_FFFF, ROM + 0x200) for step in range(13, 99, 2))
FAR = [CALL, RETURN, SYSCALL, BY_REGISTER, RFE]
ALL = [CALL, TAKEN, RETURN, SYSCALL, BY_REGISTER, RFE, *STUCK]


class Lines(unittest.TestCase):
    REPLY = ["jumps 2 41", "7 pc 0xbfc00000 word none to 0x80000080 exception 0", "40 pc 0xbfc00010 word 0x0ff00008 to 0xbfc00020"]

    def test_reply_has_position_and_jumps(self) -> None:
        self.assertEqual([jumps.read(it) for it in self.REPLY[1:]], [Jump(7, ROM, None, 0x8000_0080, 0), Jump(40, ROM + 0x10, 0x0FF0_0008, ROM + 0x20)])
        self.assertEqual(protocol.value("jumps 0 2", self.REPLY), {"position": 41, "jumps": [
            {"step": 7, "pc": ROM, "word": None, "kind": "exception", "to": 0x8000_0080, "exception": 0},
            {"step": 40, "pc": ROM + 0x10, "word": 0x0FF0_0008, "kind": "call", "to": ROM + 0x20}]})
        self.assertEqual((protocol.lines_after("jumps 0 2", self.REPLY[0]), protocol.lines_after("jumps 2 2", "error 3 Range")), (2, 0))

    def test_line_of_another_form_is_a_problem(self) -> None:
        for wrong in "7 pc 0xbfc00000 word none", "7 pc 0xbfc00000 word none to 0x80000080 exception", "":
            with self.subTest(wrong), self.assertRaisesRegex(Problem, "is no reply of the program"):
                jumps.read(wrong)

    def test_kind_follows_from_word_and_exception(self) -> None:
        words = {"call": (0x0FF0_0008, 0x0040_F809, 0x0040_1009, 0x0490_0001, 0x0491_FFFF),  # jal, jalr r2, jalr r2 to r2, bltzal, bgezal
                 "return": (0x03E0_0008,), "jump": (0x0BF0_0008, 0x0340_0008),               # jr r31; j, jr r26
                 "branch": (0x1000_FFFF, 0x1462_0001, 0x1860_0001, 0x1C60_0001, 0x0460_0001, 0x0461_0001),
                 "rfe": (0x4200_0010,)}
        for kind, some in words.items():
            for word in some:
                self.assertEqual((Jump(0, ROM, word, 0).kind, Jump(0, ROM, word, 0, 12).kind), (kind, "exception"), hex(word))
        self.assertEqual(Jump(0, ROM, None, 0x8000_0080, 0).kind, "exception")


def source(folder: str) -> Path:
    name = Path(folder, "boot.s")
    name.write_text(SOURCE)
    return name


class InTheLibrary(unittest.TestCase):
    def setUp(self) -> None:
        folder = TemporaryDirectory()
        self.addCleanup(folder.cleanup)
        self.machine = bezhakkom.boot(source(folder.name))
        self.addCleanup(self.machine.close)

    def test_far_and_local_jumps_are_those_by_hand(self) -> None:
        self.assertEqual(list(self.machine.jumps(most=5)), FAR)
        self.assertEqual([it.kind for it in FAR], ["call", "return", "exception", "jump", "rfe"])
        self.assertEqual(list(self.machine.jumps(True, most=20)), ALL[:20])
        self.assertEqual(self.machine.position, 0)

    def test_steps_and_position_bound_the_jumps(self) -> None:
        self.assertEqual(list(self.machine.jumps(True, steps=12)), ALL[:5])
        self.machine.goto(8)
        self.assertEqual((list(self.machine.jumps(True, steps=6)), list(self.machine.jumps(True, steps=0)), list(self.machine.jumps(most=0))),
                         ([SYSCALL, BY_REGISTER, RFE, STUCK[0]], [], []))
        self.assertEqual(self.machine.position, 8)

    def test_jumps_are_asked_for_as_they_are_wanted(self) -> None:
        """A question goes on from the one before, and none is asked before its jumps are wanted."""
        with mock.patch("bezhakkom.jumping.JUMPS", 2), mock.patch.object(Driver, "jumps", autospec=True, side_effect=Driver.jumps) as asked:
            found = self.machine.jumps(local=True)
            self.assertEqual(asked.call_count, 0)
            self.assertEqual([next(found) for _ in range(5)], ALL[:5])
            self.assertEqual([it.args[1] for it in asked.call_args_list], [0, 5, 9])

    def test_machine_moves_and_is_edited_between_jumps(self) -> None:
        with mock.patch("bezhakkom.jumping.JUMPS", 1):
            found = self.machine.jumps(local=True)
            self.assertEqual(next(found), CALL)
            self.machine.goto(3)
            self.machine.patch("0xbfc00034", 0x0BF0_0002)  # j 0x1fc00008 in place of jr r31
            self.assertEqual([next(found), next(found)], [TAKEN, Jump(6, ROM + 0x34, 0x0BF0_0002, ROM + 8)])
            self.assertEqual(self.machine.position, 3)

    def test_run_that_stands_still_ends_jumps(self) -> None:
        with mock.patch("bezhakkom.jumping._PIECE", 20), mock.patch("bezhakkom.jumping.JUMPS", 8):
            self.assertEqual(list(self.machine.jumps(local=True)), ALL[:16])  # the second question leads to step 32

    def test_no_jump_for_long_ends_jumps(self) -> None:
        """As `idle` of the shell: here after 200 steps, of a run that seems not to stand still."""
        def none(driver: Driver, first: int, local: bool, most: int) -> "tuple[list[Jump], int]":
            return [], first + 100

        with mock.patch.object(Driver, "jumps", none), mock.patch("bezhakkom.jumping._PIECE", 100), mock.patch(
                "bezhakkom.jumping.standstill", return_value=None):
            found = Jumps(self.machine.driver, 0, False, GREATEST_POSITION, 9, 200)
            self.assertEqual([found.more() for _ in range(3)], [[], [], []])
            self.assertEqual(found.ended, "none of the last 200 steps transfers control, and the log has no more events")
            self.machine.arrive(350, 1)
            found = Jumps(self.machine.driver, 0, False, GREATEST_POSITION, 9, 200)
            self.assertEqual(([found.more() for _ in range(5)], found.ended), ([[]] * 5, ""))

    def test_the_last_position_has_no_jumps(self) -> None:
        self.machine.goto(GREATEST_POSITION)
        self.assertEqual(list(self.machine.jumps()), [])

    def test_wrong_arguments_name_the_parameter(self) -> None:
        for named, text in ({"steps": -1}, "`steps`"), ({"most": "2"}, "`most`"):
            with self.subTest(text), self.assertRaisesRegex(Problem, text):
                self.machine.jumps(**named)  # type: ignore[arg-type]

    def test_a_closed_machine_is_a_problem(self) -> None:
        found = self.machine.jumps()
        self.machine.close()
        with self.assertRaisesRegex(Problem, "the machine is closed"):
            next(found)


class Steps(unittest.TestCase):
    def test_each_jump_leads_to_where_the_run_goes_on(self) -> None:
        words = [immediate(9, 0, 4, 3), 3 << 26 | 0x0FF0_0008, 0, immediate(4, 0, 0, -1), 0, 0, 0, 0,
                 immediate(9, 4, 4, -1), immediate(5, 4, 0, -2), 0, 31 << 21 | 8, 0]
        with brute.fresh(rom(words), []) as run:
            found, reached = run.jumps(0, True, 8)
            steps = {it.step: it for it in run.traced(0, reached + 2)}
        # 0: addiu, 1: jal, 3 to 5, 6 to 8 and 9 to 11: the loop, which is left at 10, 12: jr, 14: beq, ..
        self.assertEqual([(it.step, it.kind) for it in found],
                         [(1, "call"), (4, "branch"), (7, "branch"), (12, "return"), (14, "branch"), (16, "branch"), (18, "branch"), (20, "branch")])
        for it in found:
            self.assertEqual((steps[it.step].pc, steps[it.step].word, steps[it.step + 2].pc), (it.pc, it.word, it.to))
        self.assertEqual(reached, 21)


LOGIN = ("--log", "examples/login/log", "examples/login/login.elf")
LOGIN_JUMPS = [  # by hand from the ELF's code: enter calls main, which calls print, which calls send for each byte
    "110 enter (start.S:25): jal 0xbfc00354 <main>   call to main (login.c:64)",
    "125 main+0x64 (login.c:69): jal 0xbfc001b8 <print>   call to print (login.c:24)",
    "138 print+0x1c (login.c:26): jal 0xbfc00190 <send>   call to send (login.c:18)",
    "148 send+0x20 (login.c:21): jr r31   return to print+0x24 (login.c:25)"]


class InTheShell(unittest.TestCase):
    maxDiff = None

    def shown(self, *lines: str) -> Iterator[str]:
        return iter(scripts.shell(*LOGIN, lines=lines).stdout.splitlines())

    def test_jumps_have_places_and_lines(self) -> None:
        self.assertEqual(list(self.shown("jumps 4")), LOGIN_JUMPS)

    def test_all_has_taken_branches(self) -> None:
        self.assertEqual(list(self.shown("jumps all 1", "goto 40,024", "jumps 2 all"))[::2], [
            "16 copy+0x18 (start.S:18): beq r0, r0, 0xbfc00028 <copy>   branch to copy (start.S:13)",
            "40,027 read_line+0x3c (login.c:45): jal 0xbfc001b8 <print>   call to print (login.c:24)"])

    def test_exceptions_and_rfe(self) -> None:
        with TemporaryDirectory() as folder:
            shown = scripts.shell(str(source(folder)), lines=("goto 8", "jumps 3")).stdout.splitlines()[1:]
        self.assertEqual(shown, ["8 start+0x8: syscall 0   exception 8: system call, to handler", "11 handler+0x8: jr r26   jump to stuck",
                                 "12 handler+0xc: rfe   rfe to stuck"])

    def test_json_has_an_object_for_each(self) -> None:
        first, = map(json.loads, self.shown("jumps 1 --json"))
        self.assertEqual(first, {"step": 110, "pc": ROM + 0x5C, "word": 0x0FF0_00D5, "kind": "call", "to": ROM + 0x354, "place": "enter",
                                 "source": "start.S:25", "to_place": "main", "to_source": "login.c:64"})

    def test_jumps_to_a_file(self) -> None:
        with TemporaryDirectory() as folder:
            name = Path(folder, "list")
            self.assertEqual(list(self.shown(f"jumps 4 to {name}")), [f"{name} has 4 steps"])
            self.assertEqual(name.read_text().splitlines(), ["# jumps from step 0 on", *LOGIN_JUMPS])
            name.write_text("mine\n")
            refused, = self.shown(f"jumps 2 all to {name}")
            self.assertIn(f"jumps 2 all to {name} force", refused)
            self.assertEqual(name.read_text(), "mine\n")

    def test_why_there_are_no_more_is_said(self) -> None:
        with TemporaryDirectory() as folder, mock.patch("bezhakkom.jumping._PIECE", 20), mock.patch("bezhakkom.jumping.JUMPS", 8):
            shown = scripts.shell(str(source(folder)), lines=("goto 13", "jumps 100 all", "jumps 100 all --json")).stdout.splitlines()[1:]
        self.assertRegex(shown[16], "^there are no more: at step [0-9]+ the program goes round in a loop that nothing can leave$")
        self.assertEqual((shown[15].split()[0], [json.loads(it)["kind"] for it in shown[17:]]), ("43", ["branch"] * 16))

    def test_wrong_words_show_the_usage(self) -> None:
        usage = "usage: jumps [N] [all] [--json], or jumps [N] [all] to FILE"
        self.assertEqual(list(self.shown("jumps 1 2", "jumps to", "jumps 1 to x --json", "jumps 0")), [usage] * 3 + ["how many are shown is 1 or more"])

    def test_in_gdb(self) -> None:
        debugger.needed()
        shown = "\n".join(debugger.batch("login/login.elf", "wb jumps 2", "wb goto 40,024", "wb jumps 1 all", log="login/log"))
        for line in (*LOGIN_JUMPS[:2], "40,027 read_line+0x3c (login.c:45): jal 0xbfc001b8 <print>   call to print (login.c:24)"):
            self.assertIn(line, shown)


if __name__ == "__main__":
    unittest.main()
