"""What the what-if commands refuse: each with its sentence, and all stays as it was."""
from __future__ import annotations

import os
import unittest
from typing import Sequence

from bezhakkom import shell as _  # puts all commands into the table
from bezhakkom.commands import COMMANDS, WHAT_IF, run
from bezhakkom.errors import Problem
from bezhakkom.log import Event
from bezhakkom.saved import Origin
from bezhakkom.session import Session
from bezhakkom.symbols import symbols_of
from front.tests import brute
from front.tests.support import ROOT, start

WHAT = "a register, an address of a word, `sent L K`, or `console [L]`"
CONDITION = "pc ADDRESS, console [L] 'TEXT', word ADDRESS OP VALUE, or [A] OP [B] - [C]"
USAGES = {
    "causes": "causes WHAT .. [by set|del|both] [values N] [--jobs N] [--json]",
    "try": "try I [all] [A..B] [del] [moved A..B [by K]] [show WHAT ..] [until CONDITION] [at N] [by sent|place] [--jobs N] [--json]; "
           "`by sent` leaves the function in which the program stands out of outcomes, as `show` and `until console` do without `by place`",
    "shrink": f"shrink until CONDITION [at N] [as NAME] [--jobs N] [--json]; a condition is {CONDITION}",
    "compare": "compare [LOG] [--json]; LOG is a file, or a log that `shrink` kept",
    "when": "when ADDRESS OP VALUE [at N] [--json]",
    "fuzz": f"fuzz FROM until CONDITION [seed S] [steps N] [tries N] [save FILE [force]] [--jobs N] [--json]; a condition is {CONDITION}",
}

NO_NAME = "there is no symbol and no register nowhere"
NO_LINE = "there is no line 7; they are 0 to 3"
NO_JOBS = "1 to 64 processes can be used, and not 0"
NO_POSITION = "a position is 0 to 1,099,511,627,775"
NO_BYTE = "a byte is 0 to 255, and the level of an external line 0 or 1"
NOT_COMPARED = "a word is compared by ==, !=, <, <=, > or >="
NO_WORD = "0x100000000 is no word: it is below 0x100000000"
NOT_A_MULTIPLE = "0xa0000101 is no multiple of 4; the word that it is in is at 0xa0000100"
NO_MEMORY = ("0xbfe00000 leads to the physical address 0x1fe00000, where no memory is: RAM is 8 MiB from 0x80000000 (physical 0), "
             "ROM 256 KiB from 0xbfc00000 (physical 0x1fc00000)")
NO_INSTRUCTION = "is no address of an instruction: it is a multiple of 4, below 0x100000000"
NO_END = "does not come true up to step 150; `goto` goes to a position after it, or `at N` names one"


def no_condition(text: str) -> str:
    return f"`{text}` is no condition; there are {CONDITION}"


# Lines, and why they are refused. After `*` the usage of the command follows. Bytes 0x41 and 0x42 arrive in steps 70 and 200, this is
# position 150, and no edit was made.
REFUSALS = (
    ("causes", "usage: causes WHAT .."),
    ("causes --json", f"causes of what? That is {WHAT}*"),
    ("causes by set", f"causes of what? That is {WHAT}*"),
    ("causes nowhere", NO_NAME),
    ("causes 0xa0000101", NOT_A_MULTIPLE),
    ("causes 0xbfe00000", NO_MEMORY),
    ("causes sp by luck", "`by` is followed by set, del, both*"),
    ("causes sp by", "a word is missing after `by`*"),
    ("causes sp values 0", "1 to 255 other values can be tried, and not 0"),
    ("causes sp values 256", "1 to 255 other values can be tried, and not 256"),
    ("causes sp values nowhere", NO_NAME),
    ("causes sp values", "a word is missing after `values`*"),
    ("causes sp more", "more means nothing here*"),
    ("causes sp until", "until means nothing here*"),
    ("causes sp --jobs", "a word is missing after `--jobs`*"),
    ("causes sp --jobs 0", NO_JOBS),
    ("causes sp --jobs 65", "1 to 64 processes can be used, and not 65"),
    ("causes sent", "a line and a place stand after `sent`*"),
    ("causes sent 0", "a line and a place stand after `sent`*"),
    ("causes sent 7 0", NO_LINE),
    ("causes sent 0 nowhere", NO_NAME),
    ("causes console 7", NO_LINE),
    ("causes console 0 1", "1 means nothing here*"),
    ("try", "usage: try I .."),
    ("try all", "which event? `log` lists them*"),
    ("try 2", "there is no event 2: they are 0 to 1"),
    ("try del", "which event? `log` lists them*"),
    ("try moved 1..5", "which event? `log` lists them*"),
    ("try 0-1", "there is no event -1: they are 0 to 1"),
    ("try nowhere", NO_NAME),
    ("try 0 256", NO_BYTE),
    ("try 0 250..256", NO_BYTE),
    ("try 0 9..8", "9..8 has nothing in it*"),
    ("try 0 1..", "an empty word is no number and no name; `help numbers` says what may stand there"),
    ("try 0 moved", "a word is missing after `moved`*"),
    ("try 0 moved 9..8", "9..8 has nothing in it*"),
    ("try 0 moved 1..9 by 0", "1..9 has nothing in it*"),
    ("try 0 moved 1..9 by", "a word is missing after `by`*"),
    ("try 0 moved 0..9999999", "at most 1,048,576 pasts are tried together"),
    ("try 0 moved 1099511627775", "a step is 0 to 1,099,511,627,774"),
    ("try 1", "a change in step 200 does not show at position 150: go to one after it, or name it by `at N`"),
    ("try 0 at 70", "a change in step 70 does not show at position 70: go to one after it, or name it by `at N`"),
    ("try 0 at 0-1", NO_POSITION),
    ("try 0 at", "a word is missing after `at`*"),
    ("try 0 show", "a word is missing after `show`*"),
    ("try 0 show nowhere", NO_NAME),
    ("try 0 show sent 0", "a line and a place stand after `sent`*"),
    ("try 0 until", "a word is missing after `until`*"),
    ("try 0 until sp", no_condition("sp") + "*"),
    ("try 0 --jobs 0", NO_JOBS),
    ("shrink", "usage: shrink until .."),
    ("shrink sp", "sp means nothing here*"),
    ("shrink sp 5", "sp means nothing here*"),
    ("shrink at 5", "a condition is missing*"),
    ("shrink until", "a word is missing after `until`*"),
    ("shrink until at 5", "a word is missing after `until`*"),
    ("shrink until pc", no_condition("pc") + "*"),
    ("shrink until pc 3", f"3 {NO_INSTRUCTION}"),
    ("shrink until pc 0x100000000", f"0x100000000 {NO_INSTRUCTION}"),
    ("shrink until pc nowhere", NO_NAME),
    ("shrink until pc loop loop", no_condition("pc loop loop") + "*"),
    ("shrink until console B", no_condition("console B") + "*"),
    ("shrink until console 7 'B'", NO_LINE),
    ("shrink until console ''", no_condition("console ''") + "*"),
    ("shrink until word", no_condition("word") + "*"),
    ("shrink until word 0xa0000100 5", NOT_COMPARED + "*"),
    ("shrink until word nowhere == 5", NO_NAME),
    ("shrink until word 0xa0000100 == 0x100000000", NO_WORD),
    ("shrink until console 'x'", f"that {NO_END}"),
    ("shrink until console 'B'", f"that {NO_END}"),
    ("shrink until console 'A' as", "a word is missing after `as`*"),
    ("shrink until console 'A' at 0-1", NO_POSITION),
    ("shrink until console 'A' --jobs 0", NO_JOBS),
    ("compare", "there is no edit to compare with; `compare LOG` compares with a log"),
    ("compare nowhere", "there is no file nowhere"),
    ("compare .", ". is no file that can be read"),
    ("compare README.md", "README.md is no log: it does not begin with R3KLOG1 or R3KLOG2. "
                          "If it is the text of one, make it a log with: bin/wb log make README.md OUT"),
    ("compare examples/echo/log more", "more means nothing here*"),
    ("when", "usage: when A .."),
    ("when 0xa0000100", NOT_COMPARED + "*"),
    ("when 0xa0000100 5 5", NOT_COMPARED + "*"),
    ("when nowhere == 5", NO_NAME),
    ("when 0xa0000101 == 5", NOT_A_MULTIPLE),
    ("when 0xbfe00000 == 5", NO_MEMORY),
    ("when 0xa0000100 == nowhere", NO_NAME),
    ("when 0xa0000100 == 0x100000000", NO_WORD),
    ("when 0xa0000100 == 5 at", "a word is missing after `at`*"),
    ("when 0xa0000100 == 5 at 1099511627776", NO_POSITION),
    ("fuzz", "usage: fuzz FROM until .."),
    ("fuzz 5", "usage: fuzz FROM until .."),
    ("fuzz 5 6", "a position and a condition are wanted*"),
    ("fuzz until pc loop", "a position and a condition are wanted*"),
    ("fuzz 5 6 until pc loop", "a position and a condition are wanted*"),
    ("fuzz 5 until", "a word is missing after `until`*"),
    ("fuzz nowhere until pc loop", NO_NAME),
    ("fuzz 60 until sp", no_condition("sp") + "*"),
    ("fuzz 150 until pc loop", "nothing is run from step 150 to step 150: go to the end first, or say where it is"),
    ("fuzz 200 until pc loop", "nothing is run from step 200 to step 150: go to the end first, or say where it is"),
    ("fuzz 60 until console 'x' steps 1099511627775",
     "nothing is run from step 60 to step 1,099,511,627,835: go to the end first, or say where it is"),
    ("fuzz 201 until console 'x' steps 9", "the log has no event from step 201 on that could be changed"),
    ("fuzz 60 until console 'A'", "that comes true at step 84 already; `shrink` makes the log smaller"),
    ("fuzz 60 until console 'x' seed", "a word is missing after `seed`*"),
    ("fuzz 60 until console 'x' tries nowhere", NO_NAME),
    ("fuzz 60 until console 'x' save", "a word is missing after `save`*"),
    ("fuzz 60 until console 'x' --jobs 0", NO_JOBS),
)


class Refusals(unittest.TestCase):
    maxDiff = None

    def session(self, log: Sequence[Event]) -> Session:
        driver = start(brute.image("echo/boot.s"), log)
        self.addCleanup(driver.close)
        driver.patch(0x2000, 7)
        driver.goto(150)
        self.said: list[str] = []
        return Session(driver, symbols_of(driver.image), tell=self.said.append, origin=Origin("boot.s", [], {}))

    def check(self, session: Session, line: str, why: str) -> None:
        before = brute.of(session.driver), list(session.edits), dict(session.logs)
        with self.subTest(line):
            with self.assertRaises(Problem) as caught:
                run(session, line)
            usage = f". usage: {USAGES[line.split()[0]]}"
            self.assertEqual(str(caught.exception), why[:-1] + usage if why.endswith("*") else why)
            self.assertEqual((self.said, brute.of(session.driver), session.edits, session.logs), ([], *before))
            brute.kept(self, session.driver, before[0])
            self.assertEqual(brute.word(session.driver, 150, 0x2000), 7)

    def test_all(self) -> None:
        self.addCleanup(os.chdir, os.getcwd())
        os.chdir(ROOT)
        session = self.session(brute.log_of("echo"))
        for line, why in REFUSALS:
            self.check(session, line, why)

    def test_an_empty_log(self) -> None:
        session = self.session([])
        self.check(session, "try 0", "there is no event 0: the log is empty")
        self.check(session, "fuzz 0 until console 'x'", "the log has no event from step 0 on that could be changed")

    def test_a_session_that_can_not_be_saved(self) -> None:
        session = self.session(brute.log_of("echo"))
        session.origin = None
        self.check(session, "fuzz 60 until console 'x'", "a session is saved by what has opened an image")

    def test_each_command_has_some(self) -> None:
        commands = {it.name: it for it in COMMANDS.values() if it.group == WHAT_IF}
        self.assertEqual({line.split()[0] for line, _ in REFUSALS}, set(commands))
        self.assertEqual({name: it.more for name, it in commands.items()}, USAGES)


if __name__ == "__main__":
    unittest.main()
