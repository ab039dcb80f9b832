"""The commands that ask what if, as they are typed on a terminal and in gdb; and Ctrl-C there."""
from __future__ import annotations

import json
import re
import time
import unittest

from front.tests import debugger
from front.tests.terminal import Terminal

LOADER = ("--log", "examples/loader/log", "examples/loader/loader.elf")


class OnATerminal(unittest.TestCase):
    def test_ctrl_c(self) -> None:
        """One stops it, shows what was found, and all is as before. The guest takes long for each past: each value of the last byte
        has its own way through 100 million steps."""
        terminal = Terminal("shell", *LOADER, patience=0.2)
        terminal.until(b"wb 0> ")
        terminal.type(b"goto 100,000,000\n")
        terminal.until(b"wb 100,000,000> ")
        for line, shows in (("try 178", rb"interrupted: [\d,]+ of 256 were tried, and what follows"),
                            ("try 178 --jobs 2", rb"interrupted: [\d,]+ of 256 were tried"),
                            ("causes v0 values 255", rb"interrupted: [\d,]+ of 181 were tried.*from the last event"),
                            ("shrink until pc fatal at 100,000,000", rb"interrupted after [\d,]+ past|left, and")):
            terminal.type(line.encode() + b"\n")
            terminal.until(b" a second")
            terminal.type(b"\x03")
            shown = terminal.until(b"wb 100,000,000> ")
            self.assertRegex(re.sub(rb"\s+", b" ", shown), shows)
        terminal.type(b"undo\n")
        terminal.until(b"wb 100,000,000> ")
        terminal.type(b"log 177 2\n")
        shown = terminal.until(b"wb 100,000,000> ")
        self.assertIn(b"181 events, 181 before this position", shown)
        terminal.type(b"quit\nquit\n")
        terminal.end()


class InGdb(unittest.TestCase):
    def setUp(self) -> None:
        debugger.needed()

    def test_ctrl_c(self) -> None:
        """What was found is shown before gdb has the key."""
        terminal = Terminal("gdb", *LOADER, *debugger.PLAIN)
        terminal.until(b"(0) ")
        terminal.type(b"wb goto 100000000\n")
        terminal.until(b"(100,000,000) ")
        shown = b""
        for pause in 0.3, 1, 3, 9:
            # A key that comes before anything was tried ends it with nothing to show.
            if b"of 256 were tried, and what follows is what these show" not in shown:
                terminal.type(b"wb try 178\n")
                terminal.until(b"wb try 178\r\n")
                time.sleep(pause)
                terminal.type(b"\x03")
                shown = terminal.until(b"(100,000,000) ")
        self.assertIn(b"of 256 were tried, and what follows is what these show", shown)
        terminal.press(b"wb log 178 2\n", b"181 events, 181 before this position")
        terminal.leave(b"quit\n")

    def test_they_answer(self) -> None:
        shown = debugger.batch("login/login.elf", "wb goto 130000", "wb causes session+0x20 by del", "wb when session+0x20 == 0xffffffff",
                               "wb try 2 'a' del", "wb causes sp --json", log="login/log")
        text = "\n".join(shown)
        self.assertIn("of 10 events decide it by being there:", text)
        self.assertIn("session+0x20 == 0xffffffff holds first at step 40,025, after step 40,024, read_line+0x30", text)
        self.assertIn("event 2, line 0, 0x08 in step 40,000: 2 pasts, ", text)
        found = json.loads(next(it for it in shown if it.startswith("{")))
        self.assertEqual((found["position"], found["events"]), (130_000, 10))


if __name__ == "__main__":
    unittest.main()
