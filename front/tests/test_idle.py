"""gdb: runs up to a position, and runs that pause as nothing is sent; and progress on a terminal."""
from __future__ import annotations

import re
import unittest

from front.tests import debugger
from front.tests.terminal import Terminal

setUpModule = debugger.needed


class Debugger(unittest.TestCase):
    def test_a_run_up_to_a_position(self) -> None:
        """The first byte of the log arrives in step 20,000."""
        shown = debugger.batch("login/login.elf", "wb until 200", "print $position", "break receive", "wb until 30000",
                               "print $position < 30000", "delete", "wb until last+5", "print $position", log="login/log")
        self.assertEqual([it for it in shown if it.startswith("$")], ["$1 = 200", "$2 = 1", "$3 = 110005"])
        self.assertEqual(shown.count("Program stopped."), 2)

    def test_a_run_that_does_nothing(self) -> None:
        """It pauses between the bytes of the greeting, and goes on when it is asked again."""
        shown = "\n".join(debugger.batch("login/login.elf", "wb idle 12", "continue", "continue", "wb expect 'x'", "wb idle 0", "continue"))
        self.assertEqual(shown.count("[The run pauses: nothing was sent in the last 12 steps, and the log has no more events. "
                                     "`continue` goes on, and `wb idle N` changes that number, 0 for never.]"), 2)
        self.assertRegex(shown, r"did not send 'x': the run pauses at step \d+, as nothing was sent in the last 12 steps, and the log has "
                                "no more events. The same line goes on, and `wb idle N` changes")
        self.assertRegex(shown, "on the program waits for a byte, and the log has no more.]")

    def test_progress_on_a_terminal(self) -> None:
        """The clock's handler is missing in this program, so nothing that is known lets the run end."""
        terminal = Terminal("gdb", "examples/driver/boot.s", *debugger.PLAIN)
        terminal.until(b"(0) ")
        terminal.type(b"wb idle 0\n")
        terminal.until(b"(0) ")
        terminal.type(b"break *0\ncontinue\n")
        shown = terminal.until(b"million steps a second")
        self.assertTrue(re.search(rb"position [\d,]+, \d+ million", shown), shown)
        terminal.type(b"\x03")
        terminal.until(b"Interrupt")
        terminal.leave(b"quit\n")


if __name__ == "__main__":
    unittest.main()
