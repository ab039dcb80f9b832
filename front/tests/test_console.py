"""The terminal on a serial line, and the shell on a terminal, with typed keys."""
from __future__ import annotations

import os
import random
import signal
import tempfile
import time
import unittest
from pathlib import Path

from bezhakkom import loading
from bezhakkom import log as logs
from bezhakkom.log import Event, Kind
from bezhakkom.progress import progress
from front.tests.support import ROOT, needs_kinds
from front.tests.terminal import Terminal

LOGIN = "examples/login/login.elf"
BACK, SAVE, QUIT, SEND_ESCAPE = b"\x1db", b"\x1ds", b"\x1dq", b"\x1d\x1d"


def refused_and_back(terminal: Terminal) -> None:
    """Types a wrong password, and goes back to the start once it is refused."""
    terminal.until(b"password: ")
    terminal.type(b"wrong\r")
    terminal.until(b"Sorry, operator.")
    shown = b""
    while b"back at step 0;" not in shown:
        terminal.type(BACK)
        shown = terminal.until(b"later is gone]")


class Console(unittest.TestCase):
    def setUp(self) -> None:
        folder = tempfile.TemporaryDirectory()
        self.addCleanup(folder.cleanup)
        self.log = str(Path(folder.name) / "typed.log")

    def test_typing(self) -> None:
        """What is typed arrives; the log that is saved gives the same run again."""
        terminal = Terminal("console", "--speed", "200000", LOGIN)
        terminal.until(b"password: ")
        terminal.type(b"sesame\r")
        shown = terminal.until(b"password: ")
        self.assertIn(b"******\r\nWelcome, operator.\r\n", shown)
        terminal.type(SAVE)
        terminal.until(b"save the log")
        terminal.type(self.log.encode() + b"\r")
        terminal.until(b"\n")
        terminal.type(QUIT)
        self.assertEqual(terminal.end(), 0)
        events = logs.read(Path(self.log).read_bytes(), self.log)
        self.assertEqual(bytes(it.byte for it in events), b"sesame\r")
        self.assertTrue(all(second.time - first.time >= 1000 for first, second in zip(events, events[1:])))
        driver = loading.start(loading.image(str(ROOT / LOGIN)), self.log)
        driver.goto(events[-1].time + 20_000)
        self.assertEqual(driver.console(0), b"password: ******\r\nWelcome, operator.\r\npassword: ")
        driver.close()

    def test_going_back(self) -> None:
        """What was typed is gone, and something else is typed. Nothing is lost where the log can't be saved."""
        terminal = Terminal("console", "--speed", "100000", "--line=0", LOGIN)
        refused_and_back(terminal)
        terminal.until(b"password: ")
        terminal.type(b"ses" + b"ame\r")
        terminal.until(b"Welcome, operator.")
        terminal.type(SAVE)
        terminal.until(b"save the log")
        terminal.type(b"/dev/full\r")
        terminal.until(b"not saved: /dev/full can't be written")
        terminal.until(b"save the log")
        Path(self.log).write_bytes(b"a letter")
        terminal.type(self.log.encode() + b"\r")
        terminal.until(b"is there and is no log. `" + self.log.encode() + b" force` overwrites it")
        self.assertEqual(Path(self.log).read_bytes(), b"a letter")
        terminal.until(b"save the log")
        terminal.type(self.log.encode() + b" force\r")
        terminal.until(b"\n")
        terminal.type(QUIT)
        self.assertEqual(terminal.end(), 0)
        self.assertEqual(bytes(it.byte for it in logs.read(Path(self.log).read_bytes(), self.log)), b"sesame\r")

    def test_going_back_keeps_external_lines(self) -> None:
        needs_kinds(self)
        later = Event(1 << 31, 0, 1, Kind.WIRE)
        Path(self.log).write_bytes(logs.write([later]))
        terminal = Terminal("console", "--log", self.log, "--speed", "100000", LOGIN)
        refused_and_back(terminal)
        terminal.type(SAVE)
        terminal.until(b"save the log")
        terminal.type(self.log.encode() + b"\r")
        terminal.until(b"\n")
        terminal.type(QUIT)
        self.assertEqual(terminal.end(), 0)
        self.assertEqual(logs.read(Path(self.log).read_bytes(), self.log), [later])

    def test_keys(self) -> None:
        terminal = Terminal("console", LOGIN)
        terminal.until(b"password: ")
        for key, shown in ((b"\x1d?", b"Ctrl-] and then"), (b"\x1dp", b"time stands"), (b"\x1dp", b"time goes on"),
                           (b"\x1d+", b"2,000,000 steps a second"), (b"\x1d-", b"1,000,000 steps a second"),
                           (b"x", b"*"), (SEND_ESCAPE, b"*")):
            terminal.type(key)
            terminal.until(shown)
        terminal.type(QUIT)
        terminal.until(b"2 events; save the log")
        terminal.type(b"\r")
        self.assertEqual(terminal.end(), 0)


    def test_break_and_external_lines(self) -> None:
        needs_kinds(self)
        terminal = Terminal("console", LOGIN)
        terminal.until(b"password: ")
        for key, shown in ((b"\x1d1", b"external line 1 is up from step"), (b"\x1d1", b"external line 1 is down from step"),
                           (b"\x1d2", b"external line 2 is up from step"), (b"\x1df\x1dp", b"time stands")):
            terminal.type(key)
            terminal.until(shown)
        terminal.type(QUIT)
        terminal.until(b"4 events; save the log")
        terminal.type(self.log.encode() + b"\r")
        self.assertEqual(terminal.end(), 0)
        events = logs.read(Path(self.log).read_bytes(), self.log)
        self.assertEqual([(it.kind, it.line, it.byte) for it in events],
                         [(Kind.WIRE, 1, 1), (Kind.WIRE, 1, 0), (Kind.WIRE, 2, 1), (Kind.FRAMING, 0, 0)])

    def test_random_keys(self) -> None:
        """Time stands most of the while. A key that would save, leave or go back is left out."""
        source = random.Random(8)
        terminal = Terminal("console", "--speed", "1000", LOGIN)
        terminal.until(b"password: ")
        for _ in range(60):
            keys = bytes(source.randrange(256) for _ in range(40))
            for left_out in (b"\x1ds", b"\x1dq", b"\x1d"):
                keys = keys.replace(left_out, b"\x1d?" if left_out == b"\x1d" else b"")
            terminal.type(keys)
        terminal.type(b"\x1dp")
        terminal.until(b"time stands")
        terminal.type(b"\x1dp" + QUIT)
        terminal.until(b"save the log")
        terminal.type(b"\r")
        self.assertEqual(terminal.end(), 0)

    def test_killed_program(self) -> None:
        """What was typed is there after the program died."""
        terminal = Terminal("console", "--speed", "200000", LOGIN)
        terminal.until(b"password: ")
        terminal.type(b"ses")
        terminal.until(b"***")
        kill_program(terminal)
        terminal.until(b"ended by SIGKILL; time stands")
        terminal.type(b"\x1dp")
        terminal.until(b"time goes on")
        terminal.type(b"ame\r")
        terminal.until(b"Welcome, operator.")
        terminal.type(QUIT)
        terminal.until(b"7 events; save the log")
        terminal.type(b"\r")
        self.assertEqual(terminal.end(), 0)


def kill_program(terminal: Terminal) -> None:
    """Kills the program below a front end."""
    children = Path(f"/proc/{terminal.process}/task/{terminal.process}/children").read_text().split()
    os.kill(int(children[0]), signal.SIGKILL)


class Speed(unittest.TestCase):
    def test_a_slow_run_has_a_speed(self) -> None:
        self.assertEqual(progress(250_000, 0, None, 250_000.4), "position 250,000, 250,000 steps a second")
        self.assertEqual(progress(3_000_000, 0, 6_000_000, 1.5e6), "position 3,000,000, 2 million steps a second, 50% of the way, 2 s left")


class Shell(unittest.TestCase):
    def start(self, *arguments: str) -> Terminal:
        folder = tempfile.TemporaryDirectory()
        self.addCleanup(folder.cleanup)
        return Terminal("shell", *arguments, XDG_STATE_HOME=folder.name)

    def test_lines(self) -> None:
        """A prompt with the position, completion, and a warning of what is not saved."""
        terminal = self.start(LOGIN)
        terminal.until(b"wb 0> ")
        terminal.type(b"visit read_l\t\r")
        terminal.until(b"read_line (login.c:39): ")
        terminal.until(b"> ")
        terminal.type(b"add 5 0 1\r")
        terminal.until(b"event 0")
        terminal.until(b"> ")
        terminal.type(b"\x04")
        terminal.until(b"not saved: the log")
        terminal.until(b"> ")
        # What is edited after that is told too.
        terminal.type(b"add 6 0 2\r")
        terminal.until(b"event 1")
        terminal.until(b"> ")
        terminal.type(b"quit\r")
        terminal.until(b"not saved: the log")
        terminal.until(b"> ")
        terminal.type(b"quit\r")
        self.assertEqual(terminal.end(), 0)

    def test_ctrl_c(self) -> None:
        """Ctrl-C at the prompt drops a line; in a long run it ends the run, and the shell goes on."""
        terminal = self.start("examples/driver/boot.s")
        terminal.until(b"wb 0> ")
        terminal.type(b"goto 12")
        terminal.until(b"goto 12")
        time.sleep(0.3)  # Python looks for Ctrl-C when it waits for the next key
        terminal.type(b"\x03")
        terminal.until(b"wb 0> ")
        terminal.type(b"goto 4294967295\r")
        terminal.until(b"million steps a second")
        terminal.type(b"\x03")
        terminal.until(b"interrupted")
        terminal.until(b"> ")
        terminal.type(b"goto 33\r")
        terminal.until(b"step 33, ")
        terminal.until(b"> ")
        terminal.type(b"q\r")
        self.assertEqual(terminal.end(), 0)

    def test_killed_program(self) -> None:
        terminal = self.start(LOGIN)
        terminal.until(b"wb 0> ")
        terminal.type(b"add 5 0 'x'\r")
        terminal.until(b"event 0")
        terminal.until(b"> ")
        kill_program(terminal)
        terminal.type(b"goto 7\r")
        terminal.until(b"ended by SIGKILL; it is started anew")
        terminal.until(b"> ")
        terminal.type(b"log\r")
        terminal.until(b"1 event, ")
        for line, shown in ((b"regs\r", b"pc 0x"), (b"quit\r", b"not saved")):
            terminal.until(b"> ")
            terminal.type(line)
            terminal.until(shown)
        terminal.until(b"> ")
        terminal.type(b"quit\r")
        self.assertEqual(terminal.end(), 0)


if __name__ == "__main__":
    unittest.main()
