"""The top of `bin/wb`: whatever comes, it ends with a status and in lines for the user, without a traceback; and the shell goes on."""
from __future__ import annotations

import contextlib
import io
import random
import re
import shutil
import subprocess
import tempfile
import unittest
from pathlib import Path
from typing import Sequence
from unittest import mock

from bezhakkom import cli, image_command
from bezhakkom.driver import Driver
from bezhakkom.errors import Problem
from front.tests.outside import TIMEOUT, WB, run
from front.tests.support import ROOT, rom

SEED = 55
LINES = 36  # random ones
STATUSES = {0, 1, 2, 3, 5}  # those of docs/USING.md but for what is wrong with the program or with bin/wb itself

FRONT_ENDS = ("", *(it for it in cli.COMMANDS if it != "view"))  # that one serves a page until it is left

OPTIONS = ["--log", "--kind", "--strict", "--echo", "--json", "--to", "--words", "--edits", "--background", "--line", "--speed",
           "--through", "--force", "--unit", "--byte-time", "--clock", "--symbols", "--version", "--what", "--", "-x", "-"]
VALUES = ["rom", "elf", "image", "source", "5", "0", "-1", "9,000", "0x", "1" * 5000, "light", "loop+4", "del 0; add 1 1 1", "",
          "\n", "\udcff", "é", "examples/echo/boot.s", "examples/echo/log", "examples/login/login.elf", "/dev/null", "/", "a@0x80000000",
          "89-01-01 00:00:00", "n" * 300]
SHELL_LINES = ["goto {}", "mem {}", "break {}", "continue 9", "patch {} {}", "type {}", "expect {} 50", "log {}", "undo", "wb {} {}",
               "save-log {}", "print {}", "x {}", "{}", "del {}", "watch {} {}", "dis {}", "writer {}", "reverse-continue", "help {}"]


def typed(arguments: Sequence[str], content: bytes, after: str) -> subprocess.CompletedProcess[bytes]:
    """What `bin/wb` says of an argument line, and of what the system's shell has after it."""
    words = ["sh", "-c", f'exec "$@" {after}', "sh", WB, *arguments]
    return subprocess.run(words, input=content, capture_output=True, cwd=ROOT, timeout=TIMEOUT)


class Top(unittest.TestCase):
    def lines_for_users(self, done: subprocess.CompletedProcess[bytes]) -> None:
        for line in done.stderr.decode("utf-8", "replace").splitlines():
            self.assertRegex(line, "^(bin/wb|r3kwb): ", done.args)

    def test_a_fault_is_one_line(self) -> None:
        """What no module foresaw is reported in one line, with its place, and ends with status 70."""
        errors = io.StringIO()
        with mock.patch.object(image_command, "main", side_effect=ValueError("two\nlines")), contextlib.redirect_stderr(errors):
            self.assertEqual(cli.main(["image", "a", "b"]), 70)
        self.assertRegex(errors.getvalue(), r"^bin/wb: a fault of bin/wb itself, at mock\.py:\d+: ValueError two lines\n$")

    def test_a_fault_in_the_shell_keeps_the_session(self) -> None:
        script = f"add 5 0 65\nprint {'9' * 5000}\ngoto {'9' * 5000}\nlog {'0' * 5000}\nlog\n".encode()
        done = run(["shell", "examples/echo/boot.s"], script)
        self.assertEqual((done.stderr, done.returncode), (b"", 0))
        said = done.stdout.decode().splitlines()
        self.assertEqual(said[0], "event 0")
        self.assertEqual(said[1:4], [f"{it * 60}.. is too large: numbers are below 2^64" for it in "990"])
        self.assertRegex(said[4], "^1 event")

    def test_a_command_with_a_line_feed_is_refused(self) -> None:
        driver = Driver.start(rom([]))
        driver.add(5, 0, 65)
        for command in ("pos\npos", "\n", "goto 5\n"):
            with self.assertRaisesRegex(Problem, "a command is one line"):
                driver.ask(command)
        self.assertEqual((driver.ask("pos"), len(driver.log)), (["pos 0"], 1))
        driver.close()

    def test_a_turn_that_fails_leaves_no_reply_behind(self) -> None:
        """Where a turn ends by a fault, the next question gets its own reply, with all edits that were reported."""
        driver = Driver.start(rom([]))
        with mock.patch.object(driver, "_mirror", side_effect=ValueError):
            with self.assertRaises(ValueError):
                driver.ask_all(["reg 0", "regs", "pos"])
        self.assertEqual(driver.ask_all(["goto 5", "reg 0"]), [["pos 5"], ["r0 0x00000000"]])
        driver.close()

    def test_streams_that_are_closed(self) -> None:
        """A closed stream fails where it is used, in one line."""
        bad = b"bin/wb: standard input or output: Bad file descriptor\n"
        no_debugger = b"bin/wb: a stub wants a debugger at standard input and output, or --listen HOST:PORT\n"
        for arguments, after, status, said in (
                (["examples/echo/boot.s"], "<&-", 3, bad), (["shell", "examples/echo/boot.s"], "<&-", 3, bad),
                (["stub", "examples/echo/boot.s"], "<&-", 2, no_debugger), (["log", "show", "-"], "<&-", 3, bad),
                (["log", "show", "examples/echo/log"], "<&-", 0, b""), (["log", "show", "examples/echo/log"], ">&-", 3, bad),
                (["plot", "--to", "9", "examples/echo/boot.s"], ">&-", 3, bad), (["shell", "examples/echo/boot.s"], ">&-", 3, bad),
                (["none"], "2>&-", 2, b""), (["shell", "examples/echo/boot.s", "examples/echo/script"], "<&- 2>&-", 0, b"")):
            done = typed(arguments, b"pos\n", after)
            self.assertEqual((done.stderr, done.returncode), (said, status), (arguments, after))

    def test_random_argument_lines(self) -> None:
        """Each front end, on lines of options and words that may fit and mostly don't."""
        source = random.Random(SEED)
        lines = []
        with tempfile.TemporaryDirectory() as name:
            folder = Path(name)
            shutil.copytree(ROOT / "examples", folder / "examples")  # some lines write there
            for at in range(LINES):
                words = [source.choice(OPTIONS + 2 * VALUES) for _ in range(source.randrange(6))]
                front_end = FRONT_ENDS[at % len(FRONT_ENDS)]
                if source.randrange(2):
                    words.append("examples/login/login.elf")
                lines.append([front_end, *words] if front_end else words)
            for line in lines:
                done = run(line, b"quit\n", folder)
                self.assertIn(done.returncode, STATUSES, (line, done.stderr))
                if "gdb" not in line:
                    self.lines_for_users(done)
                self.assertNotIn(b"Traceback", done.stderr, line)

    def test_random_files(self) -> None:
        """Each front end that takes files, on files that are damaged or are something else."""
        source = random.Random(SEED)
        kinds = {".elf": "login/login.elf", ".s": "echo/boot.s", ".log": "login/log", ".rom": "login/login.rom", ".txt": "echo/script"}
        with tempfile.TemporaryDirectory() as name:
            folder, lines = Path(name), []
            for at in range(LINES // 3):
                names = []
                for suffix in source.sample(sorted(kinds), 2):
                    content = damaged(source, (ROOT / "examples" / kinds[suffix]).read_bytes())
                    names.append(f"{at}{source.choice([suffix, suffix, '.img', ''])}")
                    (folder / names[-1]).write_bytes(content)
                one, other = names
                lines += [source.choice(choices) for choices in (
                    ([one, other], ["--echo", one, other], ["--log", other, "--json", one]),
                    (["shell", one, other], ["shell", "--log", other, one], ["stub", "--log", other, one]),
                    (["log", "show", one], ["log", "make", one, f"{at}.out"], ["image", one, f"{at}.img.out"],
                     ["plot", "--to", "99", "--log", other, one]))]
            for line in lines:
                done = run(line, b"pos\n", folder)
                self.assertIn(done.returncode, STATUSES, (line, done.stderr))
                self.lines_for_users(done)

    def test_random_lines_for_the_shell(self) -> None:
        """Whatever is typed, the shell answers in lines, and has the event that it had."""
        source = random.Random(SEED)
        script = ["add 7 3 7"]
        for _ in range(300):
            line = source.choice(SHELL_LINES)
            script.append(line.format(*(source.choice([*VALUES, "'", "pc", "loop", str(source.randrange(300))]).replace("\n", " ")
                                        for _ in range(2))))
        # None takes the event out, or goes to an address as a position.
        script = [it for it in script if not re.match(r"\s*(q|quit|erase|del|undo|set|move|wb|goto (loop|pc))\b", it)] + ["log 0 32"]
        with tempfile.TemporaryDirectory() as name:
            content = "\n".join(script).encode("utf-8", "surrogateescape")
            done = run(["shell", str(ROOT / "examples/echo/boot.s")], content, Path(name))
        self.assertEqual((done.stderr, done.returncode), (b"", 0))
        self.assertNotIn(b"a fault of bin/wb itself", done.stdout)
        self.assertIn(b"step 7, line 3, 0x07", done.stdout)


def damaged(source: random.Random, content: bytes) -> bytes:
    """Bytes that are flipped, cut off or doubled, or others."""
    made = bytearray(content)
    for _ in range(source.randrange(4)):
        at = source.randrange(len(made) or 1)
        way = source.randrange(4)
        if way == 0:
            made[at:at + 1] = bytes([source.randrange(256)])
        elif way == 1:
            del made[at:]
        elif way == 2:
            made[at:at] = made[at:at + source.randrange(60)]
        else:
            made[at:at + 4] = source.choice([b"\xff" * 4, bytes(4), b"R3KL", b"\x7fELF"])
    return bytes(made)


if __name__ == "__main__":
    unittest.main()
