"""gdb on a terminal, and on a kernel that is built anew. Positions and values were counted by hand."""
from __future__ import annotations

import re
import shutil
import subprocess
import tempfile
import unittest
from pathlib import Path

from front.tests import debugger
from front.tests.terminal import Terminal


PROMPT = b"\n("  # where gdb says nothing else between parentheses


def setUpModule() -> None:
    debugger.needed()


class Typed(unittest.TestCase):
    """gdb on a terminal."""

    asked = 0  # questions, each with its own answer

    def gdb(self, *options: str) -> Terminal:
        terminal = Terminal("gdb", *options, *debugger.PLAIN)
        terminal.until(b"(0) ")
        return terminal

    def edited(self) -> Terminal:
        """gdb on the driver's run, with an event more in the log."""
        terminal = self.gdb("--log", "examples/driver/log", "examples/driver/boot.s")
        self.type(terminal, "wb add 5 0 65")
        terminal.until(b"event 0\r\n(0) ")
        return terminal

    def type(self, terminal: Terminal, *lines: str) -> None:
        for line in lines:
            terminal.type(line.encode() + b"\n")

    def test_commands_of_a_breakpoint_that_go_on(self) -> None:
        # read_line is entered after the 10 characters of the prompt, and again after the answer.
        terminal = self.gdb("--log", "examples/login/log", "examples/login/login.elf")
        self.type(terminal, "break read_line", "commands", "silent", 'printf "at %d\\n", $position', "continue", "end",
                  "continue")
        shown = terminal.until(b"(110,960) ")
        self.assertEqual(re.findall(rb"at (\d+)\r", shown), [b"368", b"110947"])
        self.type(terminal, "starti 40,024", "starti")
        terminal.until(b"(40,024) ")
        terminal.until(b"(0) ")
        self.type(terminal, "quit")
        self.assertEqual(terminal.end(), 0)

    def begin(self, terminal: Terminal, line: str) -> None:
        """Types what takes long where gdb waits for it, and waits until it is taken. A Ctrl-C that came before would drop it, and
        leave gdb deaf up to the next key: it reads a key that it was told of, and that the system has dropped."""
        self.type(terminal, line)
        terminal.until(line.encode() + b"\r\n")

    def interrupt(self, terminal: Terminal, keys: bytes = b"\x03") -> None:
        """Presses Ctrl-C until there is a prompt."""
        terminal.press(keys, PROMPT)
        self.settle(terminal)

    def settle(self, terminal: Terminal) -> None:
        """Asks until the last question is answered: then gdb has handled every key. What is typed before it has handled a Ctrl-C it
        drops."""
        patience = 0.5
        while True:
            self.asked += 1
            self.type(terminal, f"print 7000 + {self.asked}")
            if terminal.shows(b"= %d\r" % (7000 + self.asked), patience):
                break
            patience *= 2
        terminal.until(PROMPT)

    def test_a_run_with_such_commands_is_ended(self) -> None:
        terminal = self.gdb("--log", "examples/driver/log", "examples/driver/boot.s")
        self.type(terminal, "break *0xbfc00180", "commands", "silent", "continue", "end", "continue")
        terminal.until(b"[serial line 3]")
        self.interrupt(terminal)
        self.assertEqual(terminal.leave(b"quit\n"), 0)

    def test_ctrl_c_ends_what_takes_long(self) -> None:
        """However often it is pressed, the session stays, with its edits."""
        for line in "wb goto 20,000,000,000", "starti 20,000,000,000", "run 20,000,000,000", "wb until 20,000,000,000":
            with self.subTest(line=line):
                terminal = self.edited()
                self.begin(terminal, line)
                self.interrupt(terminal, 5 * b"\x03")
                terminal.press(b"starti 9\nwb log 0 2\n", b"step 5, line 0, 0x41")
                self.assertEqual(terminal.leave(b"quit\n"), 0)

    def test_ctrl_c_ends_many_steps(self) -> None:
        """However often it is pressed, the session stays, with its edits."""
        terminal = self.edited()
        for keys in b"\x03", 2 * b"\x03", 9 * b"\x03":
            self.begin(terminal, "stepi 1000000000")
            self.interrupt(terminal, keys)
        terminal.press(b"starti 9\nwb log 0 2\n", b"step 5, line 0, 0x41")
        self.assertEqual(terminal.leave(b"quit\n"), 0)

    def test_a_long_answer_shows_how_far_it_is(self) -> None:
        terminal = self.gdb("--log", "examples/driver/log", "examples/driver/boot.s")
        self.begin(terminal, "wb goto 1000000000000")
        terminal.until(b"% of the way")
        self.interrupt(terminal)
        self.assertEqual(terminal.leave(b"quit\n"), 0)

    def test_ctrl_c_ends_loops_of_gdb(self) -> None:
        """Once pressed it ends the step, and the loop or the user's command with it."""
        terminal = self.gdb("--log", "examples/driver/log", "examples/driver/boot.s")
        self.type(terminal, "define many", "while 1", "stepi", "end", "end")
        for lines in (("while 1", "stepi", "end"), ("many",), ("while 1", "next", "end")):
            self.type(terminal, *lines)
            terminal.until(b" in loop ()")
            terminal.type(b"\x03")
            terminal.until(PROMPT)
            self.settle(terminal)
        self.assertEqual(terminal.leave(b"quit\n"), 0)

    def test_what_is_not_saved_is_told_before_gdb_quits(self) -> None:
        terminal = self.gdb("examples/login/login.elf")
        self.type(terminal, "wb add 1,000 0 65", "quit")
        shown = terminal.until(b"`quit` again leaves without it.")
        self.assertIn(b"not saved: the log (wb save-log FILE)", shown)
        # What is edited after that is told too.
        self.type(terminal, "wb add 1,001 0 66", "quit")
        terminal.until(b"`quit` again leaves without it.")
        self.type(terminal, "quit")
        self.assertEqual(terminal.end(), 0)


class Kernel(unittest.TestCase):
    """A kernel in RAM, built by gcc. The third word of its loop counts in r8, by one in each turn of 4 steps."""

    COMPILER = "mipsel-linux-gnu-gcc"
    SOURCE = """
            .set noreorder
            .globl start
            .ent start
    start:  lui $9, %hi(count)
    loop:   addiu $8, $8, STEP
            sw $8, %lo(count)($9)
            b loop
            nop
            .end start
            .data
            .word 1, 2, 3
            .bss
    count:  .word 0
            .space 16
    """

    def setUp(self) -> None:
        if not shutil.which(self.COMPILER):
            self.skipTest(f"{self.COMPILER} is not installed")
        folder = tempfile.TemporaryDirectory()
        self.addCleanup(folder.cleanup)
        self.folder = Path(folder.name)
        self.elf = str(self.folder / "a kernel.elf")
        self.build(1)

    def build(self, step: int) -> None:
        source = self.folder / "kernel.S"
        source.write_text(self.SOURCE.replace("STEP", str(step)))
        subprocess.run([self.COMPILER, "-march=r3000", "-mfp32", "-EL", "-mno-abicalls", "-fno-pic", "-g", "-nostdlib",
                        "-static", "-Wl,-Ttext,0x80010000,-e,start,--build-id=none", "-o", self.elf, str(source)], check=True)

    def gdb(self, *commands: str) -> list[str]:
        words = [word for command in commands for word in ("-ex", command)]
        return debugger.run([debugger.WB, "gdb", self.elf, *debugger.PLAIN, "-batch", *words]).splitlines()

    def test_the_jump_at_reset_has_a_name(self) -> None:
        shown = "\n".join(self.gdb("stepi", f"file '{self.elf}'", "stepi", "info all-registers"))
        self.assertEqual(shown.count("a jump to its entry 0x80010000 was put there"), 1)
        self.assertEqual(re.findall(r"0xbfc0000\w in reset", shown), [f"0xbfc0000{at} in reset" for at in "048"])
        self.assertNotIn("find the start of the function", shown)
        self.assertIn("\n f31: 0x00000000 flt: 0", shown)
        self.assertIn("\nposition: 0x2\n", shown)

    def test_build_and_load(self) -> None:
        terminal = Terminal("gdb", self.elf, *debugger.PLAIN)
        terminal.until(b"(0) ")
        terminal.type(b"starti 46\nprint $r8\n")  # the fourth jump's step, the one before the loop, and 40 steps of it
        terminal.until(b"$1 = 11\r")
        self.build(3)
        terminal.type(f"file '{self.elf}'\nload\n".encode())
        self.assertIn(b"1 word of the image changed", terminal.until(b"(0) "))
        terminal.type(b"starti 46\nprint $r8\nquit\n")
        terminal.until(b"$2 = 33\r")
        self.assertEqual(terminal.end(), 0)

    def changed(self, *commands: str) -> str:
        """What gdb shows for commands, among which `shell` moves another build over the ELF."""
        return "\n".join(self.gdb("echo \\n<begin>\\n", *commands)).split("<begin>\n")[1]

    def prepare(self) -> str:
        """Puts another build, whose step is 3 and whose data begins 16 bytes later, next to the ELF, and returns the line that moves it."""
        kept = Path(self.elf).read_bytes()
        source = self.SOURCE
        self.SOURCE = source.replace(".word 1", ".word 0, 0, 0, 0, 1").replace("b loop", "nop\n b loop")
        self.build(3)
        self.SOURCE = source
        Path(self.elf).rename(self.folder / "new.elf")
        Path(self.elf).write_bytes(kept)
        return f"shell mv '{self.folder}/new.elf' '{self.elf}'"

    def test_run_loads_the_elf_that_was_built_again(self) -> None:
        shown = self.changed("break loop", "watch *(int *)&count", "continue", self.prepare(), "stepi", "run", "print $position", "delete",
                             "starti 50", "print $r8")
        self.assertIn(f"{self.elf} has changed on disk, and this is a run of what it was", shown)
        self.assertIn("has changed on disk: it is loaded, and the log stays\n", shown)
        self.assertRegex(shown, r"stop 2 moved with \*\(int \*\)&count, from 0x\w+ to 0x\w+")
        # Four steps of the jump, lui, and then turns of 5 steps in place of 4, which add 3: 9 of them are whole up to step 50.
        self.assertIn("$1 = 5\n", shown)
        self.assertIn("$2 = 27\n", shown)

    def test_run_with_a_damaged_elf_is_refused(self) -> None:
        shown = self.changed("starti 7", f"shell echo damaged > '{self.elf}'", "run", "print $position", "print $r8")
        self.assertIn("it can't be loaded: ", shown)
        self.assertIn("Nothing runs.", shown)
        self.assertRegex(shown, r"\$1 = 7\n\$2 = 1")

    def test_undo_of_a_load_brings_the_symbols_back(self) -> None:
        shown = self.changed("break *&loop", "print/x (long)&count", self.prepare(), "load", "print/x (long)&count", "wb undo",
                             "print/x (long)&count", "starti 46", "print $r8", "info breakpoints", "info inferiors")
        note = f"this is a run of {self.elf} as it was before the `load` that was taken back: `load` loads it as it is on disk\n"
        self.assertEqual(shown.count(note), 1, shown)
        self.assertNotIn("/bezhakkom-", shown, "a file that is one for a while")
        self.assertIn(self.elf, shown.split("Executable")[1])
        addresses = re.findall(r"\$[123] = (0x\w+)", shown)
        self.assertEqual(addresses[0], addresses[2], shown)
        self.assertNotEqual(addresses[0], addresses[1], shown)
        self.assertIn("$4 = 11\n", shown)

    def test_load_of_edited_source_shows_its_new_text(self) -> None:
        source = self.folder / "kernel.S"
        before = source.read_text()
        move = self.prepare()
        source.with_suffix(".new").write_text("\n\n" + source.read_text())
        source.write_text(before)
        shown = self.changed("list loop,+0", move, f"shell mv '{self.folder}/kernel.new' '{source}'", "load", "list 8,8")
        self.assertRegex(shown, r"6\s+loop: +addiu \$8, \$8, 1\n")
        self.assertRegex(shown, r"8\s+loop: +addiu \$8, \$8, 3\n")

    def test_stub_loads_the_elf_that_was_built_again_at_vrun(self) -> None:
        """For a gdb without front/bezhakkom/in_gdb.py, which reads the new symbols by itself."""
        commands = (f"target extended-remote | '{debugger.WB}' stub '{self.elf}'", self.prepare(), "stepi", "run", "starti 50", "print $r8")
        settings = ("osabi none", "architecture mips:3000", "endian little", "confirm off", "remotetimeout 100000")
        words = [word for it in settings for word in ("-iex", f"set {it}")] + [word for it in commands for word in ("-ex", it)]
        shown = debugger.run([debugger.DEBUGGER, "-q", *debugger.PLAIN, "-batch", self.elf, *words])
        self.assertIn("of the image changed by ", shown)
        self.assertIn("$1 = 27\n", shown)


if __name__ == "__main__":
    unittest.main()
