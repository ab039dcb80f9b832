"""gdb on a session and an ELF of somebody else: opening them runs no program of theirs."""
from __future__ import annotations

import shutil
import subprocess
import unittest
from pathlib import Path

from bezhakkom import gdb_stops
from front.tests import debugger
from front.tests.outside import InFolder, run
from front.tests.support import ROOT
from front.tests.terminal import Terminal

COMPILER = "mipsel-linux-gnu-gcc"


class Plain(unittest.TestCase):
    """Which stops of a session gdb may have without a question."""

    def test_stops_of_numbers_registers_and_names_are_plain(self) -> None:
        for line in ("break main", "disabled tbreak login.c:44", "hbreak *0xbfc00200", "thbreak ../src/login.c:read_line",
                     "watch *(char (*)[33]) 0x80001000", "watch *(int *) 0x80001020 if $a0 == 5", "break *0x80000080 if $exception >= 0",
                     "break *0xbfc00180 if ($cause >> 2 & 31) == 8 && $exception == 8", "break main if *0x80001020 != -1 || !$r8"):
            self.assertTrue(gdb_stops.is_plain(line), line)

    def test_text_that_gdb_evaluates_is_not_plain(self) -> None:
        for line in ("break main if evil", "break main if length == 5", "break *&main", "break *evil", "watch length", "watch *(evil *) 0x80001020",
                     'break main if $_shell("touch x")', "break main if $a0 = 5", "break main if $a0 <<= 1", "break main if $a0evil", "watch -location x",
                     "break main if f(1)", "break -function main", "break main thread 1", "break main if 1 if evil", "shell touch x", "tbreak main\nshell x",
                     "break main if " + 1000 * "1" + "x", "break main if " + 1000 * "&" + "x", ""):
            self.assertFalse(gdb_stops.is_plain(line), line)


class Opened(InFolder):
    def setUp(self) -> None:
        debugger.needed()
        super().setUp()

    def session(self, image: str, *stops: str) -> None:
        """Saves a session of an image in the folder, with stops of gdb's."""
        (self.folder / "script").write_text("".join(f"{it}\n" for it in (*(f"gdb {it}" for it in stops), "save a.session")))
        self.assertIn(b"the session is saved", run(["shell", f"./{image}", "script"], folder=self.folder).stdout)

    def batch(self, *commands: str) -> str:
        words = [word for it in commands for word in ("-ex", it)]
        return run(["gdb", "a.session", *debugger.PLAIN, "-batch", *words], folder=self.folder, together=True).stdout.decode()

    def made(self) -> list[str]:
        return [it.name for it in self.folder.iterdir() if it.name.startswith("made")]

    def test_image_with_the_name_of_an_option_is_a_file(self) -> None:
        image = "-ex=shell touch made.elf"
        shutil.copy(ROOT / "examples/login/login.elf", self.folder / image)
        self.session(image)
        self.assertIn("<main>", self.batch("print main"))
        self.assertEqual(self.made(), [])

    def test_condition_of_a_session_reaches_no_macro(self) -> None:
        if not shutil.which(COMPILER):
            self.skipTest(f"{COMPILER} is not installed")
        source = 'int count;\n#define evil $_shell("touch made")\nvoid start(void) { for (;;) count++; }\n'
        (self.folder / "kernel.c").write_text(source)
        subprocess.run([COMPILER, "-march=r3000", "-mfp32", "-EL", "-mno-abicalls", "-fno-pic", "-g3", "-O1", "-ffreestanding", "-nostdlib", "-static",
                        "-Wl,-Ttext,0xbfc00000,-e,start,--build-id=none", "-o", "kernel.elf", "kernel.c"], cwd=self.folder, check=True)
        line = "break start if evil || 1"
        self.session("kernel.elf", line, "tbreak *0xbfc00000 if $r8 == 0")
        shown = self.batch("info breakpoints", "wb save b.session")
        self.assertIn(f"  {line}\nthey are not made, because without a terminal nobody can be asked: type those that you trust\n", shown)
        self.assertNotIn("keep", shown)
        self.assertRegex(shown, r"1 +breakpoint +del +y +0xbfc00000")
        self.assertIn(f"gdb {line}\n", (self.folder / "b.session").read_text())
        for answer in b"n\n", b"\x03", b"y\n":
            terminal = Terminal("gdb", str(self.folder / "a.session"), *debugger.PLAIN, "-ex", f"cd {self.folder}")
            terminal.until(b"break start if evil || 1\r\nMake them? (y or n) ")
            terminal.type(answer)
            terminal.until(b"(0) ")
            terminal.type(b"break start\nrun\nprint evil\n")
            terminal.until(b"`$_shell` is off, as a macro of an ELF could call it: `shell LINE` runs a program\r\n(")
            self.assertEqual(terminal.leave(b"quit\n"), 0)
        self.assertEqual(self.made(), [])


if __name__ == "__main__":
    unittest.main()
