"""The constants of the board and the symbols that a line gives, and several files as one image."""
from __future__ import annotations

import shutil
import unittest

from front.tests import debugger
from front.tests.outside import InFolder, run
from front.tests.support import ROOT
from front.tests.test_elf import made


class Board(InFolder):
    def test_constants(self) -> None:
        """Those of a line are those of a source that sets them, in each way to boot; another value is refused in one line."""
        source = (ROOT / "examples/echo/boot.s").read_bytes()
        self.put("plain.s", source)
        rom = "plain.rom"
        self.check(["image", "plain.s", rom], b"", b"", "", 0)
        # 1 January 1989 was a Sunday, 29 February 2000 a Tuesday.
        for number, (options, text) in enumerate((
                (["--unit", "65,535", "--clock", "89-01-01 12:34:56"], b".unit 65535\n.clock 56 0 34 0 12 0 1 1 1 89 0x20 6\n"),
                (["--byte-time=0x20", "--clock=00-02-29 23:59:58"], b".bytetime 32\n.clock 58 0 59 0 23 0 3 29 2 0 0x20 6\n"),
                (["--clock", "1 2 3 4 5 6 7 8 9 10 0x7f 0xfe", "--byte-time", "1"], b".bytetime 1\n.clock 1 2 3 4 5 6 7 8 9 10 127 254\n"))):
            self.put(f"{number}.s", text + source)
            wanted, again = f"{number}.img", f"{number}.made.img"
            self.check(["image", f"{number}.s", wanted], b"", b"", "", 0)
            self.check(["image", *options, rom, again], b"", b"", "", 0)
            self.assertEqual((self.folder / again).read_bytes()[:28], (self.folder / wanted).read_bytes()[:28])
            script = b"goto 20000\nwriter 0x100\nregs\nconsole 0 0 9\n"
            log = ["--log", str(ROOT / "examples/echo/log")]
            expected = run([*log, wanted], script, self.folder).stdout
            self.check([*log, *options, "--strict", rom] if number else [*log, *options, rom], script, expected, "", 0)
        for options, said in (
                (["--unit", "0"], "--unit wants a number from 1 to 65,535, and 0 is none"),
                (["--byte-time", "65536"], "--byte-time wants a number from 1 to 65,535, and 65536 is none"),
                (["--unit", "x"], "--unit wants a number from 1 to 65,535, and x is none"),
                (["--clock", "89-02-29 00:00:00"], "--clock wants a time, 'YY-MM-DD HH:MM:SS', and 89-02-29 00:00:00 is none"),
                (["--clock", "noon"], "--clock wants a time, 'YY-MM-DD HH:MM:SS', or registers 0 to 11, such as "
                                      "'0 0 0 0 0 0 1 1 1 0 32 6'"),
                (["--clock", "0 0 0 0 0 0 1 1 1 0 0x80 6"],
                 "--clock: bit 7 of register 10 and bit 0 of register 11 are 0 when the clock starts")):
            self.check([*options, rom], b"pos\n", b"", f"bin/wb: {said}\n", 2)
        self.assertRegex(run(["--unit", "5", "0.s"], b"", self.folder).stderr.decode(), "^bin/wb: 0.s is source, which says by .bytetime")

    def test_constants_in_each_front_end(self) -> None:
        self.put("x.rom", bytes(8))
        lines = ["shell --unit 0 x.rom", "stub x.rom --unit 0", "plot --to 9 x.rom --unit 0", "image x.rom --unit 0 out", "x.rom --unit=0"]
        if shutil.which(debugger.DEBUGGER):
            lines.append("gdb --unit 0 x.rom")
        for line in lines:
            self.check(line.split(), b"", b"", "bin/wb: --unit wants a number from 1 to 65,535, and 0 is none\n", 2)

    def test_load_keeps_them(self) -> None:
        """They are the board's, and not the program's."""
        login = str(ROOT / "examples/login/login.elf")
        self.check(["image", "--unit", "3", login, "other.img"], b"", b"", "", 0)
        script = f"load other.img\nload {login}\nsave-image saved.img\n".encode()
        done = run(["shell", "--unit", "100", "--byte-time", "20", login], script, self.folder)
        self.assertEqual((done.stdout.decode().splitlines()[:3], done.stderr), (
            ["the byte time, the unit and the clock stay as they are; other.img says others, which it has where it is opened",
             "0 words of the image changed by other.img", f"0 words of the image changed by {login}"], b""))
        self.assertEqual((self.folder / "saved.img").read_bytes()[8:16], bytes([20, 0, 0, 0, 100, 0, 0, 0]))

    def test_several_files(self) -> None:
        """Words of each file, a jump to the entry of the first ELF, and the symbols of both."""
        self.put("boot.elf", made([(0x8000_0000, 0x8000_0000, b"boot", 4)], 0x8000_0000, [("first", 0x8000_0000, 4, 2)]))
        self.put("kernel.elf", made([(0x8000_1000, 0x8000_1000, b"core", 9)], 0x8000_1000, [("second", 0x8000_1000, 4, 2)]))
        self.put("initrd", b"\1\2\3\4\5")
        self.check(["image", "boot.elf", "kernel.elf", "initrd@0x80400000", "--unit", "9", "all.img"], b"", b"",
                   "bin/wb: boot.elf has nothing at the reset vector 0xbfc00000: a jump to its entry 0x80000000 was put there\n", 0)
        # The jump is lui r26, 0x8000; ori r26, r26, 0; jr r26; sll r0, r0, 0.
        self.check(["all.img"], b"mem 0 1\nmem 0x1000 1\nmem 0x400000 2\nmem 0x1fc00000 4\n",
                   b"0x00000000 0x746f6f62\n0x00001000 0x65726f63\n0x00400000 0x04030201\n0x00400004 0x00000005\n"
                   b"0x1fc00000 0x3c1a8000\n0x1fc00004 0x375a0000\n0x1fc00008 0x03400008\n0x1fc0000c 0x00000000\n", "", 0)
        self.assertEqual((self.folder / "all.img").read_bytes()[8:16], bytes([16, 0, 0, 0, 9, 0, 0, 0]))
        names = ["--symbols", "boot.elf", "--symbols=kernel.elf@0x10"]
        done = run(["shell", *names, "all.img"], b"print first\nprint second\n", self.folder)
        self.assertEqual([line.split()[2] for line in done.stdout.decode().splitlines()], ["0x80000000", "0x80001010"])
        for files, said in ((["boot.elf", "boot.elf"], "boot.elf and boot.elf both set the word at 0x00000000"),
                            (["boot.elf", "initrd@0x80800000"], "initrd@0x80800000 has 5 bytes at 0x80800000, which is neither in RAM"),
                            (["boot.elf", "initrd@6"], "initrd@6: 0x00000006 is no multiple of 4"),
                            (["boot.elf", "initrd@0x100000000"], "0x100000000 is no address: they are below 0x100000000"),
                            (["boot.elf", "none@0"], "there is no file none")):
            done = run(["image", *files, "bad.img"], b"", self.folder)
            self.assertIn(said, done.stderr.decode())
            self.assertEqual((done.returncode, (self.folder / "bad.img").exists()), (2, False))
        self.assertEqual(run(["shell", "--symbols", "initrd", "all.img"], b"", self.folder).stderr, b"bin/wb: initrd is no ELF\n")

    def test_symbols_in_gdb(self) -> None:
        """An image is debugged with the symbols and lines of the ELF that it was made of, also at an offset."""
        debugger.needed()
        login = str(ROOT / "examples/login/login.elf")
        self.check(["image", login, "login.img"], b"", b"", "", 0)
        for added, shown in ((login, ["main in section .text", "Line 64 of"]), (f"{login}@0x10", ["main + 4 in section .text of"])):
            line = [debugger.WB, "gdb", "--symbols", added, "--unit", "5", str(self.folder / "login.img"), *debugger.PLAIN, "-batch"]
            asked = ["-ex", "info symbol 0xbfc00354", "-ex", "info line *0xbfc00354"] if added == login else [
                "-ex", "info symbol 0xbfc00368"]
            said = debugger.run([*line, *asked])
            for it in shown:
                self.assertIn(it, said)


if __name__ == "__main__":
    unittest.main()
