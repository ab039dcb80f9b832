"""The PROM of examples/linux: a small kernel makes the calls that Linux makes, and its replies are those of prom.c, by hand."""
from __future__ import annotations

import re
import tempfile
import unittest
from pathlib import Path

from bezhakkom import cli
from front.tests.scripts import shell
from front.tests.support import ROOT

PROM, GUEST = (str(ROOT / "examples/linux" / name) for name in ("prom.elf", "guest.elf"))


class Prom(unittest.TestCase):
    def setUp(self) -> None:
        folder = tempfile.TemporaryDirectory()
        self.addCleanup(folder.cleanup)
        self.image = str(Path(folder.name, "guest.img"))
        self.assertEqual(cli.main(["image", PROM, GUEST, "--byte-time", "1", self.image]), 0)

    def console(self, *lines: str) -> list[str]:
        """What the PROM's console has sent after a script."""
        end = ("expect 3 'PROM: halted\\r\\n' 100,000", "wb pos", "console 3")
        done = shell("--strict", "--symbols", PROM, self.image, lines=(*lines, *end))
        self.assertEqual((done.returncode, done.stderr), (0, ""), done.stdout)
        return re.split(r"(?m)^pos .*\n", done.stdout)[1].splitlines()

    def test_a_kernel_calls_it(self) -> None:
        said = self.console("patch boot_entry 0x80040000", "expect 3 '648\\r\\n' 100,000", "type 3 'ab.'")
        self.assertEqual(said, [
            "magic 30464354, 3 words, the last is console=ttyS3",
            "system 82020530",
            "8388608 bytes, 256 of 256 full",
            "console is 3, other is not there",
            "slot 2 is at be800000, 4 MiB each; 9% -2147483648",
            "got a",
            "got b",
            "PROM: bootread is not there",
            "PROM: halted",
        ])

    def test_without_a_kernel_it_stops(self) -> None:
        self.assertEqual(self.console(), ["PROM: nothing to boot: boot_entry is 0", "PROM: halted"])

    def test_it_names_an_exception(self) -> None:
        """An instruction at an odd address is an address error of a load: ExcCode 4."""
        self.assertEqual(self.console("patch boot_entry 0x80040001"),
                         ["", "PROM: exception, Cause 0x10, EPC 0x80040001, BadVAddr 0x80040001", "PROM: halted"])


if __name__ == "__main__":
    unittest.main()
