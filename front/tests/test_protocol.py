"""The table of the program's commands: docs/USING.md names the same ones, and the program answers with as many lines as it says."""
from __future__ import annotations

import re
import subprocess
import unittest

from bezhakkom.protocol import COMMANDS, EDITS, LOG_EDITS, lines_after
from front.tests.support import ROOT

PAGE = (ROOT / "docs/USING.md").read_text()


class Table(unittest.TestCase):
    def test_the_page(self) -> None:
        part = PAGE.split("\n## The commands\n")[1].split("\n## ")[0]
        named = [it for heading in re.findall(r"(?m)^### (.*)$", part) for it in re.findall("`(.*?)`", heading)]
        self.assertEqual(named, [f"{it.name} {it.arguments}".rstrip() for it in COMMANDS.values()])

    def test_edits(self) -> None:
        (log,) = re.findall(r"An \*\*edit\*\* changes the log \((.*?)\)", PAGE)
        self.assertEqual(LOG_EDITS, tuple(re.findall("`(.*?)`", log)))
        self.assertEqual(EDITS, (*LOG_EDITS, "patch"))

    def test_lines(self) -> None:
        """A comment that is no command comes after each command, so that its refusal shows where the reply ended."""
        script = ["add 5 0 1", "add 6 0 1", "add 7 0 1", "goto 9", "log 0 2", "log 1 32", "log 3 1", "log 9 1", "log 0 99", "regs", "cp0",
                  "mem 0 3", "mem 1 3", "mem 0x1fc00000 32", "dis 0x1fc00000 2", "dis 0 0", "reg 1", "tlb 0", "where 0xbfc00000",
                  "console 0 0 9", "find 0 0", "writer 0", "visit 0 5", "step 1", "back 1", "pos", "set 0 2", "move 0 9", "ferr 1 0 1", "wire 2 0 1", "del 0",
                  "erase 0 9", "jumps 1 3", "jumps 1 0", "patch 0 1", "frob 1"]
        text = "".join(f"{line}\n?\n" for line in script)
        shown = subprocess.run([ROOT / "bin/wb", "--kind", "rom", "examples/login/login.rom"], cwd=ROOT, input=text, text=True,
                               capture_output=True).stdout.splitlines()
        at = 0
        for line in script:
            at += 1 + lines_after(line, shown[at])
            self.assertEqual(shown[at], "error 2 Syntax", line)
            at += 1
        self.assertEqual(at, len(shown))


if __name__ == "__main__":
    unittest.main()
