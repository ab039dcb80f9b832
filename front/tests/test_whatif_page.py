"""docs/WHATIF.md: its sessions are what they say, and its table has the commands."""
from __future__ import annotations

import re
import shlex
import unittest

from bezhakkom.commands import COMMANDS, WHAT_IF
from front.tests import outside
from front.tests.scripts import shell
from front.tests.support import ROOT

PAGE = (ROOT / "docs/WHATIF.md").read_text()


def sessions() -> list[list[str]]:
    """The lines of each session: those of a command, and of the blocks below it up to the next one."""
    found: list[list[str]] = []
    for section in PAGE.split("\n## "):
        for part in re.split(r"(?m)^    (?=\$ bin/wb )", section)[1:]:
            found.append(part.splitlines()[:1] + re.findall(r"(?m)^    (.*)$", part))
    return found


class Page(unittest.TestCase):
    maxDiff = None

    def test_sessions(self) -> None:
        for start, *lines in sessions():
            words = shlex.split(start)[2:]
            with self.subTest(start):
                typed = tuple(it[2:] for it in lines if it.startswith("> "))
                done = shell(*words[1:], "--echo", lines=typed)
                self.assertEqual(done.stdout.splitlines(), lines)

    def test_the_script_is_that_of_the_example(self) -> None:
        """Its end stands on the page. With the fault it fails at its last line."""
        script = (ROOT / "examples/loader/check.wb").read_text().splitlines()
        shown = re.findall(r"(?m)^    (.*)$", PAGE.partition("## A test")[2].partition("\n## ")[0])
        self.assertEqual(shown, script[-len(shown):])
        ended = outside.run(["shell", "--strict", "examples/loader/loader.elf", "examples/loader/check.wb"])
        self.assertEqual(ended.stderr.decode().splitlines()[-1], f"bin/wb: examples/loader/check.wb:{len(script)}: {script[-1]}")
        self.assertEqual(ended.returncode, 5)

    def test_the_script_passes_where_the_count_is_checked(self) -> None:
        ended = outside.run(["shell", "--strict", "examples/loader/checked.elf", "examples/loader/check.wb"])
        self.assertEqual((ended.stderr, ended.returncode), (b"", 0))

    def test_the_walk_is_that_of_the_example(self) -> None:
        walk = [it for it in (ROOT / "examples/loader/walk").read_text().splitlines() if not it.startswith("#")]
        self.assertEqual([it[2:] for it in sessions()[0] if it.startswith("> ")], walk)

    def test_the_table(self) -> None:
        table = set(re.findall(r"(?m)^\| `(\w+)", PAGE))
        self.assertEqual(table, {it.name for it in COMMANDS.values() if it.group == WHAT_IF})


if __name__ == "__main__":
    unittest.main()
