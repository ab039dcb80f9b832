"""The transcripts of docs/DEBUGGING.md: each is made anew, and is what stands there."""
from __future__ import annotations

import shlex
import tempfile
import unittest

from front.tests import debugger
from front.tests.pages import commands_of, seen, transcript, with_commands

PAGE = (debugger.ROOT / "docs/DEBUGGING.md").read_text()


class Page(unittest.TestCase):
    maxDiff = None

    def test_the_walk_in_gdb(self) -> None:
        debugger.needed()
        start, *lines = transcript(PAGE, "A walk in gdb")
        commands = commands_of(lines)
        words = [debugger.WB, *shlex.split(start)[2:], *debugger.PLAIN]
        shown = debugger.run(words, "".join(f"{command}\n" for command in commands))
        self.assertEqual(with_commands(shown, commands), lines)

    def test_the_walks_in_the_shell(self) -> None:
        for heading in "Step by step", "Exceptions", "Where a value comes from":
            with self.subTest(heading=heading):
                self.check(heading)

    def check(self, heading: str) -> None:
        start, *lines = transcript(PAGE, heading)
        with tempfile.NamedTemporaryFile("w") as script:
            script.write("".join(line[2:] + "\n" for line in lines if line.startswith("> ")))
            script.flush()
            shown = debugger.run([debugger.WB, *shlex.split(start)[2:], "--echo", script.name])
        self.assertEqual(seen(shown), lines)


if __name__ == "__main__":
    unittest.main()
