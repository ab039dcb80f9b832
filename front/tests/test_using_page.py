"""docs/USING.md: its sessions of the shell and of `bin/wb log` are what these say."""
from __future__ import annotations

import re
import shlex
import subprocess
import tempfile
import unittest
from typing import Iterator

from front.tests.support import ROOT

PAGE = (ROOT / "docs/USING.md").read_text()

# The others are run by the gate's own test.
OURS = ("shell", "log")


def blocks() -> Iterator[tuple[list[str], list[str]]]:
    """The words of each command of ours, and the lines that stand below it."""
    for block in re.findall(r"(?m)^    \$ bin/wb (?:.*\n)(?:    .*\n)*", PAGE):
        for part in re.split(r"(?m)^    \$ bin/wb ", block)[1:]:
            command, *lines = part.splitlines()
            words = shlex.split(command)
            if words[0] in OURS:
                yield words, [it[4:] for it in lines]


class Page(unittest.TestCase):
    maxDiff = None

    def test_sessions(self) -> None:
        for words, lines in blocks():
            typed = "".join(it[2:] + "\n" for it in lines if it.startswith("> "))
            with tempfile.NamedTemporaryFile("w") as script:
                script.write(typed)
                script.flush()
                done = subprocess.run([ROOT / "bin/wb", *words, *(["--echo", script.name] if typed else [])],
                                      cwd=ROOT, capture_output=True, text=True)
            self.assertEqual((done.stdout.splitlines(), done.stderr), (lines, ""), words)

    def test_there_are_some(self) -> None:
        self.assertEqual([words[0] for words, _ in blocks()], ["shell"] * 4 + ["log"] * 2)


if __name__ == "__main__":
    unittest.main()
