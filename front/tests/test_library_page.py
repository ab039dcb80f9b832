"""docs/LIBRARY.md: its examples say what the page shows, and its test of firmware passes."""
from __future__ import annotations

import doctest
import os
import re
import subprocess
import sys
import textwrap
import unittest

from front.tests.support import ROOT

PAGE = ROOT / "docs/LIBRARY.md"


class Page(unittest.TestCase):
    maxDiff = None

    def setUp(self) -> None:
        self.addCleanup(os.chdir, os.getcwd())
        os.chdir(ROOT)

    def test_examples(self) -> None:
        shown: list[str] = []
        found = doctest.DocTestParser().get_doctest(PAGE.read_text(), {}, PAGE.name, str(PAGE), 0)
        self.assertGreater(len(found.examples), 20)
        doctest.DocTestRunner(verbose=False).run(found, out=shown.append)
        self.assertEqual("".join(shown), "")

    def test_the_test_of_firmware(self) -> None:
        block = re.search(r"(?m)^    import unittest\n(?:(?:    .*)?\n)+", PAGE.read_text())
        assert block
        source = textwrap.dedent(block[0]) + "\nunittest.main(argv=['login'])\n"
        done = subprocess.run([sys.executable, "-W", "error", "-c", source], env={**os.environ, "PYTHONPATH": "front"},
                              stdout=subprocess.PIPE, stderr=subprocess.STDOUT, text=True)
        self.assertIn("Ran 1 test in", done.stdout)
        self.assertEqual(done.returncode, 0, done.stdout)


if __name__ == "__main__":
    unittest.main()
