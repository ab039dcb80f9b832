"""Five files of gdb's own test suite, gdb.reverse, over the stub: bench/gdbsuite says how. What fails there and is on its list has a reason
that is not the stub."""
from __future__ import annotations

import re
import subprocess
import unittest

from front.tests.support import ROOT

PASSES = 95  # at least: some tests repeat a step for as long as gdb's lines want


class Reverse(unittest.TestCase):
    def test_files_of_gdb_reverse_have_no_unexpected_failure(self) -> None:
        done = subprocess.run([ROOT / "bench/gdbsuite/run", "--reverse", "--jobs", "2"], cwd=ROOT, stdin=subprocess.DEVNULL, stdout=subprocess.PIPE,
                              stderr=subprocess.PIPE, text=True)
        if done.returncode == 2:
            self.skipTest(done.stderr.strip())
        self.assertEqual((done.returncode, done.stderr), (0, ""), done.stdout)
        found = re.search(r"^gdb\.reverse: (\d+) passes in 5 files, \d+ known failures, 0 others$", done.stdout, re.MULTILINE)
        assert found, done.stdout
        self.assertGreaterEqual(int(found[1]), PASSES)


if __name__ == "__main__":
    unittest.main()
