"""The types of the package are held everywhere, as pyproject.toml says, where mypy is installed."""
from __future__ import annotations

import os
import shutil
import subprocess
import unittest

from front.tests.support import ROOT


class Types(unittest.TestCase):
    def test_types(self) -> None:
        mypy = shutil.which("mypy")
        if mypy is None:
            self.skipTest("mypy is not on the PATH; on Debian: apt-get install mypy")
        done = subprocess.run([mypy, "--cache-dir", os.devnull], cwd=ROOT, stdout=subprocess.PIPE, stderr=subprocess.STDOUT, text=True)
        self.assertEqual(done.returncode, 0, done.stdout)


if __name__ == "__main__":
    unittest.main()
