"""The tests of firmware in `examples/`, as those who write such tests run them; and its scripts."""
from __future__ import annotations

import os
import subprocess
import sys
import unittest
from pathlib import Path
from typing import Optional

from front.tests import outside
from front.tests.support import ROOT

TESTS = ("login/test_login.py", "loader/test_loader.py")
NO_CACHE = {"PYTHONPATH": str(ROOT / "front"), "PYTHONDONTWRITEBYTECODE": "1"}


def ran(test: str, *words: str) -> subprocess.CompletedProcess[str]:
    """Runs a command in the folder of a test."""
    return subprocess.run(words, cwd=(ROOT / "examples" / test).parent, env={**os.environ, **NO_CACHE}, stdin=subprocess.DEVNULL,
                          stdout=subprocess.PIPE, stderr=subprocess.STDOUT, text=True)


def with_pytest() -> Optional[str]:
    """A Python that has pytest: this one, or that of the system."""
    for python in (sys.executable, "/usr/bin/python3"):
        if Path(python).exists() and subprocess.run([python, "-c", "import pytest"], stderr=subprocess.DEVNULL).returncode == 0:
            return python
    return None


class Firmware(unittest.TestCase):
    def test_by_unittest(self) -> None:
        for test in TESTS:
            done = ran(test, sys.executable, "-W", "error", "-m", "unittest", Path(test).stem)
            self.assertEqual(done.returncode, 0, done.stdout)
            self.assertTrue(done.stdout.endswith("\nOK (expected failures=1)\n"), done.stdout)

    def test_by_pytest(self) -> None:
        python = with_pytest()
        if python is None:
            self.skipTest("pytest is not installed")
        for test in TESTS:
            done = ran(test, python, "-m", "pytest", "-q", "-p", "no:cacheprovider", Path(test).name)
            self.assertEqual(done.returncode, 0, done.stdout)
            self.assertRegex(done.stdout, r"(?m)^\d passed, 1 xfailed")

    def test_scripts(self) -> None:
        """With the program that they are for they pass, and with that which has the fault the last line fails."""
        for image, script, status in (("login/login.elf", "login/check.wb", 0), ("loader/checked.elf", "loader/check.wb", 0),
                                      ("loader/loader.elf", "loader/check.wb", 5)):
            done = outside.run(["shell", "--strict", f"examples/{image}", f"examples/{script}"])
            self.assertEqual(done.returncode, status, done.stderr)


if __name__ == "__main__":
    unittest.main()
