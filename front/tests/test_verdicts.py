"""The verdicts of `bin/test` and of `front/test`: what passed, failed and was skipped, alone on the last line, and the status."""
from __future__ import annotations

import contextlib
import importlib.machinery
import importlib.util
import io
import subprocess
import tempfile
import unittest
from pathlib import Path
from types import ModuleType
from unittest import mock

from front.tests.support import ROOT
from front.tests.test_readme import fresh


def bin_test() -> ModuleType:
    """bin/test as a module."""
    loader = importlib.machinery.SourceFileLoader("bin_test", str(ROOT / "bin/test"))
    spec = importlib.util.spec_from_loader(loader.name, loader)
    assert spec
    module = importlib.util.module_from_spec(spec)
    with mock.patch.dict("sys.modules", {loader.name: module}), mock.patch("sys.dont_write_bytecode", True):
        loader.exec_module(module)
    return module


class Verdicts(unittest.TestCase):
    def test_parts(self) -> None:
        """A part that counts its tests, one that has one verdict, one that fails, and one that wants what is missing."""
        module = bin_test()
        counted = module.Part("counted", "echo 'skipped: test_gdb: it is missing'; echo '3 passed, 0 failed, 2 skipped'")
        plain, bad = module.Part("plain", "echo much; true"), module.Part("bad", "echo why; false")
        missing = module.Part("missing", "false", ("sh", "no-such-compiler"))
        half = module.Part("half", "echo '5 passed, 2 failed, 0 skipped'; false")
        for parts, status, said in (
                ((counted, plain), 0, ["skipped: test_gdb: it is missing", "counted: 3 passed, 0 failed, 2 skipped, 0 s",
                                       "plain: 1 passed, 0 failed, 0 skipped, 0 s", "4 passed, 0 failed, 2 skipped"]),
                ((missing, plain), 0, ["skipped: missing: no-such-compiler is not on the PATH",
                                       "plain: 1 passed, 0 failed, 0 skipped, 0 s", "1 passed, 0 failed, 1 skipped"]),
                ((bad, half), 1, ["why", "bad: 0 passed, 1 failed, 0 skipped, 0 s", "5 passed, 2 failed, 0 skipped",
                                  "half: 5 passed, 2 failed, 0 skipped, 0 s", "5 passed, 3 failed, 0 skipped"])):
            shown = io.StringIO()
            with contextlib.redirect_stdout(shown), mock.patch.object(module, "PARTS", parts), mock.patch("sys.argv", ["bin/test"]), \
                    mock.patch("time.monotonic", return_value=0):
                self.assertEqual(module.main(), status)
            self.assertEqual(shown.getvalue().splitlines(), said)

    def test_the_parts_are_there(self) -> None:
        for part in bin_test().PARTS:
            words = part.command.split()
            self.assertTrue(any((ROOT / it).is_file() for it in words if "/" in it), part.command)

    def test_without_gdb(self) -> None:
        """On a system without it the tests that want it are skipped, which is said; nothing is installed."""
        with tempfile.TemporaryDirectory() as name:
            copy, environment = fresh(Path(name))
            done = subprocess.run(["front/test", "gdb"], cwd=copy, env=environment, capture_output=True, text=True)
        reason, verdict = done.stdout.splitlines()
        self.assertEqual(reason, "skipped: test_gdb: gdb-multiarch is not installed; on Debian: apt-get install gdb-multiarch")
        self.assertRegex(verdict, "^0 passed, 0 failed, [1-9][0-9]* skipped$")
        self.assertEqual((done.stderr, done.returncode), ("", 0))


if __name__ == "__main__":
    unittest.main()
