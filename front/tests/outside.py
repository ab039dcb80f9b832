"""`bin/wb` from outside, for tests: what it writes, and how it ends."""
from __future__ import annotations

import os
import signal
import subprocess
import sys
import tempfile
import unittest
from pathlib import Path
from typing import Sequence

from bezhakkom import cli
from front.tests.support import ROOT

WB = str(ROOT / "bin/wb")
TIMEOUT = 300  # seconds


def run(arguments: Sequence[str], content: bytes = b"", folder: Path = ROOT, together: bool = False) -> subprocess.CompletedProcess[bytes]:
    """Runs it in a copy of this process, which has its modules already: to start Python and load them takes longer than most runs. What goes
    to standard error may be shown together with the rest, in its order."""
    with tempfile.TemporaryFile() as given, tempfile.TemporaryFile() as out, tempfile.TemporaryFile() as errors:
        given.write(content)
        given.seek(0)
        child = os.fork()
        if not child:
            signal.alarm(TIMEOUT)
            try:
                for number, file in enumerate((given, out, out if together else errors)):
                    os.dup2(file.fileno(), number)
                sys.stdin, sys.stdout = open(0, closefd=False), open(1, "w", closefd=False)
                sys.stderr = open(2, "w", errors="backslashreplace", closefd=False)  # as Python has it
                os.chdir(folder)
                status = cli.main(arguments)
                sys.stderr.flush()
                os._exit(status)
            finally:
                os._exit(70)
        status = os.waitstatus_to_exitcode(os.waitpid(child, 0)[1])
        out.seek(0)
        errors.seek(0)
        return subprocess.CompletedProcess(arguments, status, out.read(), errors.read())


class InFolder(unittest.TestCase):
    """A test with a folder of its own."""

    def setUp(self) -> None:
        folder = tempfile.TemporaryDirectory()
        self.addCleanup(folder.cleanup)
        self.folder = Path(folder.name)

    def put(self, name: str, content: bytes) -> str:
        (self.folder / name).write_bytes(content)
        return name

    def check(self, arguments: Sequence[str], content: bytes, out: bytes, err: str, status: int) -> None:
        """What a line writes, and the status with which it ends."""
        done = run(arguments, content, self.folder)
        self.assertEqual((done.stdout, done.stderr.decode(), done.returncode), (out, err, status), arguments)
