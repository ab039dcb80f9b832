"""Real gdb for tests, on the stub. Where it is missing they are skipped."""
from __future__ import annotations

import os
import shutil
import subprocess
import tempfile
import time
import unittest
from contextlib import suppress
from pathlib import Path
from typing import Optional, Sequence
from unittest import mock

from front.tests import outside

ROOT = Path(__file__).resolve().parents[2]
WB = str(ROOT / "bin/wb")
DEBUGGER = "gdb-multiarch"
TIMEOUT = 300

# Neither the user's settings nor the width of a terminal may show.
PLAIN = ["-nx", "-iex", "set width 0", "-iex", "set style enabled off"]


def needed() -> None:
    """Skips the tests of a module where gdb is missing."""
    if not shutil.which(DEBUGGER):
        raise unittest.SkipTest(f"{DEBUGGER} is not installed; on Debian: apt-get install {DEBUGGER}")


def words(image: str, log: Optional[str] = None, options: Sequence[str] = ()) -> list[str]:
    """The words that start gdb on an example."""
    files = ["--log", f"examples/{log}"] if log else []
    return [WB, "gdb", *files, *options, f"examples/{image}", *PLAIN]


def batch(image: str, *commands: str, log: Optional[str] = None, options: Sequence[str] = ()) -> list[str]:
    """What gdb shows for commands on an example, line by line, without what it shows at its start."""
    marked = ["echo \\n<begin>\\n", *commands]
    line = [*words(image, log, options), "-batch", *(word for command in marked for word in ("-ex", command))]
    return run(line).split("<begin>\n")[1].splitlines()


def run(line: Sequence[str], typed: str = "") -> str:
    """What a command shows. One of `bin/wb` runs in a copy of this process. Unsaved edits are kept where no other test finds them."""
    with tempfile.TemporaryDirectory() as state, mock.patch.dict(os.environ, TERM="dumb", XDG_STATE_HOME=state):
        if line[0] == WB:
            shown = outside.run(line[1:], typed.encode("latin-1"), together=True).stdout
        else:
            shown = subprocess.run(line, cwd=ROOT, input=typed.encode("latin-1"), timeout=TIMEOUT, stdout=subprocess.PIPE,
                                   stderr=subprocess.STDOUT).stdout
    return shown.decode("latin-1")


def started_below(process: int, name: str) -> int:
    """Waits for a program that a process started, itself or by others, and returns its number."""
    end = time.monotonic() + TIMEOUT
    while time.monotonic() < end:
        parents: dict[int, int] = {}
        named: list[int] = []
        for at in Path("/proc").glob("[0-9]*"):
            with suppress(OSError, ValueError):
                before, _, after = (at / "stat").read_text().rpartition(")")
                parents[int(at.name)] = int(after.split()[1])
                if before.partition("(")[2] == name:
                    named.append(int(at.name))
        for number in named:
            above = number
            while above in parents and above != process:
                above = parents[above]
            if above == process:
                return number
        time.sleep(0.02)
    raise AssertionError(f"{process} started no {name}")


def processor_time(process: int) -> int:
    """Returns how long a process has computed, in ticks of the system's clock."""
    fields = Path(f"/proc/{process}/stat").read_text().rpartition(")")[2].split()
    return int(fields[11]) + int(fields[12])
