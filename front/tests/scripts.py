"""Scripts of the shell, for tests: they run in this process, which takes less time than to start one."""
from __future__ import annotations

import io
import os
import tempfile
from contextlib import redirect_stderr, redirect_stdout
from dataclasses import dataclass
from pathlib import Path

from bezhakkom import cli
from front.tests.support import ROOT


@dataclass(frozen=True)
class Done:
    """What a command showed, its status, and the name of its script."""

    stdout: str
    stderr: str
    returncode: int
    script: str


def shell(*words: str, lines: tuple[str, ...] = (), folder: Path = ROOT) -> Done:
    """Runs `bin/wb shell` in a folder, with the lines of a script."""
    out, errors, before = io.StringIO(), io.StringIO(), os.getcwd()
    with tempfile.NamedTemporaryFile("w") as script, redirect_stdout(out), redirect_stderr(errors):
        script.write("".join(f"{it}\n" for it in lines))
        script.flush()
        os.chdir(folder)
        try:
            status = cli.main(["shell", *words, script.name])
        finally:
            os.chdir(before)
    return Done(out.getvalue(), errors.getvalue(), status, script.name)
