"""Small programs for tests, compiled by gcc for the machine. Where the compiler is missing their tests are skipped."""
from __future__ import annotations

import shutil
import subprocess
import unittest
from pathlib import Path

from front.tests.support import ROOT

COMPILER = "mipsel-linux-gnu-gcc"
LOGIN = ROOT / "examples/login"  # its start code and its linker script: code in ROM, data in RAM
FLAGS = ("-march=mips1", "-mabi=32", "-mno-abicalls", "-fno-pic", "-G0", "-msoft-float", "-ffreestanding", "-nostdlib", "-static", "-g",
         "-gdwarf-4", "-Wl,--build-id=none", "-Wl,-n")


def needed() -> None:
    """Skips the tests of a module if the compiler is missing."""
    if not shutil.which(COMPILER):
        raise unittest.SkipTest(f"{COMPILER} is not installed; on Debian: apt-get install gcc-mipsel-linux-gnu")


def elf(source: str, file: Path, *options: str) -> str:
    """Compiles a C source to an ELF, next to which the source is, and returns the ELF's name."""
    text = file.with_suffix(".c")
    text.write_text(source)
    subprocess.run([COMPILER, *FLAGS, *options, "-T", str(LOGIN / "login.ld"), "-o", str(file), str(LOGIN / "start.S"), text.name],
                   cwd=file.parent, check=True)
    return str(file)
