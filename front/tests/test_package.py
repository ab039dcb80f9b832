"""The package: a wheel is built and installed in a fresh environment, where tests of firmware run with no repository beside them."""
from __future__ import annotations

import shutil
import subprocess
import sys
import tempfile
import unittest
import zipfile
from pathlib import Path
from typing import Optional, Sequence, Union

from front.tests.support import ROOT

# What a wheel is built of.
SOURCES = ("pyproject.toml", "setup.py", "README.md", "bin/r3kwb.xz", "bin/r3kwb.txt", "front/bezhakkom")

WANTED = "pip, setuptools (61 or later), venv and wheel"
LOOKS = "import setuptools, pip, venv, wheel; assert int(setuptools.__version__.split('.')[0]) >= 61"

EXAMPLE = ROOT / "examples/login"


def builder() -> Optional[str]:
    """A Python that has what a wheel is built with: this one, or that of the system."""
    for python in (sys.executable, "/usr/bin/python3"):
        if Path(python).exists() and subprocess.run([python, "-W", "ignore", "-c", LOOKS], stderr=subprocess.DEVNULL).returncode == 0:
            return python
    return None


class Package(unittest.TestCase):
    folder: Path
    wheel: Path
    python: Path

    @classmethod
    def setUpClass(cls) -> None:
        python = builder()
        if python is None:
            raise unittest.SkipTest(f"no Python here has {WANTED}; on Debian: "
                                    "apt-get install python3-pip python3-setuptools python3-venv python3-wheel")
        temporary = tempfile.TemporaryDirectory()
        cls.addClassCleanup(temporary.cleanup)
        cls.folder = Path(temporary.name)
        source = cls.folder / "source"
        for name in SOURCES:
            (source / name).parent.mkdir(parents=True, exist_ok=True)
            if (ROOT / name).is_dir():
                shutil.copytree(ROOT / name, source / name, ignore=shutil.ignore_patterns("__pycache__"))
            else:
                shutil.copy(ROOT / name, source / name)
        pip = [python, "-m", "pip", "-q", "--disable-pip-version-check"]
        said(pip + ["wheel", "--no-build-isolation", "--no-index", "--no-deps", "-w", cls.folder, source], cls.folder)
        (cls.wheel,) = cls.folder.glob("*.whl")
        shutil.rmtree(source)
        said([python, "-m", "venv", "--without-pip", cls.folder / "environment"], cls.folder)
        cls.python = cls.folder / "environment/bin/python"
        said(pip + ["--python", cls.python, "install", "--no-index", "--no-compile", cls.wheel], cls.folder)

    def run_there(self, *words: Union[str, Path], status: int = 0, text: str = "") -> str:
        """What a command says in an empty folder, with nothing of the repository in its environment."""
        with tempfile.TemporaryDirectory(dir=self.folder) as empty:
            for name in ("login.elf", "log", "test_login.py"):
                shutil.copy(EXAMPLE / name, empty)
            return said(words, Path(empty), status, text)

    def test_the_wheel(self) -> None:
        self.assertRegex(self.wheel.name, r"^bezhakkom-[\d.]+-py3-none-linux_x86_64\.whl$")
        with zipfile.ZipFile(self.wheel) as packed:
            names = {it for it in packed.namelist() if ".dist-info/" not in it}
            mode = packed.getinfo("bezhakkom/r3kwb").external_attr >> 16
        modules = {f"bezhakkom/{it.relative_to(ROOT / 'front/bezhakkom')}" for it in (ROOT / "front/bezhakkom").rglob("*.py")}
        page = {f"bezhakkom/view/page/{it.name}" for it in (ROOT / "front/bezhakkom/view/page").iterdir()}
        self.assertEqual(names, modules | page | {"bezhakkom/py.typed", "bezhakkom/r3kwb", "bezhakkom/r3kwb.txt"})
        self.assertEqual(mode & 0o777, 0o755)

    def test_tests_of_firmware(self) -> None:
        said_there = self.run_there(self.python, "-W", "error", "-m", "unittest", "-v", "test_login")
        self.assertIn("OK (expected failures=1)", said_there)

    def test_its_command(self) -> None:
        """It is `bin/wb`, and so is the package that is run."""
        here = said([ROOT / "bin/wb", "--version"], self.folder)
        command = self.folder / "environment/bin/bezhakkom"
        for words in ([command], [self.python, "-m", "bezhakkom"]):
            self.assertEqual(self.run_there(*words, "--version"), here)
            self.assertRegex(self.run_there(*words, "shell", "--help"), r"^usage: bezhakkom shell ")
            self.assertEqual(self.run_there(*words, "none", status=2), "bezhakkom: there is no file none\n")
            self.assertEqual(self.run_there(*words, "--log", "log", "login.elf", text="goto 355\nreg 0\n"), "pos 355\nr0 0x00000000\n")
            self.assertIn("Welcome, operator.", self.run_there(*words, "shell", "--log", "log", "login.elf",
                                                               text="del 2\nexpect 'Welcome, operator.'\nconsole\n"))

    def test_gdb(self) -> None:
        if not shutil.which("gdb-multiarch"):
            self.skipTest("gdb-multiarch is not installed")
        shown = self.run_there(self.folder / "environment/bin/bezhakkom", "gdb", "--log", "log", "login.elf", "-batch", "-ex",
                               "break read_line", "-ex", "continue", "-ex", "wb pos")
        self.assertIn("Breakpoint 1, read_line ()", shown)


def said(words: Sequence[Union[str, Path]], folder: Path, status: int = 0, text: str = "") -> str:
    """All that a command says, which ends with a status."""
    environment = {"PATH": "/usr/bin:/bin", "HOME": str(folder), "TMPDIR": str(folder)}
    done = subprocess.run(words, cwd=folder, env=environment, input=text, stdout=subprocess.PIPE, stderr=subprocess.STDOUT, text=True)
    assert done.returncode == status, f"{words} ended with {done.returncode}: {done.stdout}"
    return done.stdout


if __name__ == "__main__":
    unittest.main()
