"""README.md: its first command answers on a fresh machine, as the page shows, and what it names is there."""
from __future__ import annotations

import os
import re
import shlex
import shutil
import subprocess
import sys
import tempfile
import unittest
from pathlib import Path

from front.tests import pages
from front.tests.support import ROOT

PAGE = (ROOT / "README.md").read_text()

# What a fresh system has: Debian's essential packages, as far as a program may want them. No compiler, no gdb, no git.
BASE = ("bash sh basename cat chmod cp cut date dirname env expr find grep head id ln ls mkdir mktemp mv nproc od paste printf pwd "
        "readlink rm rmdir sed seq sha256sum sleep sort stat tail tee touch tr true uname uniq wc xargs").split()


def fresh(folder: Path) -> tuple[Path, dict[str, str]]:
    """A fresh copy of the repository, and an environment with a PATH that has Python, xz and the base system alone."""
    copy, programs = folder / "repository", folder / "bin"
    shutil.copytree(ROOT, copy, symlinks=True, ignore=shutil.ignore_patterns("out", ".git", "__pycache__"))
    programs.mkdir()
    for name in (*BASE, "xz"):
        found = shutil.which(name)
        if found:
            (programs / name).symlink_to(os.path.realpath(found))
    (programs / "python3").symlink_to(os.path.realpath(sys.executable))
    return copy, {"PATH": str(programs), "HOME": str(folder)}


class Readme(unittest.TestCase):
    def test_the_first_commands(self) -> None:
        """They are unpacked, and show the page's lines in their order. What the scripts say in between is shown too."""
        blocks = [[line[4:] for line in it.splitlines()] for it in re.findall(r"(?m)(?:^    .*\n)+", PAGE.split("\n## Linux\n")[0])]
        self.assertEqual([len(it) for it in blocks], [10, 4])
        with tempfile.TemporaryDirectory() as name:
            copy, environment = fresh(Path(name))
            # The rest of the loader's is on docs/WHATIF.md, and runs in the test of that page.
            walk = copy / "examples/loader/walk"
            walk.write_text(walk.read_text().partition("causes record+0x18 by del\n")[0])
            for start, *lines in blocks:
                done = subprocess.run(shlex.split(start)[1:], cwd=copy, env=environment, stdin=subprocess.DEVNULL,
                                      capture_output=True, text=True)
                self.assertEqual((done.stderr, done.returncode), ("", 0))
                shown = iter(done.stdout.splitlines())
                for line in lines:
                    self.assertIn(line, shown)

    def test_its_lines_of_linux_are_of_that_page(self) -> None:
        """examples/linux/check compares that page with Linux."""
        walk = iter(pages.transcript((ROOT / "docs/LINUX.md").read_text(), "A walk in gdb"))
        for line in pages.transcript(PAGE, "Linux"):
            self.assertIn(line, walk)

    def test_what_it_names_is_there(self) -> None:
        for name in set(re.findall(r"`((?:bin|bench|docs|front|examples|\.ci)/[\w./-]*)", PAGE)):
            self.assertTrue((ROOT / name).exists(), name)
        toolchain = re.search(r"(?m)^toolchain (.*)$", (ROOT / "bin/r3kwb.txt").read_text())
        assert toolchain
        self.assertIn(f"(`{toolchain[1]}`)", PAGE)


if __name__ == "__main__":
    unittest.main()
