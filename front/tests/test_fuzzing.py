"""The fuzzers, each for a short time on a fixed seed. `front/fuzz NAME --seconds 600` tries more."""
from __future__ import annotations

import tempfile
import unittest
from unittest import mock

from front.fuzzing import cases, elf, library, sessions, shell

SECONDS, SEED = 2, 1


class Fuzzing(unittest.TestCase):
    def test_elf_finds_nothing(self) -> None:
        self.assertGreater(elf.run(SECONDS, SEED), 0)

    def test_sessions_finds_nothing(self) -> None:
        self.assertGreater(sessions.run(SECONDS, SEED), 0)

    def test_shell_finds_nothing(self) -> None:
        self.assertGreater(shell.run(SECONDS, SEED), 0)

    def test_library_finds_nothing(self) -> None:
        self.assertGreater(library.run(SECONDS, SEED), 0)

    def test_case_that_fails_is_kept_as_a_file(self) -> None:
        with tempfile.TemporaryDirectory() as folder, mock.patch.object(tempfile, "tempdir", folder):
            with self.assertRaisesRegex(AssertionError, f"(?s)x: case 3 of seed 7, which is kept in {folder}/.*ZeroDivisionError") as caught:
                cases.tried("x", 3, 7, lambda: b"content", lambda: 1 // 0)
            name = str(caught.exception).partition("kept in ")[2].partition(":")[0]
            with open(name, "rb") as file:
                self.assertEqual(file.read(), b"content")


if __name__ == "__main__":
    unittest.main()
