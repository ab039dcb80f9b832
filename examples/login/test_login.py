"""What `login.elf` is to do, as tests of firmware: `python3 -m unittest test_login`, or pytest. `docs/LIBRARY.md` describes the library."""
import unittest
from pathlib import Path

import bezhakkom

FIRMWARE = Path(__file__).with_name("login.elf")


class Login(unittest.TestCase):
    def setUp(self) -> None:
        self.machine = bezhakkom.boot(FIRMWARE)
        self.addCleanup(self.machine.close)
        self.machine.until(console="password: ")

    def test_the_right_password(self) -> None:
        self.machine.send("sesame\r")
        self.machine.until(console="Welcome, operator.")
        self.assertEqual(self.machine.memory["session+0x20"], len("sesame"))

    def test_another_password(self) -> None:
        self.machine.send("open\r")
        self.machine.until(console="Sorry, operator.")

    def test_each_key_of_the_password_counts(self) -> None:
        keys = self.machine.send("sesame\r")
        for key in range(len(keys) - 1):
            with self.subTest(key=key), self.machine.what_if(without=[key]):
                self.machine.until(console="Sorry, operator.")

    def test_keys_that_come_fast(self) -> None:
        self.machine.send("sesame\r", gap=16)
        self.machine.until(console="Welcome, operator.")

    @unittest.expectedFailure
    def test_a_backspace_too_many(self) -> None:
        """The fault that docs/DEBUGGING.md finds: the user's name is overwritten."""
        self.machine.send("x\b\bsesame\r")
        self.machine.until(console="Welcome, operator.")


if __name__ == "__main__":
    unittest.main()
