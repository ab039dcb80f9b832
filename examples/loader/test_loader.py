"""What the loader is to do with damaged records, as tests of firmware: `python3 -m unittest test_loader`, or pytest. `checked.elf` does it, and
`loader.elf` has the fault that docs/WHATIF.md finds."""
import unittest
from pathlib import Path

import bezhakkom

RECORD = "S11B0018452C20494E2054574F205245434F5244532E205448452045C4\r"


def boot(name: str) -> bezhakkom.Machine:
    machine = bezhakkom.boot(Path(__file__).with_name(name))
    machine.until(console="loader\r\n")
    return machine


def answer(machine: bezhakkom.Machine, record: str) -> str:
    """What the loader says to a record."""
    before = len(machine.console())
    machine.send(record)
    machine.until(console="\r\n", steps=200_000)
    return machine.console()[before:]


class Loader(unittest.TestCase):
    def test_a_record(self) -> None:
        with boot("checked.elf") as machine:
            self.assertEqual(answer(machine, RECORD), "ok\r\n")
            self.assertEqual(machine.memory["area+0x18"], int.from_bytes(bytes.fromhex("452C2049"), "little"))

    def test_a_good_record_after_a_damaged_one(self) -> None:
        """A digit of its count has another value."""
        with boot("checked.elf") as machine:
            for place in 2, 3:
                for digit in "0123456789ABCDEF":
                    damaged = RECORD[:place] + digit + RECORD[place + 1:]
                    with self.subTest(damaged), machine.edits():
                        self.assertIn(answer(machine, damaged), ("ok\r\n", "bad record\r\n"))
                        self.assertEqual(answer(machine, RECORD), "ok\r\n")

    @unittest.expectedFailure
    def test_a_count_that_is_not_checked(self) -> None:
        """The pointer to a function is overwritten, which the next good record calls."""
        with boot("loader.elf") as machine:
            answer(machine, RECORD.replace("S11B", "S19B"))
            self.assertEqual(answer(machine, RECORD), "ok\r\n")


if __name__ == "__main__":
    unittest.main()
