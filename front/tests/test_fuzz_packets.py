"""Random packets at the stub, for a short time on a fixed seed. `front/fuzz packets --seconds 600` tries more."""
from __future__ import annotations

import unittest
from unittest import mock

from bezhakkom.rsp import Link
from front.fuzzing import packets


class Packets(unittest.TestCase):
    def test_packets_find_nothing(self) -> None:
        self.assertGreater(packets.run(2, 1), 0)

    def test_case_that_fails_is_named(self) -> None:
        with mock.patch.object(Link, "send", lambda link, payload: link._write(b"$%s#00" % payload)):
            with self.assertRaisesRegex(AssertionError, r"packets: case \d+ of seed 1: .*checksum of .* is another one: \[b"):
                packets.run(60, 1)


if __name__ == "__main__":
    unittest.main()
