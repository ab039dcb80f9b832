"""The server of the page against hostile and garbled messages: `front/fuzz page` does it for longer."""
from __future__ import annotations

import unittest

from front.fuzzing import page

SECONDS, SEED = 2, 84


class Fuzzing(unittest.TestCase):
    def test_server_answers_after_hostile_messages_and_refusals_change_nothing(self) -> None:
        self.assertGreater(page.run(SECONDS, SEED), 0)


if __name__ == "__main__":
    unittest.main()
