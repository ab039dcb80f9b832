"""Single steps that run exceptions whole. The steps were counted by hand."""
from __future__ import annotations

import unittest

from front.tests.wire import StubTest


class ExceptionsWhole(StubTest):
    # addiu r1, r0, 1; syscall; addiu r2, r0, 2; beq r0, r0, itself; and a handler that goes on after the system call
    WORDS = [0x24010001, 0x0000000C, 0x24020002, 0x1000FFFF, 0]
    HANDLER = [0x401A7000, 0, 0x275A0004, 0x03400008, 0x42000010]  # mfc0 r26, c14; nop; addiu r26, r26, 4; jr r26; rfe

    def program(self) -> list[int]:
        return [*self.WORDS, *[0] * (0x60 - len(self.WORDS)), *self.HANDLER]

    def test_a_step_goes_through_a_handler(self) -> None:
        # Steps 0; 1, which is taken; 2 to 6 the handler; 7.
        wire = self.wire(self.program(), exceptions_whole=True)
        self.stops(wire, ("s", "T05", 1), ("s", "T05", 7), ("s", "T05", 8), ("bs", "T05", 7), ("bs", "T05", 1),
                   ("bs", "T05", 0))

    def test_stops_on_the_way_are_met(self) -> None:
        # The handler's first instruction is run in step 2, and its last but one in step 5.
        wire = self.wire(self.program(), exceptions_whole=True)
        self.dialog(wire, ("Z0,bfc0018c,4", "OK"))
        self.stops(wire, ("s", "T05", 1), ("s", "T05", 5), ("s", "T05", 6), ("s", "T05", 7), ("bs", "T05", 5))

    def test_else_it_goes_into_it(self) -> None:
        wire = self.wire(self.program())
        self.stops(wire, ("s", "T05", 1), ("s", "T05", 2))
        self.dialog(wire, ("p25", "8001c0bf"))

    def test_a_handler_that_does_not_return_is_stepped_into(self) -> None:
        wire = self.wire([0x24010001, 0x0000000C, *[0] * 0x5E, 0x1000FFFF, 0], exceptions_whole=True)
        self.stops(wire, ("s", "T05", 1), ("s", "T05", 2))


if __name__ == "__main__":
    unittest.main()
