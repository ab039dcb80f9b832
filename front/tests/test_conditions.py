"""Conditions of breakpoints: agent expressions against sums made by hand, and hits against a look at each position."""
from __future__ import annotations

import random
import unittest

from bezhakkom import agent, conditions, replies
from bezhakkom.agent import Failed, Known
from bezhakkom.limits import RESET_PC
from bezhakkom.states import replies_at
from front.tests.support import DATA, random_rom, rom, start, states

END = 300  # positions that are looked at one by one

ADD, SUB, MUL, DIV, DIV_U, REST, REST_U, LSH, RSH, RSH_U = range(0x02, 0x0C)
NOT, AND, OR, XOR, INVERT, EQUAL, LESS, LESS_U = range(0x0E, 0x16)
REGISTER_9 = bytes((0x26, 0, 9, 0x16, 32))  # reg 9; ext 32
POSITION = bytes((0x26, 0, 72))
END_OF = bytes((0x27,))


def number(value: int) -> bytes:
    """const64"""
    return b"\x25" + (value & (1 << 64) - 1).to_bytes(8, "big")


class Expressions(unittest.TestCase):
    def value(self, *code: bytes) -> int:
        only, = agent.values(b"".join(code) + END_OF, Known(40_024))
        return agent.signed(only)

    def test_arithmetic(self) -> None:
        # As C has it: a quotient goes towards 0, a remainder has the sign of what is divided.
        for first, operation, second, wanted in (
                (5, ADD, 7, 12), (5, SUB, 7, -2), (-5, MUL, 7, -35), (-7, DIV, 2, -3), (7, DIV, -2, -3), (-7, REST, 2, -1),
                (7, REST, -2, 1), (-2, DIV_U, 1 << 63, 1), (7, REST_U, 4, 3), (1, LSH, 4, 16), (-16, RSH, 2, -4),
                (-1, RSH, 99, -1),
                (-1, RSH_U, 60, 15), (1, LSH, 64, 0), (12, AND, 10, 8), (12, OR, 10, 14), (12, XOR, 10, 6), (3, EQUAL, 3, 1),
                (-1, LESS, 0, 1), (-1, LESS_U, 0, 0), (0, LESS_U, -1, 1), (1 << 63, SUB, 1, (1 << 63) - 1)):
            self.assertEqual(self.value(number(first), number(second), bytes((operation,))), wanted, (first, operation, second))

    def test_one_number(self) -> None:
        for code, wanted in (
                (number(5) + bytes((NOT,)), 0), (number(0) + bytes((NOT,)), 1), (number(5) + bytes((INVERT,)), -6),
                (b"\x22\xff\x16\x08", -1), (b"\x22\xff\x2a\x07", 127), (b"\x23\x80\x00", 0x8000),
                (b"\x24\x7f\x00\x00\x00\x16\x20", 0x7F000000),
                (POSITION, 40_024)):
            self.assertEqual(self.value(code), wanted, code)

    def test_the_stack(self) -> None:
        one, two, three = number(1), number(2), number(3)
        for code, wanted in ((one + two + b"\x2b", 1), (one + two + b"\x29", 1), (one + two + b"\x28\x02", 4),
                             (one + two + b"\x32\x01", 1),
                             (one + two + three + b"\x33", 2), (one + two + three + b"\x33\x29", 1)):
            self.assertEqual(self.value(code), wanted, code)

    def test_jumps(self) -> None:
        # if_goto leads to const8 5 at 10, or else const8 4 is followed by a goto to the end at 12.
        for condition, wanted in ((0, 4), (3, 5)):
            self.assertEqual(self.value(bytes((0x22, condition, 0x20, 0, 10, 0x22, 4, 0x21, 0, 12, 0x22, 5))), wanted)

    def test_address_is_equal_by_either_extension(self) -> None:
        # 0x80000100 from memory or a register, as it is, sign- or zero-extended, against `const32 0x80000100; ext 32`.
        known = Known(0, {"mem 256 1": ["0x00000100 0x80000100"], "reg 4": ["reg 0x80000100"]})
        address, other = b"\x24\x80\x00\x01\x00\x16\x20", b"\x24\x80\x00\x02\x00\x16\x20"
        for loaded in address + b"\x19", b"\x26\x00\x04":
            for extended in b"", b"\x16\x20", b"\x2a\x20":
                self.assertTrue(agent.may_hold(loaded + extended + address + bytes((EQUAL,)) + END_OF, known))
                self.assertTrue(agent.may_hold(loaded + extended + other + bytes((LESS_U,)) + END_OF, known))
                self.assertFalse(agent.may_hold(loaded + extended + other + bytes((EQUAL,)) + END_OF, known))

    def test_condition_that_reads_nothing_or_has_no_value_holds(self) -> None:
        for code in b"\x22\x00", number(1) + number(0) + bytes((DIV,)), b"\x01":
            self.assertTrue(agent.may_hold(code + END_OF, Known(0)), code)
        self.assertFalse(agent.may_hold(POSITION + END_OF, Known(0)))

    def test_condition_of_more_than_64_choices_holds(self) -> None:
        # Registers 1, 2, 3 .. have two values each, whose upper halves are 0 or ones: combined by different shifts, N of them have 2^N.
        known = Known(0, {f"reg {it}": ["reg 0x80000000"] for it in range(1, 8)})
        for count, wanted in (6, False), (7, True):
            code = number(0) + b"".join(bytes((0x26, 0, it)) + number(it) + bytes((LSH, XOR)) for it in range(1, count + 1))
            self.assertEqual(agent.may_hold(code + number(5) + bytes((EQUAL,)) + END_OF, known), wanted)

    def test_constant_0_may_be_a_function(self) -> None:
        """gdb pushes 0 for the address of a function."""
        known = Known(0, {"reg 4": ["reg 0xbfc00200"]})
        code = agent.Expression(b"\x26\x00\x04\x22\x00" + bytes((EQUAL,)) + END_OF)
        self.assertFalse(agent.may_hold(code, known))
        code.functions = {0xBFC00200}
        self.assertTrue(agent.may_hold(code, known))
        inverse = agent.Expression(code[:-1] + bytes((NOT,)) + END_OF)
        inverse.functions = code.functions
        self.assertTrue(agent.may_hold(inverse, known))

    def test_what_has_no_value(self) -> None:
        for code, why in (
                (number(1) + number(0) + bytes((DIV,)), "Division by zero"),
                (number(1) + number(0) + bytes((REST_U,)), "Division by zero"),
                (bytes((ADD,)), "more from its stack"), (b"\x32\x05", "more from its stack"), (b"\x22", "ends too early"),
                (b"", "more from its stack"), (b"\x21\x00\x00", "too long"), (b"\x28", "more from its stack"),
                (b"\x01", "operation 0x01"),
                (number(1) + b"\x28\x21\x00\x09", "too large a stack"), (b"\x26\xff\xff", "no register 65535"),
                (number(0xBFE0_0000) + b"\x19", "Cannot access memory at address 0xbfe00000")):
            with self.assertRaisesRegex(Failed, why):
                self.value(code)


class Hits(unittest.TestCase):
    def test_they_are_those_of_a_look_at_each_position(self) -> None:
        source = random.Random(7)
        tried = 0
        for _ in range(6):
            words = random_rom(source)
            driver = start(rom(words))
            self.addCleanup(driver.close)
            seen = states(driver, END)
            stored = [replies.memory(lines) for lines in replies_at(driver, range(END), f"mem {DATA} 4")]
            addresses = [RESET_PC + 4 * it for it in source.sample(range(len(words)), 4)] + [RESET_PC]
            wanted, place = source.randrange(-4, 9), source.randrange(4)
            equal = number(wanted) + bytes((EQUAL,)) + END_OF
            of_register = REGISTER_9 + equal
            of_memory = number(0xA000_0000 + DATA + 4 * place) + b"\x19\x16\x20" + equal
            odd = POSITION + number(1) + bytes((AND,)) + END_OF

            def holds(position: int) -> bool:
                state, memory = seen[position], agent.signed(stored[position][place], 32)
                of_address = {
                    addresses[0]: True, addresses[1]: agent.signed(state.general[9], 32) == wanted,
                    addresses[2]: memory == wanted, addresses[3]: memory == wanted or position % 2 == 1,
                    addresses[4]: position % 2 == 0 and wanted < 4}
                return of_address.get(state.pc, False)

            even = POSITION + number(1) + bytes((AND, NOT)) + END_OF if wanted < 4 else number(0) + END_OF
            having: dict[int, list[bytes]] = {
                addresses[0]: [], addresses[4]: [even], addresses[1]: [of_register], addresses[2]: [of_memory],
                addresses[3]: [of_memory, odd]}
            if len(having) < 5:
                continue  # the word at reset is one of the four
            tried += 1
            hits = [position for position in range(END) if holds(position)]
            self.assertTrue(hits)
            for chosen in [list(having)] + [source.sample(list(having), source.randrange(1, 5)) for _ in range(3)]:
                mine = [position for position in hits if seen[position].pc in chosen]
                for begin in [0, 1, *source.sample(range(END - 40), 2)]:
                    driver.goto(begin)
                    limit = END - 1 - begin
                    self.assertEqual(conditions.next_hit(driver, chosen, having, limit),
                                     next((it for it in mine if it > begin), None))
                    lowest = source.randrange(begin + 1)
                    self.assertEqual(conditions.last_hit(driver, chosen, having, lowest),
                                     next((it for it in reversed(mine) if lowest <= it < begin), None))
                    self.assertEqual(driver.position, begin)

        self.assertGreater(tried, 2)

    def test_visits_that_are_far_apart(self) -> None:
        # addiu r9, r9, 1; bne r9, r10, back to it; sll. r10 is 0, so the loop is left never; its sll comes each third step.
        driver = start(rom([0x25290001, 0x152AFFFE, 0]))
        self.addCleanup(driver.close)
        code = REGISTER_9 + number(5_000) + bytes((EQUAL,)) + END_OF
        driver.goto(5)
        self.assertEqual(conditions.next_hit(driver, [RESET_PC + 8], {RESET_PC + 8: [code]}, 1 << 20), 14_999)
        driver.goto(40_000)
        self.assertEqual(conditions.last_hit(driver, [RESET_PC + 8], {RESET_PC + 8: [code]}, 0), 14_999)


if __name__ == "__main__":
    unittest.main()
