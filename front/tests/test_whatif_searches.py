"""What is searched for in other pasts, against brute force: the smallest log, what differs, and where a condition holds first."""
from __future__ import annotations

import random
import unittest
from typing import Callable, Optional, Sequence
from unittest import mock

from bezhakkom.driver import Driver
from bezhakkom.errors import Problem
from bezhakkom.log import Event
from bezhakkom.whatif import conditions, pasts
from bezhakkom.whatif.compare import compare
from bezhakkom.whatif.conditions import SIGNS, Comes, Compares, ComesTrue, Holds, Sends, Then
from bezhakkom.whatif.questions import At, Console, Register, Sent, SentIn, Word
from bezhakkom.whatif.shrink import shrink
from bezhakkom.whatif.when import when
from front.tests import brute
from front.tests.support import DATA, random_rom, rom, start, states

FATAL = 0xBFC0_0100  # of the loader, where it ends


def _ticks(turns: int) -> list[int]:
    """A ROM that counts in the word at 0x1000: each time after so many turns of a loop of three instructions."""
    return [0x3C08A000, 0x35081000, 0xAD000000,  # lui t0, 0xa000; ori t0, t0, 0x1000; sw zero, 0(t0)
            0x24090000 | turns,  # li t1, turns
            0x2529FFFF, 0x1520FFFE, 0,  # addiu t1, t1, -1; bnez t1, .-4; nop
            0x8D0A0000, 0, 0x254A0001, 0xAD0A0000,  # lw t2, 0(t0); nop; addiu t2, t2, 1; sw t2, 0(t0)
            0x1000FFF7, 0]  # b to the li; nop


class Shrink_(unittest.TestCase):
    def check(self, guest: str, log: list[Event], condition: conditions.Condition, end: int,
              holds: Callable[[Driver], Optional[int]]) -> list[Event]:
        """The log that is left, of which it is tried that no event can be taken out."""
        driver = start(brute.image(guest), log)
        self.addCleanup(driver.close)
        driver.goto(12)
        before = brute.of(driver)
        found = shrink(driver, condition, end)
        brute.kept(self, driver, before)
        with brute.fresh(brute.image(guest), found.log) as alone:
            self.assertEqual(holds(alone), found.position)
            for index in range(len(found.log)):
                alone.revert(brute.without(found.log, index), [])
                self.assertIsNone(holds(alone), index)
        # Each event that is left was there, at its step; its byte may be simpler.
        rest = iter((it.time, it.line, it.kind) for it in log)
        self.assertTrue(all((it.time, it.line, it.kind) in rest for it in found.log))
        driver.close()
        return found.log

    def test_login(self) -> None:
        def holds(driver: Driver) -> Optional[int]:
            text = brute.sent(driver, 130_000)[0]
            at = text.find(b"Sorry")
            return None if at < 0 else driver.find(0, at + 4) + 1

        log = self.check("login/login.elf", brute.log_of("login"), Sends(0, b"Sorry"), 130_000, holds)
        self.assertEqual([it.byte for it in log], [13])

    def test_loader(self) -> None:
        """What crashes it: the end of the run stands where exceptions end."""
        def holds(driver: Driver) -> Optional[int]:
            def is_there(position: int) -> bool:
                return brute.register_pc(driver, position) in (FATAL, FATAL + 4)

            if not is_there(300_000):
                return None
            low, high = 0, 300_000  # it stays there, in a branch and its delay slot
            while low < high:
                middle = (low + high) // 2
                low, high = (low, middle) if is_there(middle) else (middle + 1, high)
            return low

        log = self.check("loader/loader.elf", brute.log_of("loader"), Comes(FATAL), 300_000, holds)
        self.assertEqual(bytes(it.byte for it in log).count(b"\r"), 2)

    def test_echo_with_random_logs(self) -> None:
        source = random.Random(11)
        for _ in range(12):
            log = brute.random_log(source, 8, 300)
            with brute.fresh(brute.image("echo/boot.s"), log) as alone:
                found = brute.words(alone, 500, 0x100)
            value = source.choice([it for it in found if it] or [0])
            if value:
                def holds(driver: Driver, value: int = value) -> Optional[int]:
                    return next((at for at, it in enumerate(brute.words(driver, 500, 0x100)) if it == value), None)

                self.check("echo/boot.s", log, Holds(0x100, "==", value), 499, holds)

    def test_what_does_not_come_true(self) -> None:
        driver = start(brute.image("echo/boot.s"), brute.log_of("echo"))
        self.addCleanup(driver.close)
        with self.assertRaisesRegex(Problem, "does not come true up to step 256"):
            shrink(driver, Sends(0, b"x"), 256)

    def test_events_before_a_range_stay(self) -> None:
        """The program comes to its loop early on, and again after each byte."""
        log = [Event(20 + 40 * it, 0, 65 + it) for it in range(8)]
        driver = start(brute.image("echo/boot.s"), log)
        self.addCleanup(driver.close)
        sends = 0xBFC0_1018
        found = shrink(driver, Comes(sends), 400, 150)
        self.assertEqual(found.log[:4], log[:4])
        with brute.fresh(brute.image("echo/boot.s"), found.log) as alone:
            self.assertEqual(brute.comes(alone, sends, 150, 400), found.position)
        for index in range(4, len(found.log)):
            with brute.fresh(brute.image("echo/boot.s"), brute.without(found.log, index)) as alone:
                self.assertIsNone(brute.comes(alone, sends, 150, 400))

    def test_what_holds_at_reset_needs_no_event(self) -> None:
        driver = start(brute.image("echo/boot.s"), brute.log_of("echo"))
        self.addCleanup(driver.close)
        found = shrink(driver, Holds(0x100, "==", 0), 256)
        self.assertEqual((found.log, found.position), ([], 0))


class Compare_(unittest.TestCase):
    def check(self, guest: str, one: list[Event], two: list[Event], position: int) -> None:
        driver = start(brute.image(guest), one)
        self.addCleanup(driver.close)
        driver.goto(position)
        before = brute.of(driver)
        with mock.patch("bezhakkom.whatif.compare.RAM", range(0x10000)):
            found = compare(driver, two, [])
        brute.kept(self, driver, before)
        with brute.fresh(brute.image(guest), one) as first, brute.fresh(brute.image(guest), two) as second:
            runs = [states(it, position + 1) for it in (first, second)]
            wanted = next(((at, *pair) for at, pair in enumerate(zip(*runs)) if pair[0] != pair[1]), None)
            self.assertEqual(found.registers, wanted)
            texts = [brute.sent(it, position) for it in (first, second)]
            for line, (here, there) in enumerate(zip(*texts)):
                other = next((it for it in found.sent if it.line == line), None)
                if here == there:
                    self.assertIsNone(other)
                    continue
                assert other
                place = next((at for at in range(max(len(here), len(there))) if here[at:at + 1] != there[at:at + 1]))
                sides = [(text[place], driver.find(line, place)) if place < len(text) else None
                         for text, driver in ((here, first), (there, second))]
                self.assertEqual((other.place, other.here, other.there), (place, *sides))
            words = [it.words(0, 0x4000) for it in (first, second)]
            differ = [(4 * at, *pair) for at, pair in enumerate(zip(*words)) if pair[0] != pair[1]]
            self.assertEqual([(it.physical, it.here, it.there) for it in found.words ], differ)
        driver.close()

    def test_echo(self) -> None:
        log = brute.log_of("echo")
        self.check("echo/boot.s", log, brute.with_byte(log, 1, 0x43), 256)
        self.check("echo/boot.s", log, [], 256)
        self.check("echo/boot.s", log, log, 100)

    def test_echo_with_random_logs(self) -> None:
        source = random.Random(21)
        for _ in range(4):
            log = brute.random_log(source, 6, 250)
            index = source.randrange(len(log))
            self.check("echo/boot.s", log, source.choice((brute.without(log, index), brute.moved(log, index, 130))), 300)

    def test_a_patch_and_a_word_that_no_image_sets(self) -> None:
        driver = start(brute.image("echo/boot.s"), brute.log_of("echo"))
        self.addCleanup(driver.close)
        driver.patch(0x2000, 9)
        driver.patch(0x7F_FFFC, 7)
        driver.patch(0x2000, 8)
        driver.goto(30)
        before = brute.of(driver)
        found = compare(driver, driver.log, driver.patches[:2])
        brute.kept(self, driver, before)
        self.assertEqual([(it.physical, it.here, it.there) for it in found.words], [(0x2000, 8, 9)])
        found = compare(driver, driver.log, [])
        brute.kept(self, driver, before)
        self.assertEqual([(it.physical, it.here, it.there) for it in found.words], [(0x2000, 8, 0), (0x7F_FFFC, 7, 0)])
        self.assertEqual((found.registers, found.compared, found.sent), (None, 30, []))


class Conditions_(unittest.TestCase):
    """The first position at which each kind holds, against each position of random programs."""

    def test_words(self) -> None:
        for seed in range(30):
            source = random.Random(seed)
            words = random_rom(source)
            end = 300
            driver = start(rom(words))
            run = brute.words(driver, end + 1, DATA)
            sample = source.choice((1, 2, 1024))
            small = {"SPAN": 16, "_SAMPLE": sample, "_SPANS": (1, 2, 4)} if seed % 3 else {"_SAMPLE": sample}
            with self.subTest(seed=seed), mock.patch.multiple(conditions, **small):
                for sign, holds in SIGNS.items():
                    value = source.choice(run)
                    begin = source.choice((0, source.randrange(end)))
                    wanted = next((it for it in range(begin, end + 1) if holds(run[it], value)), None)
                    condition = Holds(DATA, sign, value)
                    self.assertEqual(pasts.answer(driver, ComesTrue(condition, begin, end)), wanted)
                    if not begin:
                        self.assertEqual(when(driver, condition, end).position, wanted)
            driver.close()

    def test_sums_of_words_hold_first_where_brute_force_says(self) -> None:
        """Words and bytes of four words, added and subtracted, on both sides."""
        found_later = 0
        for seed in range(30):
            source = random.Random(seed)
            words = random_rom(source)
            end = 300
            driver = start(rom(words))
            run = list(zip(*(brute.words(driver, end + 1, DATA + 4 * place) for place in range(4))))

            def side() -> conditions.Total:
                pieces = []
                for _ in range(source.randrange(1, 3)):
                    size = source.choice((1, 2, 4, 4))
                    pieces.append((source.choice((1, -1)), DATA + size * source.randrange(16 // size), size))
                return source.randrange(-2, 3), tuple(pieces)

            def value(total: conditions.Total, held: Sequence[int]) -> int:
                content = b"".join(it.to_bytes(4, "little") for it in held)
                return total[0] + sum(sign * int.from_bytes(content[place - DATA:place - DATA + size], "little") for sign, place, size in total[1])

            small = {"SPAN": 16, "_SAMPLE": source.choice((1, 2, 1024)), "_SPANS": (1, 2, 4)}
            with self.subTest(seed=seed), mock.patch.multiple(conditions, **small):
                for _ in range(6):
                    left, right, (sign, holds) = side(), side(), source.choice(list(SIGNS.items()))
                    if sign in ("==", "=", "!="):
                        def holds(one: int, two: int, sign: str = sign) -> bool:
                            same = one == two or min(one, two) < 0 and (one - two) % (1 << 32) == 0
                            return same != (sign == "!=")
                    begin = source.choice((0, source.randrange(end)))
                    wanted = next((it for it in range(begin, end + 1) if holds(value(left, run[it]), value(right, run[it]))), None)
                    self.assertEqual(pasts.answer(driver, ComesTrue(Compares(left, sign, right), begin, end)), wanted)
                    found_later += wanted not in (None, begin)
            driver.close()
        self.assertGreater(found_later, 10)

    def test_when_of_thousands_of_stores_takes_few_turns(self) -> None:
        """The ticks are 379 steps apart, or 4,978. Step 380 or 4,979 is the first position with a 1."""
        for turns in (124, 1657):
            apart = 3 * turns + 7
            guest = start(rom(_ticks(turns)))
            stored = 1500
            end = 3 + (stored + 9) * apart
            with mock.patch.object(guest, "ask_all", wraps=guest.ask_all) as asked, self.subTest(apart=apart):
                found = when(guest, Holds(0x1000, "==", stored), end)
            self.assertEqual(found.position, 1 + stored * apart)
            self.assertLess(asked.call_count, 600)
            guest.close()

    def test_addresses(self) -> None:
        for seed in range(10):
            source = random.Random(seed)
            words = random_rom(source)
            driver = start(rom(words))
            run = states(driver, 301)
            with mock.patch.multiple(conditions, VISIT_STEPS=source.choice((7, 1 << 20)), _PIECES=(1, 2)):
                for _ in range(6):
                    address, begin = 0xBFC0_0000 + 4 * source.randrange(len(words)), source.choice((0, source.randrange(300)))
                    wanted = next((it for it in range(begin, 301) if run[it].pc == address), None)
                    self.assertEqual(pasts.answer(driver, ComesTrue(Comes(address), begin, 300)), wanted)
            driver.close()

    def test_texts(self) -> None:
        """On a line that sends more than one command shows."""
        log = [Event(70 + 130 * it, 0, 65 + it % 26) for it in range(300)]
        driver = start(brute.image("echo/boot.s"), log)
        self.addCleanup(driver.close)
        end = log[-1].time + 200
        text = brute.sent(driver, end)[0]
        self.assertEqual(len(text), 300)
        for wanted in (b"A", b"YZAB", text[200:300]):
            for likely in (0, 300):
                at = text.find(wanted) + len(wanted) - 1
                first = pasts.answer(driver, ComesTrue(Sends(0, wanted, likely=likely), 0, end))
                self.assertEqual([len(brute.sent(driver, it)[0]) for it in (first - 1, first)], [at, at + 1])
        self.assertEqual(pasts.answer(driver, ComesTrue(Sends(0, b"ABD"), 0, end)), None)
        self.assertEqual(pasts.answer(driver, ComesTrue(Sends(0, b"A"), 5000, end)), 5000)
        self.assertEqual(pasts.answer(driver, ComesTrue(Sends(0, b"A", place=1), 0, end)),
                         pasts.answer(driver, ComesTrue(Sends(0, b"ZA"), 0, end)))

    def test_then(self) -> None:
        driver = start(brute.image("echo/boot.s"), brute.log_of("echo"))
        self.addCleanup(driver.close)
        first = brute.comes(driver, 0xBFC0_1018, 0, 256)
        assert first is not None
        asked = Then(Comes(0xBFC0_1018), 0, 256, (Word(0x100), Register("pc"), Console(0)))
        self.assertEqual(pasts.answer(driver, asked), (first, (0x8041, 0xBFC0_1018, b"")))


class Questions_(unittest.TestCase):
    def test_each(self) -> None:
        driver = start(brute.image("login/login.elf"), brute.log_of("login"))
        self.addCleanup(driver.close)
        position = 130_000
        driver.goto(position)
        state, control, sent = driver.registers(), driver.control(), driver.console(0)
        asked = At(position, (Register("sp", 29), Register("pc"), Register("next_pc"), Register("lo"), Register("epc"), Sent(0, 3),
                              Sent(0, 10_000), Console(0, 5), Console(0, 5, 1000), SentIn(0, 3)))
        driver.goto(9)
        self.assertEqual(pasts.answer(driver, asked), (
            state.general[29], state.pc, state.next_pc, state.lo, control["epc"], sent[3], None, sent[5:], sent[5:],
            (sent[3], driver.find(0, 3) if not driver.goto(position) else 0)))


if __name__ == "__main__":
    unittest.main()
