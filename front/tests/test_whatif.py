"""Other pasts against brute force: for each of them a new program runs from reset, and its log is made here."""
from __future__ import annotations

import random
import unittest
from typing import Any, Callable, Optional
from unittest import mock

from bezhakkom.driver import Driver
from bezhakkom.errors import Problem
from bezhakkom.log import Event, Kind
from bezhakkom.symbols import symbols_of
from bezhakkom.whatif import pasts
from bezhakkom.whatif.causes import DEL, SET, Causes, causes, other_values
from bezhakkom.whatif.compare import compare
from bezhakkom.whatif.conditions import Holds
from bezhakkom.whatif.futures import OUT, STEP, VALUE, futures, moved, taken_out, values
from bezhakkom.whatif.pasts import Past, Question
from bezhakkom.whatif.questions import Console, Register, Sent, Word
from front.tests import brute
from front.tests.support import rom, start


class Pasts(unittest.TestCase):
    def test_there_and_back(self) -> None:
        """On random logs of which several events come in one step, against lists."""
        source = random.Random(1)
        for _ in range(25):
            log = brute.random_log(source, source.randrange(1, 14), 60)
            driver = start(rom([]), log)
            self.addCleanup(driver.close)
            index = source.randrange(len(log))
            end, step = source.randrange(index + 1, len(log) + 1), source.randrange(60)
            byte = source.randrange(2)
            wanted = brute.random_log(source, source.randrange(9), 60)
            for past, expected in (
                    (pasts.with_byte(log, index, byte), brute.with_byte(log, index, byte)),
                    (pasts.without(log, index, end), log[:index] + log[end:]),
                    (pasts.moved(log, index, step), brute.moved(log, index, step)),
                    (pasts.moved(log, index, log[index].time), brute.moved(log, index, log[index].time)),
                    (pasts.with_log(log, wanted), wanted)):
                driver.values(past.there)
                self.assertEqual(self.events(driver), expected)
                driver.values(past.back)
                self.assertEqual(self.events(driver), log)
            driver.close()

    def events(self, driver: Driver) -> list[Event]:
        """The events that the program itself has."""
        found = []
        for line in driver.value("log 0 32")[1:]:
            _, time, place, byte, *kind = line.split()
            found.append(Event(int(time), int(place), int(byte, 16), Kind[kind[0].upper()] if kind else Kind.BYTE))
        return found

    def test_all_is_as_before(self) -> None:
        """Also where it ends by a fault, and where the image was patched."""
        driver = start(brute.image("echo/boot.s"), brute.log_of("echo"))
        self.addCleanup(driver.close)
        driver.patch(0x100, 5)
        driver.goto(250)
        before = brute.of(driver)
        with self.assertRaises(ZeroDivisionError), pasts.kept(driver):
            driver.delete(0)
            driver.patch(0x100, 6)
            driver.goto(7)
            raise ZeroDivisionError
        brute.kept(self, driver, before)
        self.assertEqual(brute.word(driver, 0, 0x100), 5)


class Causes_(unittest.TestCase):
    """`causes` on the guests of the repository."""

    def check(self, guest: str, log: list[Event], questions: dict[Question, Callable[[Driver], Any]], position: int, count: int = 1,
              every: int = 1) -> Causes:
        """Against a new program for each past, which is asked all questions; of a long log, of each so many events. Gives what is found
        for the last question."""
        driver = start(brute.image(guest), log)
        self.addCleanup(driver.close)
        driver.goto(position + 3)
        before = brute.of(driver)
        events = [it for it, event in enumerate(log) if event.time < position]
        looked = events[::every]

        def answers(log: list[Event]) -> list[Any]:
            with brute.fresh(brute.image(guest), log) as alone:
                return [ask(alone) for ask in questions.values()]

        as_it_is = answers(log)
        of_values = {it: [answers(brute.with_byte(log, it, byte)) for byte in other_values(log[it])[:count]] for it in looked}
        of_none = {it: answers(brute.without(log, it)) for it in looked}
        for at, question in enumerate(questions):
            found = causes(driver, question, position, values=count)
            brute.kept(self, driver, before)
            self.assertEqual(found.answer, as_it_is[at])
            by_value = [it for it in looked if any(other[at] != found.answer for other in of_values[it])]
            self.assertEqual([it for it in found.by_value if it in looked], by_value)
            gone = [it for it in looked if of_none[it][at] != found.answer]
            self.assertEqual([it for it in found.by_being_there if it in looked], gone)
            self.assertEqual((found.events, found.asked, found.is_stopped), (len(events), len(events), False))
        driver.close()
        return found

    def test_echo(self) -> None:
        self.check("echo/boot.s", brute.log_of("echo"), {
            Console(0): lambda it: brute.sent(it, 256)[0], Word(0x104): lambda it: brute.word(it, 256, 0x104)}, 256, 3)

    def test_echo_with_random_logs(self) -> None:
        source = random.Random(3)
        for _ in range(4):
            log = brute.random_log(source, 7, 300)
            position = source.randrange(100, 400)

            def word(driver: Driver, position: int = position) -> int:
                return brute.word(driver, position, 0x100)

            def register(driver: Driver, position: int = position) -> int:
                return brute.register(driver, position, 8)

            self.check("echo/boot.s", log, {Word(0x100): word, Register("t0", 8): register}, position)

    def test_echo_on_the_plain_workbench(self) -> None:
        """The other machine agrees about each event."""
        guest, log = brute.image("echo/boot.s"), brute.random_log(random.Random(5), 6, 300)
        driver = start(guest, log)
        self.addCleanup(driver.close)
        found = causes(driver, Console(0), 350)

        def sent(log: list[Event]) -> str:
            return brute.plain(self, guest, log, ["goto 350", "console 0 0 256"])[-1].split()[-1]

        self.assertEqual(sent(log), found.answer.hex() or "none")
        for index in range(len(log)):
            other = brute.with_byte(log, index, other_values(log[index])[0])
            self.assertEqual(index in found.by_value, sent(other) != sent(log))
            self.assertEqual(index in found.by_being_there, sent(brute.without(log, index)) != sent(log))

    def test_login(self) -> None:
        # An `x` and two backspaces make the length -1; without one of them it is -2 or 0.
        log = brute.log_of("login")
        found = self.check("login/login.elf", log, {Word(0x1020): lambda it: brute.word(it, 41_000, 0x1020)}, 41_000, 2)
        self.assertEqual((found.answer, found.by_being_there), (0xFFFF_FFFF, [0, 1, 2]))

        def sent(driver: Driver) -> Optional[int]:
            text = brute.sent(driver, 130_000)[0]
            return text[30] if len(text) > 30 else None

        self.check("login/login.elf", log, {Sent(0, 30): sent}, 130_000)

    def test_driver(self) -> None:
        log = brute.log_of("driver")
        self.check("driver/boot.s", log, {Console(2): lambda it: brute.sent(it, 9000)[2]}, 9000)

    def test_loader(self) -> None:
        """The pointer that is called in the end."""
        log = brute.log_of("loader")
        found = self.check("loader/loader.elf", log, {Word(0x141C): lambda it: brute.word(it, 237_000, 0x141C)}, 237_000, every=6)
        # The damaged record is events 59 to 117, after the return that is event 58. Its checksum, C4, is stored over the low byte.
        self.assertEqual(found.answer & 0xFF, 0xC4)
        self.assertTrue({115, 116} <= set(found.by_value))
        self.assertTrue(set(found.by_being_there) <= set(range(58, 118)))

    def test_values(self) -> None:
        self.assertEqual(other_values(Event(0, 0, 0x41))[:8], [0x40, 0x43, 0x45, 0x49, 0x51, 0x61, 0x01, 0xC1])
        self.assertEqual(sorted(other_values(Event(0, 0, 0x41))), [it for it in range(256) if it != 0x41])
        self.assertEqual(other_values(Event(0, 0, 1, Kind.WIRE)), [0])


class Futures_(unittest.TestCase):
    def test_login(self) -> None:
        """All values of the second backspace, its absence and other steps of it: what is sent after it, where the program stands, and
        a word."""
        guest, log, position, index = brute.image("login/login.elf"), brute.log_of("login"), 130_000, 2
        symbols = symbols_of(guest)
        driver = start(guest, log)
        self.addCleanup(driver.close)
        driver.goto(77)
        before = brute.of(driver)
        steps = range(39_000, 42_000, 501)
        those = [*range(16), *range(32, 256, 8)]
        changes = values(log, index, those) + taken_out(log, index) + moved(log, index, steps)
        found = futures(driver, symbols, index, changes, position, [Word(0x1020)])
        brute.kept(self, driver, before)
        made = [((VALUE, it), brute.with_byte(log, index, it)) for it in those]
        made += [((OUT, 0), brute.without(log, index)), *(((STEP, it), brute.moved(log, index, it)) for it in steps)]
        with brute.fresh(guest, log) as alone:
            already = [len(it) for it in brute.sent(alone, 39_000)]
        wanted: dict[Any, list[Any]] = {}
        for label, past in made:
            with brute.fresh(guest, past) as alone:
                alone.goto(position)
                function = symbols.at(alone.registers().pc)
                assert function
                outcome = (tuple(it[at:] for it, at in zip(brute.sent(alone, position), already)), function[0].name,
                           (brute.word(alone, position, 0x1020),))
            wanted.setdefault(outcome, []).append(label)
        self.assertEqual({(it.sent, it.place, it.values): labels for it, labels in found.outcomes.items()}, wanted)
        self.assertTrue(all(it.came for it in found.outcomes))
        self.assertEqual((found.whole, found.tried), (len(made), len(made)))

    def test_until(self) -> None:
        """Where a condition comes true first, or not at all."""
        guest, log = brute.image("echo/boot.s"), brute.log_of("echo")
        driver = start(guest, log)
        self.addCleanup(driver.close)
        found = futures(driver, symbols_of(guest), 0, values(log, 0, range(64, 68)), 256, [Word(0x100)], Holds(0x100, "==", 0x8041))
        came = {it.came: labels for it, labels in found.outcomes.items()}
        self.assertEqual(came, {False: [(VALUE, 64), (VALUE, 66), (VALUE, 67)], True: [(VALUE, 65)]})
        first = next(it for it in found.outcomes if it.came)
        self.assertEqual(first.values, (0x8041,))

    def test_far_positions_are_reached_once_for_each_future(self) -> None:
        """The order in which pasts are asked changes nothing of what is said."""
        guest, log = brute.image("login/login.elf"), brute.log_of("login")
        driver = start(guest, log)
        self.addCleanup(driver.close)
        changes = values(log, 4, range(97, 123))
        near = futures(driver, symbols_of(guest), 4, changes, 5_000_000)
        with mock.patch("bezhakkom.whatif.futures._FAR", 1):
            self.assertEqual(futures(driver, symbols_of(guest), 4, changes, 5_000_000), near)

    def test_grouped_by_sent_the_function_is_no_part_of_an_outcome(self) -> None:
        """At a position amid what is sent, the program stands in several functions after the same bytes."""
        guest, log = brute.image("login/login.elf"), brute.log_of("login")
        driver = start(guest, log)
        self.addCleanup(driver.close)
        changes = moved(log, 8, range(79_000, 81_000, 20))
        by_place = futures(driver, symbols_of(guest), 8, changes, 80_420)
        by_sent = futures(driver, symbols_of(guest), 8, changes, 80_420, by_sent=True)
        self.assertGreater(len(by_place.outcomes), len(by_sent.outcomes))
        wanted: dict[tuple[bytes, ...], list[tuple[str, int]]] = {}
        for outcome, labels in by_place.outcomes.items():
            wanted.setdefault(outcome.sent, []).extend(labels)
        self.assertEqual({it.sent: labels for it, labels in by_sent.outcomes.items()}, {it: sorted(them) for it, them in wanted.items()})
        self.assertEqual({it.place for it in by_sent.outcomes}, {""})

    def test_pasts_are_made_when_they_are_asked_for(self) -> None:
        """A line may try a million pasts. After a Ctrl-C what was tried before is shown, also at a far position."""
        guest, log = brute.image("echo/boot.s"), brute.log_of("echo")
        driver = start(guest, log)
        self.addCleanup(driver.close)
        changes = moved(log, 1, range(1, 300_001))
        made = 0

        def interrupted(label: tuple[str, int]) -> pasts.Past:
            nonlocal made
            made += 1
            if made > 200:
                raise KeyboardInterrupt
            return pasts.moved(log, 1, label[1])

        with mock.patch.object(changes, "past", interrupted), mock.patch("bezhakkom.whatif.futures._FAR", -1 << 40):
            found = futures(driver, symbols_of(guest), 1, changes, 5_000_000)
        self.assertEqual((found.whole, found.tried), (300_000, 192))
        self.assertEqual(sorted(it for labels in found.outcomes.values() for _, it in labels), list(range(1, 193)))

    def test_bad_ones(self) -> None:
        log = brute.log_of("echo")
        driver = start(brute.image("echo/boot.s"), log)
        self.addCleanup(driver.close)
        with self.assertRaisesRegex(Problem, "does not show at position 70"):
            futures(driver, symbols_of(driver.image), 0, taken_out(log, 0), 70)
        with self.assertRaisesRegex(Problem, "a byte is 0 to 255"):
            values(log, 0, [256])
        with self.assertRaisesRegex(Problem, "a step is 0 to"):
            moved(log, 0, [-1])


class Empty(unittest.TestCase):
    def test_an_empty_log(self) -> None:
        driver = start(brute.image("echo/boot.s"))
        self.addCleanup(driver.close)
        found = causes(driver, Console(0), 256)
        self.assertEqual((found.by_value, found.by_being_there, found.events), ([], [], 0))
        self.assertEqual(compare(driver, [], []).words, [])
        self.assertEqual(list(pasts.answers(driver, [])), [])
        self.assertEqual(Past(), pasts.PRESENT)
        self.assertEqual({SET, DEL}, {"set", "del"})


if __name__ == "__main__":
    unittest.main()
