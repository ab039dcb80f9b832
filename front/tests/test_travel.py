"""Runs to the nearest stop, both ways, against all states of random programs."""
from __future__ import annotations

import random
import unittest
import unittest.mock
from typing import Optional

from bezhakkom import loading, travel
from bezhakkom.log import Event
from bezhakkom.replies import memory, registers
from front.tests.support import DATA, random_rom, rom, start
from bezhakkom.travel import Reason, Stop, Stops, Watch

STEPS = 400
PROGRAMS, CASES = 12, 8


class Run:
    """A random program, and what it does in all steps of its begin."""

    def __init__(self, source: random.Random) -> None:
        self.driver = start(rom(random_rom(source)))
        answers = self.driver.values([it for position in range(STEPS) for it in (f"goto {position}", "regs",
                                                                                 f"mem {DATA} 4")])
        self.counters = [registers(reply).pc for reply in answers[1::3]]
        self.contents = [b"".join(word.to_bytes(4, "little") for word in memory(reply)) for reply in answers[2::3]]

    def stops(self, source: random.Random) -> Stops:
        """Up to two breakpoints and two watches, of bytes of the four words."""
        breakpoints = {source.choice(self.counters) for _ in range(source.randrange(3))}
        watches = set()
        for _ in range(source.randrange(3)):
            place = DATA + source.randrange(16)
            watches.add(Watch(0xA000_0000 + place, source.randint(1, DATA + 16 - place), place))
        return Stops(breakpoints, watches)

    def changes(self, watch: Watch, step: int) -> bool:
        begin = watch.place - DATA
        before, after = (self.contents[it][begin:begin + watch.size] for it in (step, step + 1))
        return before != after

    def at(self, stops: Stops, position: int) -> bool:
        return self.counters[position] in stops.breakpoints

    def first(self, stops: Stops, here: int) -> Optional[tuple[Reason, int]]:
        """The first stop, of the states that are known: at one position a breakpoint comes before the store that is
        made there."""
        for position in range(here, STEPS - 1):
            if position > here and self.at(stops, position):
                return Reason.BREAKPOINT, position
            if any(self.changes(watch, position) for watch in stops.watches):
                return Reason.WATCH, position
        return None

    def last(self, stops: Stops, here: int) -> tuple[Reason, int]:
        for position in range(here - 1, -1, -1):
            if any(self.changes(watch, position) for watch in stops.watches):
                return Reason.WATCH, position
            if self.at(stops, position):
                return Reason.BREAKPOINT, position
        return Reason.BEGIN, 0


class Travel(unittest.TestCase):
    def test_it_stops_where_all_states_say(self) -> None:
        source = random.Random(11)
        for _ in range(PROGRAMS):
            run = Run(source)
            for _ in range(CASES):
                stops, here = run.stops(source), source.randrange(STEPS - 1)
                run.driver.goto(here)
                self.agrees(travel.backward(run.driver, stops, lambda: False), run.last(stops, here), run, stops)
                expected = run.first(stops, here)
                if expected:
                    run.driver.goto(here)
                    self.agrees(travel.forward(run.driver, stops, lambda: False), expected, run, stops)
            run.driver.close()

    def agrees(self, stop: Stop, expected: tuple[Reason, int], run: Run, stops: Stops) -> None:
        self.assertEqual((stop.reason, stop.position), expected)
        self.assertEqual(run.driver.position, stop.position)
        if stop.watch:
            self.assertIn(stop.watch, stops.watches)
            self.assertTrue(run.changes(stop.watch, stop.position))

    def test_a_range_is_left_where_all_states_say(self) -> None:
        source = random.Random(12)
        for _ in range(PROGRAMS):
            run = Run(source)
            for _ in range(CASES):
                here = source.randrange(STEPS - 1)
                begin = source.choice(run.counters)
                addresses = range(begin, begin + 4 * source.randrange(1, 12), 4)
                left = next((it for it in range(here + 1, STEPS) if run.counters[it] not in addresses), None)
                if left is not None:
                    run.driver.goto(here)
                    self.agrees(travel.leave(run.driver, addresses, Stops(), lambda: False), (Reason.STEPPED, left),
                                run,
                                Stops())
            run.driver.close()

    def test_stores_that_change_nothing_are_passed_over(self) -> None:
        # The echo loads RBUF in steps 9, 20 .. and stores it two steps later, mostly 0 over 0: the bytes come with the
        # stores of steps 1012 and 1,000,010, and the word is 0 again 11 steps later.
        driver = start(loading.image("examples/echo/boot.s"), [Event(1000, 0, 0x41), Event(1_000_000, 0, 0x42)])
        self.addCleanup(driver.close)
        stops = Stops(set(), {Watch(0xA000_0100, 4, 0x100)})
        driver.goto(2000)
        self.assertEqual(travel.forward(driver, stops, lambda: False).position, 1_000_010)
        self.assertEqual(travel.backward(driver, stops, lambda: False).position, 1023)

    def test_loops_that_stand_still_are_passed_over(self) -> None:
        """On the way back, against all states of the echo, which waits for each byte in a loop of 11 steps; with and without what was
        found before."""
        log = [Event(70, 0, 0x41), Event(600, 0, 0x42), Event(1300, 0, 0x43)]
        driver = start(loading.image("examples/echo/boot.s"), log)
        self.addCleanup(driver.close)
        counters = [registers(reply).pc for reply in driver.values([it for at in range(1800) for it in (f"goto {at}", "regs")])[1::2]]
        source = random.Random(5)
        for _ in range(40):
            here, far = source.randrange(1800), source.choice((20, 100, 1000))
            breakpoints = set(source.sample(sorted(set(counters)), source.randrange(1, 3))) | {0x8000_0000}
            wanted = next((it for it in range(here - 1, -1, -1) if counters[it] in breakpoints), None)
            driver.goto(here)
            with unittest.mock.patch.object(travel, "FAR", far):
                stop = travel.backward(driver, Stops(set(breakpoints)), lambda: False)
            self.assertEqual(stop, Stop(Reason.BEGIN, 0) if wanted is None else Stop(Reason.BREAKPOINT, wanted), (here, far, breakpoints))
            if source.randrange(3):
                driver.visits.forget()

    def test_steps_that_are_passed_over_are_not_run_again(self) -> None:
        """The login program waits for its first byte for ever, from step 355 or so on: of 20 million steps few are looked at."""
        driver = start(loading.image("examples/login/login.elf"))
        self.addCleanup(driver.close)
        driver.goto(20_000_000)
        asked: list[str] = []
        ask = driver.ask
        with unittest.mock.patch.object(driver, "ask", side_effect=lambda it: asked.append(it) or ask(it)):
            stop = travel.backward(driver, Stops({0xBFC0_0000}), lambda: False)
        self.assertEqual(stop, Stop(Reason.BREAKPOINT, 0))
        self.assertLess(sum(it.startswith("visit") for it in asked), 40)

    def test_a_run_is_ended_between_its_pieces(self) -> None:
        # addiu r2, r2, 1; beq r0, r0, back; nop
        driver = start(rom([0x24420001, 0x1000FFFE, 0]))
        self.addCleanup(driver.close)
        answers = iter([False, False, True])
        stop = travel.forward(driver, Stops(), lambda: next(answers))
        # Pieces of 65,536, 262,144 and 1,048,576 steps.
        self.assertEqual((stop, driver.position), (Stop(Reason.INTERRUPTED, 1_376_256), 1_376_256))


if __name__ == "__main__":
    unittest.main()
