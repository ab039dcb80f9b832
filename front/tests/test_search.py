"""Searches against brute force: the run is asked position by position, and its stores are read off the instructions."""
from __future__ import annotations

import random
import unittest
from unittest import mock

from bezhakkom import loading, search
from bezhakkom.log import Event
from front.tests.support import DATA, ROOT, random_rom, rom, start, states, stored
from bezhakkom.visits import Visits

IMAGES = 50
CASES = 10
STEPS = 300


class Searches(unittest.TestCase):
    def test_random(self) -> None:
        """2,000 cases: four kinds of search from ten positions of fifty programs, most of them by small windows."""
        for seed in range(IMAGES):
            source = random.Random(seed)
            windows, span = ((3, 7, 20, 64), 16) if seed % 4 else (search.WINDOWS, search.SPAN)
            with self.subTest(seed=seed), mock.patch.multiple(search, WINDOWS=windows, SPAN=span, VISITS=source.randrange(1, 6)):
                self.check(source)

    def check(self, source: random.Random) -> None:
        words = random_rom(source)
        driver = start(rom(words))
        run = states(driver, STEPS)
        pcs = [it.pc for it in run]
        stores = [stored(words, it) for it in run]
        for _ in range(CASES):
            here, limit = source.randrange(STEPS // 2), source.randrange(1, STEPS // 2)
            lowest = source.choice((0, 0, source.randrange(STEPS // 2)))
            places = {0xBFC0_0000 + 4 * source.randrange(len(words)) for _ in range(source.randrange(1, 5))}
            word = DATA + 4 * source.randrange(4)
            driver.goto(here)
            ahead, back = range(here + 1, here + limit + 1), range(here - 1, -1, -1)
            want = [
                next((it for it in ahead if pcs[it] in places), None),
                next((it for it in back if pcs[it] in places and it >= lowest), None),
                next((it for it in range(here, here + limit) if stores[it] == word), None),
                next((it for it in back if stores[it] == word), None),
            ]
            got = [
                search.next_visit(driver, places, limit), search.last_visit(driver, places, lowest),
                search.first_store(driver, word, limit), search.last_store(driver, word),
            ]
            self.assertEqual(got, want, f"at {here}, limit {limit}, word {word:#x}, {sorted(map(hex, places))}")
            self.assertEqual(driver.position, here)
        driver.close()


class Kept(unittest.TestCase):
    """What a search has found is not searched again, and no edit lets it be wrong."""

    def test_a_second_search_asks_nothing(self) -> None:
        driver = start(rom(random_rom(random.Random(2))))
        self.addCleanup(driver.close)
        place = states(driver, STEPS)[200].pc
        driver.goto(10 * search.SPAN)
        found = search.last_visit(driver, {place, 0x80000000}, 0)
        self.assertIsNone(search.last_visit(driver, {0x80000000}, 0))
        with mock.patch.object(driver, "ask", side_effect=AssertionError):
            self.assertEqual(search.last_visit(driver, {place, 0x80000000}, 0), found)
            driver.goto(5)
            self.assertIsNone(search.next_visit(driver, {0x80000000}, 9 * search.SPAN))

    def test_edits(self) -> None:
        """Bytes of the echo program are added, moved and taken away between searches, and its image is patched."""
        source = random.Random(4)
        driver = start(loading.image(str(ROOT / "examples/echo/boot.s")), [Event(70, 0, 0x41), Event(200, 0, 0x42)])
        self.addCleanup(driver.close)
        places = sorted({it.pc for it in states(driver, STEPS)})
        for _ in range(150):
            edit = source.randrange(6)
            if edit == 0:
                driver.add(source.randrange(STEPS), 0, source.randrange(256))
            elif edit == 1 and driver.log:
                driver.move(source.randrange(len(driver.log)), source.randrange(STEPS))
            elif edit == 2 and driver.log:
                driver.delete(source.randrange(len(driver.log)))
            elif edit == 3:
                before, first = list(driver.log), source.randrange(STEPS)
                driver.erase(first, first + source.randrange(50))
                if source.random() < 0.5:
                    driver.revert(before, driver.patches)
            elif edit == 4 and source.random() < 0.2:
                # The branch over the echo is taken always, or never.
                driver.patch(0x1FC0_1010, source.choice((0x10E00007, 0x04E10007, 0)))
            pcs = [it.pc for it in driver.traced(0, STEPS)]
            for _ in range(4):
                here, limit = source.randrange(STEPS // 2), source.randrange(1, STEPS // 2)
                wanted = set(source.sample(places, 2))
                driver.goto(here)
                got = search.next_visit(driver, wanted, limit), search.last_visit(driver, wanted, 0)
                self.assertEqual(got, (next((it for it in range(here + 1, here + limit + 1) if pcs[it] in wanted), None),
                                       next((it for it in range(here - 1, -1, -1) if pcs[it] in wanted), None)))

    def test_stretches(self) -> None:
        """Against a list of all positions, of which each note says what it says."""
        source = random.Random(6)
        for _ in range(200):
            truth = sorted(source.sample(range(1, 60), source.randrange(12)))
            visits, known = Visits(), set[int]()
            for _ in range(source.randrange(1, 25)):
                low = source.randrange(60)
                high = source.randrange(low, 60)
                if source.random() < 0.1:
                    visits.cut(low)
                    known = {it for it in known if it <= low}
                    continue
                found = next((it for it in truth if low < it <= high), None)
                answer, upto = visits.first(7, low, high)
                self.assertIn(answer, (None, found))
                if answer is None:
                    self.assertFalse(any(low < it <= upto for it in truth))
                    self.assertTrue(upto == low or all(it in known for it in range(low + 1, upto + 1)))
                    if upto < high:
                        visits.note(7, upto, high, found)
                        known |= set(range(upto + 1, (high if found is None else found) + 1))


if __name__ == "__main__":
    unittest.main()
