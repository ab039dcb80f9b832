"""Several processes give what one gives, in the same order; and fuzzing, which its seed decides."""
from __future__ import annotations

import os
import subprocess
import sys
import threading
import unittest
import warnings
from concurrent.futures import Executor, ThreadPoolExecutor
from functools import lru_cache
from itertools import islice
from typing import Any, Iterator, Optional, Tuple
from unittest import mock

from bezhakkom import log as logs
from bezhakkom.driver import Driver
from bezhakkom.errors import Ended, Problem
from bezhakkom.symbols import symbols_of
from bezhakkom.whatif import jobs, pasts
from bezhakkom.whatif.causes import causes
from bezhakkom.whatif.conditions import Comes, Holds, Sends
from bezhakkom.whatif.futures import futures, values
from bezhakkom.whatif.fuzz import fuzz
from bezhakkom.whatif.questions import At, Console, Word
from bezhakkom.whatif.shrink import shrink
from front.tests import brute
from front.tests.support import ROOT, start

LOGIN = "login/login.elf"
END = 130_000
FATAL = 0xBFC0_0100  # of the loader


def found(driver: Driver, executor: Optional[Executor]) -> Iterator[Any]:
    """What each of those finds that take an executor."""
    symbols = symbols_of(driver.image)
    driver.goto(END)
    yield causes(driver, Word(0x1020), END, values=3, executor=executor)
    yield futures(driver, symbols, 2, values(driver.log, 2, range(0, 256, 3)), END, executor=executor)
    yield shrink(driver, Sends(0, b"Sorry"), END, executor=executor)
    yield fuzz(driver, Holds(0x1020, "==", 0xFFFF_FFFE), 15_000, 250_000, tries=400, executor=executor)


@lru_cache(None)
def alone(patch: Tuple[int, int], most: Optional[int]) -> list[Any]:
    """The same by one process, with a patch."""
    with brute.fresh(brute.image(LOGIN), brute.log_of("login")) as driver:
        driver.patch(*patch)
        return list(islice(found(driver, None), most))


class Jobs(unittest.TestCase):
    def check(self, executor: Executor, patch: Tuple[int, int] = (0x3000, 5), most: Optional[int] = None) -> None:
        """With a patch, all of them or only the first ones."""
        driver = start(brute.image(LOGIN), brute.log_of("login"))
        self.addCleanup(driver.close)
        driver.patch(*patch)  # which the processes have too
        driver.goto(END)
        before = brute.of(driver)
        self.assertEqual(list(islice(found(driver, executor), most)), alone(patch, most))
        brute.kept(self, driver, before)
        asked = At(END, (Word(patch[0]), Console(0)))
        cases = [(past, asked) for past in (pasts.PRESENT, pasts.without(driver.log, 2, 3), pasts.PRESENT)]
        one, two, three = jobs.answers(driver, cases, executor)
        self.assertEqual((one[0], two[0], three), (patch[1], patch[1], one))
        self.assertNotEqual(one, two)

    def test_processes(self) -> None:
        with jobs.pool(2) as executor:
            assert executor
            self.check(executor)
            # The same processes, with another image.
            self.check(executor, (0x3004, 6), 1)

    def test_threads(self) -> None:
        with ThreadPoolExecutor(2) as executor:
            self.check(executor)
            both = threading.Barrier(2)  # each of the threads ends its program
            for it in [executor.submit(lambda: (both.wait(), jobs.close())) for _ in range(2)]:
                it.result()

    def test_one_job_needs_no_process(self) -> None:
        with jobs.pool(1) as executor:
            self.assertIsNone(executor)

    def test_a_job_that_fails(self) -> None:
        """What ends a program in a job is said, and log and position stay."""
        driver = start(brute.image(LOGIN), brute.log_of("login"))
        self.addCleanup(driver.close)
        before = brute.of(driver)
        with jobs.pool(2) as executor, mock.patch.dict(os.environ, WB_PROGRAM="/bin/false"), self.assertRaises(Ended):
            causes(driver, Word(0x1020), END, executor=executor)
        brute.kept(self, driver, before)

    def test_dask(self) -> None:
        try:
            with warnings.catch_warnings():
                warnings.simplefilter("ignore")
                from distributed import Client
        except ImportError:
            self.by_the_system()
            return
        path = os.pathsep.join([str(ROOT / "front"), str(ROOT), os.environ.get("PYTHONPATH", "")])
        with warnings.catch_warnings(), mock.patch.dict(os.environ, PYTHONPATH=path):
            warnings.simplefilter("ignore")
            with Client(n_workers=2, threads_per_worker=1, processes=True, dashboard_address=None, host="127.0.0.1") as client:
                self.check(client.get_executor())


    def by_the_system(self) -> None:
        """The same by the system's Python, where that has Dask."""
        python = "/usr/bin/python3"
        if sys.executable == python or subprocess.run([python, "-c", "import distributed"], capture_output=True).returncode:
            self.skipTest("python3-distributed is not installed")
        done = subprocess.run([python, "-m", "unittest", "front.tests.test_whatif_jobs.Jobs.test_dask"], cwd=ROOT,
                              env={**os.environ, "PYTHONDONTWRITEBYTECODE": "1"}, stdin=subprocess.DEVNULL, stdout=subprocess.PIPE,
                              stderr=subprocess.STDOUT, text=True)
        self.assertEqual(done.returncode, 0, done.stdout)


class Fuzz(unittest.TestCase):
    def test_the_loader_crashes(self) -> None:
        """From two records that are good. What is found crashes a new program, and no event of it can be left out."""
        text = ["20000 0 'S11B0018452C20494E2054574F205245434F5244532E205448452045C4\\r' 1000", "90000 0 'S104000000FB\\r' 1000"]
        good = logs.make(text, "the records")
        guest = brute.image("loader/loader.elf")
        driver = start(guest, good)
        self.addCleanup(driver.close)
        driver.goto(150_000)
        self.assertEqual(driver.console(0), b"loader\r\nok\r\nok\r\n")
        before = brute.of(driver)
        for begin, kept, tries in ((15_000, 0, 1500), (23_500, 4, 100)):
            one = fuzz(driver, Comes(FATAL), begin, 200_000, seed=3, tries=tries)
            brute.kept(self, driver, before)
            self.assertEqual(fuzz(driver, Comes(FATAL), begin, 200_000, seed=3, tries=tries), one)
            if not one.log:
                self.assertEqual((kept, one.tried, one.shrunk), (4, tries, None))
                continue
            assert one.shrunk
            self.assertEqual(one.shrunk.log[:kept], good[:kept])
            with brute.fresh(guest, one.shrunk.log) as alone:
                alone.goto(one.shrunk.position)
                self.assertEqual(alone.registers().pc, FATAL)
            for index in range(kept, len(one.shrunk.log), 5):
                with brute.fresh(guest, brute.without(one.shrunk.log, index)) as alone:
                    alone.goto(200_000)
                    self.assertNotIn(alone.registers().pc, (FATAL, FATAL + 4))

    def test_what_can_not_be_fuzzed(self) -> None:
        driver = start(brute.image(LOGIN), brute.log_of("login"))
        self.addCleanup(driver.close)
        with self.assertRaisesRegex(Problem, "no event from step 120,000 on"):
            fuzz(driver, Comes(0), 120_000, END)
        with self.assertRaisesRegex(Problem, "comes true at step .* already"):
            fuzz(driver, Sends(0, b"Sorry"), 15_000, END)


if __name__ == "__main__":
    unittest.main()
