"""The same questions in several processes, each with its own program and the same past. Any executor will do; the answers are those of
one process, in the same order."""
from __future__ import annotations

import signal
import threading
from collections import deque
from concurrent.futures import Executor, Future, wait
from contextlib import contextmanager
from itertools import count
from typing import Any, Deque, Iterator, List, Optional, Sequence, Tuple

from .. import log as logs
from ..driver import Driver
from ..errors import Interrupted
from ..image import Image
from . import pasts
from .pasts import Case

_CHUNK = 64  # cases that a job is given at a time, at most
_FEW = 4  # so many jobs get as few as 2, the next ones twice as many, and so on: the first answers may be all that is wanted
_SECONDS = 0.25  # after which it hands back what it has, so that Ctrl-C is heard
_AHEAD = 64  # chunks that are given out together
_GLANCE = 0.05  # how often it is looked whether all is to end, in seconds

_here = threading.local()  # the driver of a thread, and the image that it is on


@contextmanager
def pool(jobs: int) -> Iterator[Optional[Executor]]:
    """An executor of so many processes on this machine, or None for one job, which this process does."""
    if jobs < 2:
        yield None
        return
    # Each start of a front end would take longer, were these imported above.
    import multiprocessing
    from concurrent.futures import ProcessPoolExecutor

    # A fork has the modules. A new Python would have to find them, and the main module is no file of its own.
    made = ProcessPoolExecutor(jobs, multiprocessing.get_context("fork"), _ignore_ctrl_c)
    try:
        yield made
    finally:
        made.shutdown(cancel_futures=True)


def _ignore_ctrl_c() -> None:
    signal.signal(signal.SIGINT, signal.SIG_IGN)


def answers(driver: Driver, cases: Sequence[Case], executor: Optional[Executor] = None) -> Iterator[Any]:
    """The answers in cases, in their order."""
    return pasts.answers(driver, cases) if executor is None else _spread(driver, cases, executor)


def _spread(driver: Driver, cases: Sequence[Case], executor: Executor) -> Iterator[Any]:
    kind, content = ("image", driver.boot().write()) if driver.patches else (driver.image.kind, driver.image.content)
    image = Image(driver.image.name, kind, content)
    log = logs.write(driver.log)

    def given(chunk: Sequence[Case]) -> Tuple[Sequence[Case], Future[List[Any]]]:
        return chunk, executor.submit(_answered, image, log, chunk)

    chunks = _chunks(cases)
    under_way: Deque[Tuple[Sequence[Case], Future[List[Any]]]] = deque()
    try:
        while True:
            while len(under_way) < _AHEAD and (chunk := next(chunks, None)):
                under_way.append(given(chunk))
            if not under_way:
                return
            chunk, future = under_way[0]
            while not wait([future], _GLANCE).done:
                if driver.wants_stop():
                    raise Interrupted()
            under_way.popleft()
            found = future.result()
            if len(found) < len(chunk):
                under_way.appendleft(given(chunk[len(found):]))
            yield from found
    finally:
        for _, future in under_way:
            future.cancel()


def _chunks(cases: Sequence[Case]) -> Iterator[Sequence[Case]]:
    first = 0
    for number in count():
        size = min(2 << number // _FEW, _CHUNK)
        if first >= len(cases):
            return
        yield cases[first:first + size]
        first += size


def _answered(image: Image, log: bytes, cases: Sequence[Case]) -> list[Any]:
    """The answers in the first cases, as many as take little time, in a process of an executor. Its program stays, with what it has
    run, for the next ones."""
    driver = _driver(image)
    driver.values(logs.changes(driver.log, logs.read(log, "the log")))
    return list(pasts.answers(driver, cases, _SECONDS))


def _driver(image: Image) -> Driver:
    """The driver of this thread, on an image."""
    if getattr(_here, "image", None) != image:
        close()
        _here.driver, _here.image = Driver.start(image), image
    driver: Driver = _here.driver
    del driver.journal[:]
    return driver


def close() -> None:
    """Ends the program of this thread, for executors whose threads stay. A process that ends does so by itself."""
    if hasattr(_here, "driver"):
        _here.driver.close()
        del _here.driver, _here.image
