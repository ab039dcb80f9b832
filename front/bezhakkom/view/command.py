"""`bin/wb view`: the words of its line."""
from __future__ import annotations

import signal
import threading
import webbrowser
from argparse import Namespace
from contextlib import contextmanager
from typing import Any, Iterator, Optional, Sequence

from .. import loading, rescue, saved
from ..arguments import Parser, natural
from ..driver import Driver
from ..errors import Problem
from ..installed import NAME
from ..limits import GREATEST_POSITION, SPAN
from ..progress import on_terminal
from .desk import Desk
from .server import Server

DESCRIPTION = """\
A page on which the past is dragged. It shows a run as rows over time: bytes received and sent, levels of external
lines, values of words, and functions. What is moved there with the mouse or by keys is an edit of the log, and what
comes of it is shown at once. The page's address is written to standard output. It ends with the page, or by Ctrl-C.
"""

EPILOG = f"""\
Example:

  {NAME} view --log examples/login/log --words session+32 examples/login/login.elf

The keys of the page are on docs/VIEW.md.
"""
AFTER = SPAN  # steps that are shown after the last event, where no end is named


def parser() -> Parser:
    made = Parser("view", "[OPTIONS] [--to N] [--words NAME,..] [--port N] [--open] IMAGE", DESCRIPTION, EPILOG)
    made.add_argument("image", metavar="IMAGE", help="what the machine starts from, or a session that `save` made")
    made.add_argument("--to", metavar="N", type=natural, help="the run's end, which is put on a multiple of 65,536; without it some steps "
                                                              "after the last event")
    made.add_argument("--words", metavar="NAME,..", default="",
                      help="words of memory that have rows: symbols, also with a number of bytes after them, or addresses")
    made.add_argument("--port", metavar="N", type=natural, default=0, help="the port of the page on 127.0.0.1; without it a free one")
    made.add_argument("--open", action="store_true", help="opens the page in the browser of this desktop")
    loading.add_options(made)
    return made


def main(arguments: Sequence[str]) -> int:
    line = parser().read(arguments)
    if not 0 <= line.port < 65_536:
        raise Problem("--port wants a number from 0 to 65,535")
    with laid_out(line) as desk, rescue.kept(desk.unsaved_session, line.image) as reason:
        reason.text = "ended by an error"
        reason.text = serve(desk, line.port, line.open)
    return 0


@contextmanager
def laid_out(line: Namespace) -> Iterator[Desk]:
    """A desk on what a line opens."""
    with saved.opened(loading.Opening.of(line, line.image)) as found, loading.running(found.opening, on_terminal()) as driver:
        driver.values(found.edits())
        desk = Desk(driver, found, end_of(driver, line.to))
        try:
            desk.name_words([name for name in line.words.split(",") if name])
            driver.report = None  # from here on the page shows how far it is
            yield desk
        finally:
            desk.close()


def end_of(driver: Driver, wanted: Optional[int]) -> int:
    """The run's end, on a span: nothing is run for a question there."""
    if wanted is None:
        wanted = max(2 * SPAN, driver.position, driver.log[-1].time + AFTER if driver.log else 0)
    if not 0 < wanted <= GREATEST_POSITION:
        raise Problem(f"--to wants a position from 1 to {GREATEST_POSITION:,}")
    return min(-(-wanted // SPAN) * SPAN, GREATEST_POSITION // SPAN * SPAN)


def serve(desk: Desk, port: int, is_opened: bool) -> str:
    """Serves the page until it is left, or Ctrl-C. Returns which of them it was."""
    server = Server(desk, port)
    reason = "the last page was closed"

    def press(number: int, frame: Any) -> None:
        nonlocal reason
        reason = "ended by Ctrl-C"
        threading.Thread(target=server.shutdown, daemon=True).start()  # it waits for the loop that this signal is in

    before = signal.signal(signal.SIGINT, press)
    try:
        print(server.address, flush=True)
        if is_opened:
            webbrowser.open(server.address)
        server.serve_forever(0.1)
    finally:
        signal.signal(signal.SIGINT, before)
        server.server_close()
    return reason
