"""What the tests of the page use: a desk on an image, and what a fresh program says of the rows that the page shows."""
from __future__ import annotations

import http.client
import json
import re
import threading
import unittest
from contextlib import contextmanager
from typing import Any, Iterator, Optional, Sequence

from bezhakkom import replies
from bezhakkom.driver import Driver
from bezhakkom.image import Image
from bezhakkom.limits import LINES
from bezhakkom.log import Event, Kind
from bezhakkom.states import registers_at, replies_at
from bezhakkom.symbols import symbols_of
from bezhakkom.view import command
from bezhakkom.view.desk import Desk
from bezhakkom.view.fields import Fields
from bezhakkom.view.server import Server
from front.tests import brute, browser
from front.tests.browser import Browser
from front.tests.support import ROOT

LOGIN = ("--log", str(ROOT / "examples/login/log"), "--words", "session+32", str(ROOT / "examples/login/login.elf"))
DRIVER = ("--log", str(ROOT / "examples/driver/log"), "--words", "0x80000100", str(ROOT / "examples/driver/boot.s"))
BUTTON = ("--log", str(ROOT / "examples/button/log"), str(ROOT / "examples/button/boot.s"))
COLUMNS = 900
LENGTH = 0x1020  # the word session+32 of the login program, by its physical address


@contextmanager
def laid_out(*words: str) -> Iterator[Desk]:
    """A desk on what an argument line opens."""
    with command.laid_out(command.parser().read(words)) as desk:
        yield desk


@contextmanager
def served(desk: Desk) -> Iterator[Server]:
    """A server for a desk, in a thread."""
    server = Server(desk)
    thread = threading.Thread(target=server.serve_forever, args=(0.02,))
    thread.start()
    try:
        yield server
    finally:
        server.shutdown()
        thread.join()
        server.server_close()


def view(begin: int, end: int, columns: int = COLUMNS) -> dict[str, int]:
    return {"begin": begin, "end": end, "columns": columns}


class Hand:
    """Asks a desk as the page does."""

    def __init__(self, desk: Desk) -> None:
        self.desk = desk
        self.edits = 0
        self.gestures = 0

    def ask(self, **what: Any) -> dict[str, Any]:
        return self.desk.answer(Fields(json.loads(json.dumps(what))))

    def edit(self, do: str, *, again: bool = False, **what: Any) -> dict[str, Any]:
        """An edit, in a gesture of its own or in the last one."""
        self.edits += 1
        self.gestures += not again
        return {"number": self.edits, "do": do, "gesture": self.gestures, **what}

    def rested(self, **what: Any) -> dict[str, Any]:
        """What is shown after all that is asked while the hand rests."""
        while True:
            shown = self.ask(rest=True, ghost=True, **what)
            if not shown["more"]:
                return shown


def posted(server: Server, content: Any = None, *, name: str = "ask", **changed: Optional[str]) -> http.client.HTTPResponse:
    """The reply to a request of the page, with some headers changed or left out. `token` and `body` are other ones."""
    token = changed.pop("token", server.token)
    body = changed.pop("body", None)
    method = changed.pop("method", "POST")
    headers = {"Host": server.host, "Origin": server.origin, "Content-Type": "application/json", "Sec-Fetch-Site": "same-origin"}
    if method == "GET":
        del headers["Origin"], headers["Content-Type"]
    text = (body if body is not None else json.dumps(content or {})).encode("utf-8", "surrogateescape")
    headers["Content-Length"] = str(len(text))
    made = {**headers, **{key.replace("_", "-"): value for key, value in changed.items()}}
    connection = http.client.HTTPConnection(*server.host.split(":"), timeout=60)
    try:
        connection.putrequest(str(method), f"/{token}/{name}", skip_host=True, skip_accept_encoding=True)
        for key, value in made.items():
            if value is not None:
                connection.putheader(key, value)
        connection.endheaders(text if method == "POST" else None)
        reply = connection.getresponse()
        reply.content = reply.read()  # type: ignore[attr-defined]
        return reply
    finally:
        connection.close()


# What a fresh program says

def events_of(shown: Sequence[Sequence[int]]) -> list[Event]:
    return [Event(time, line, byte, Kind(kind)) for _, time, line, byte, kind in shown]


def check(test: unittest.TestCase, image: Image, log: Sequence[Event], shown: dict[str, Any], words: Sequence[int] = (),
          exact: bool = True, columns: int = COLUMNS, cursor: Optional[dict[str, Any]] = None) -> list[str]:
    """All that is shown of a past, and of the machine at the cursor, is so in a run from reset with its log. `exact` says that the stores
    into words were followed. Gives what the lines sent."""
    begin, end = shown["begin"], shown["end"]
    with brute.fresh(image, log) as driver:
        test.assertEqual(events_of(shown["events"]), [it for it in log if begin <= it.time <= end])
        names = symbols_of(image)
        functions = shown["functions"]
        states = registers_at(driver, [at for at, _ in functions["at"]])
        for state, (_, name) in zip(states, functions["at"]):
            found = names.at(state.pc)
            test.assertTrue(functions["names"][name].startswith(found[0].name if found else "0x"))
        for place, row in zip(words, shown["words"]):
            _check_word(test, driver, place, row, range(begin, end), exact, columns)
        if cursor:
            _check_cursor(test, driver, cursor, words)
        return [_check_line(test, driver, line, shown, columns) for line in range(LINES)]


def _check_line(test: unittest.TestCase, driver: Driver, line: int, shown: dict[str, Any], columns: int) -> str:
    row = shown["sent"][line]
    driver.goto(shown["until"])
    whole = driver.console(line)
    test.assertEqual(row["whole"], len(whole))
    for first, text in shown["text"][line]:
        test.assertEqual(text, whole[first:first + len(text)].decode("latin-1"))
    test.assertTrue(len(whole) > 16_384 or shown["text"][line][0] == [0, whole.decode("latin-1")])
    steps = [replies.last_number(it) for it in driver.values([f"find {line} {place}" for place in range(len(whole))])]
    test.assertEqual((row["low"], row["high"]), (sum(it < shown["begin"] for it in steps), sum(it < shown["end"] for it in steps)))
    for place, step in row["marks"]:
        test.assertEqual(step, steps[place])
    # Each byte in view is a mark, or stands within a column of one.
    marks = dict(row["marks"])
    width = max(1, (shown["end"] - shown["begin"]) // columns)
    for place in range(row["low"], row["high"]):
        if place not in marks:
            before = max(it for it in marks if it < place)
            after = min(it for it in marks if it > place)
            test.assertLessEqual(steps[after] - steps[before], width)
    return whole.decode("latin-1")


def _check_word(test: unittest.TestCase, driver: Driver, place: int, row: dict[str, Any], view: range, exact: bool, columns: int) -> None:
    shown = sorted([*row["samples"], *([step + 1, value] for step, value in row["stores"])])
    values = replies_at(driver, [at for at, _ in shown], f"mem {place} 1")
    test.assertEqual([value for _, value in shown], [replies.memory(it)[0] for it in values])
    stores, at = [], view.stop
    while at > view.start:  # every store in view, from the last one back
        driver.goto(at)
        step = driver.writer(place).step
        if step is None or step < view.start:
            break
        stores.append(step)
        at = step
    width = max(1, len(view) // columns)
    last = {(it - view.start) // width: it for it in sorted(stores)}
    test.assertEqual([it for it, _ in row["stores"]], sorted(it for it in last.values() if it >= row["exact"]))
    if exact:
        test.assertEqual(row["exact"], view.start)


def _check_cursor(test: unittest.TestCase, driver: Driver, shown: dict[str, Any], words: Sequence[int]) -> None:
    driver.goto(shown["position"])
    state = driver.registers()
    test.assertEqual((shown["pc"], shown["registers"], shown["hi"], shown["lo"]), (state.pc, state.general, state.hi, state.lo))
    test.assertEqual(shown["control"], driver.control())
    test.assertEqual(shown["words"], [driver.words(it, 1)[0] for it in words])
    test.assertEqual(shown["sent"], [driver.sent(line) for line in range(LINES)])


# The page in a browser

# The page is at rest. While it only waits for the hand, it need not wait.
READY = "window.bezhakkom && window.bezhakkom.s.now && (window.bezhakkom.rest(), !window.bezhakkom.isBusy())"


class PageTest(unittest.TestCase):
    """Tests of the page in a real browser. All tests of a class share one, and classes run side by side: one takes less than half a minute."""

    browser: Browser
    desk: Desk

    @classmethod
    def setUpClass(cls) -> None:
        if not browser.is_here():
            raise unittest.SkipTest(browser.WANTED)
        cls.browser = Browser()
        cls.addClassCleanup(cls.browser.close)

    @contextmanager
    def page(self, *words: str) -> Iterator[None]:
        """The page on what a line opens, at rest."""
        with laid_out(*words) as self.desk, served(self.desk) as server:
            self.browser.go(server.address)
            self.rest()
            yield
            self.rest()
            self.assertEqual(self.browser.errors(), [])
            self.browser.go("about:blank")

    def rest(self) -> None:
        self.browser.waits(READY)

    def place(self, event: int) -> tuple[float, float]:
        """Where the handle of an event is."""
        x, y = self.browser.run("const it = window.bezhakkom.handle(arguments[0]).getBoundingClientRect(); return [it.x + 2, it.y + 9]", event)
        return x, y

    def at(self, step: int, kind: str) -> tuple[float, float]:
        """Where a step is on the first row of a kind."""
        x, y = self.browser.run("""const b = window.bezhakkom, box = document.getElementById('canvas').getBoundingClientRect();
            return [box.x + b.X(arguments[0]), box.y + b.rows().find(it => it.kind === arguments[1]).y + 10]""", step, kind)
        return x, y

    def shown(self) -> dict[str, Any]:
        self.rest()
        found: dict[str, Any] = self.browser.run("""const s = window.bezhakkom.s; return {now: s.now, at: s.at, ghost: s.ghost, state: s.state,
            columns: document.getElementById('canvas').clientWidth - 270}""")
        return found

    def log(self) -> list[Event]:
        return events_of(self.shown()["now"]["events"])

    def check(self, name: str, log: Sequence[Event], words: Sequence[int] = (), exact: bool = True) -> None:
        """The page shows a log, and what a fresh program does with it: its rows, its handles, its console and the machine."""
        shown = self.shown()
        image = brute.image(name)
        sent = check(self, image, log, shown["now"], words, exact, shown["columns"], shown["at"])
        handles = self.browser.run("return [...document.querySelectorAll('.event')].map(it => [+it.dataset.id, +it.getAttribute('aria-valuenow')])")
        self.assertEqual(sorted(handles), sorted([it[0], it[1]] for it in shown["now"]["events"]))
        self.assertEqual([it[1] for it in handles], sorted(it[1] for it in handles))  # Tab goes along time
        shown_there = self.browser.run("return Object.fromEntries([...document.querySelectorAll('#consoles section')].map(it => [it.dataset.line, it.children[1].textContent]))")
        for line, content in enumerate(sent):
            if content and len(content) < 16_000:
                plain = re.sub(r"[^\n\t\x20-\x7e]", lambda it: {8: "\\b", 27: "\\e"}.get(ord(it[0]), f"\\x{ord(it[0]):02x}"), content.replace("\r", ""))
                self.assertEqual(shown_there[str(line)], plain)

    def text(self, element: str) -> str:
        return str(self.browser.run("return document.getElementById(arguments[0]).textContent", element))

    def click(self, selector: str) -> None:
        self.browser.run("document.querySelector(arguments[0]).click()", selector)

    def key_on(self, event: int, *keys: str, held: Sequence[str] = ()) -> None:
        """Presses keys on an event that gets the focus after a key, as Tab gives it."""
        self.browser.keys("Shift")
        self.browser.run("window.bezhakkom.handle(arguments[0]).focus()", event)
        self.browser.keys(*keys, held=held)


# Pictures

PICTURE = "window.bezhakkom.picture().then(arguments[arguments.length - 1])"


def pictures(chromium: Browser) -> dict[str, str]:
    """The pictures of docs/VIEW.md, as the page saves them: a backspace that was moved from step 40,000 to 55,663, and a sweep of it."""
    made = {}
    with laid_out(*LOGIN) as desk, served(desk) as server:
        hand = Hand(desk)
        hand.ask(edits=[hand.edit("change", id=2, time=55_663, byte=8)])
        chromium.go(server.address)
        chromium.waits(READY)
        chromium.run("window.bezhakkom.s.cursor = 55694")
        made["view.svg"] = chromium.later(PICTURE)
        chromium.waits(READY)
        chromium.run("window.bezhakkom.s.width = 1100; window.bezhakkom.handle(2).focus(); document.getElementById('sweep-time').click()")
        chromium.waits("window.bezhakkom.s.sweep && window.bezhakkom.s.sweep.took")
        made["view-sweep.svg"] = chromium.later(PICTURE)
        chromium.go("about:blank")
    return made
