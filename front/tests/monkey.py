"""A monkey at the page: random gestures of mouse and keys in a real browser, of which many end in odd ways. After each gesture the page, the
desk and the program have the same log, handles are where their events are, and no gesture is left under way. `front/view_monkey` makes
thousands of gestures."""
from __future__ import annotations

import random
from collections import Counter
from typing import Any, Callable, Dict, Optional

from bezhakkom.log import Event
from front.tests import browser as browsers
from front.tests.browser import to
from front.tests.viewed import READY, Hand, PageTest, events_of

ALT, CONTROL, SHIFT = 1, 2, 8  # modifiers in an event of the DevTools protocol
KEYS = ["Tab", "Enter", "Escape", "Delete", "Left", "Right", "Up", "Down", "Home", "End", *"fgk+-,.wxA1"]


class Monkey:
    """Makes gestures on the page of a test. `count` says how many of each kind were made."""

    def __init__(self, test: PageTest, source: random.Random) -> None:
        self._test, self._source = test, source
        self._browser = test.browser
        self.count: Counter[str] = Counter()
        self._gestures: Dict[str, Callable[[], None]] = {
            "drag": self._drag, "odd drag": self._odd_drag, "touch": self._touch, "wheel": self._wheel, "keys": self._keys, "canvas": self._canvas,
            "double click": self._double_click, "undo": self._undo, "other page": self._other_page, "stray move": self._stray_move, "view": self._view,
            "sweep": self._sweep}

    def play(self) -> str:
        """Makes a gesture and checks the page. Returns what was made."""
        name = self._source.choice([*self._gestures, "drag", "odd drag", "keys"])
        self.count[name] += 1
        self._gestures[name]()
        self._check(name)
        return name

    # Gestures

    def _event(self) -> Optional[int]:
        """The number of an event that has a handle."""
        there = self._browser.run("return [...document.querySelectorAll('.event')].filter(it => it.getBoundingClientRect().left < innerWidth - 460)"
                                  ".map(it => +it.dataset.id)")
        return self._source.choice(there) if there else None

    def _pressed(self) -> Optional[tuple[float, float]]:
        event = self._event()
        if event is None:
            return None
        x, y = self._test.place(event)
        self._browser.mouse("mouseMoved", x, y)
        self._browser.mouse("mousePressed", x, y, 1, self._source.choice([0, 0, 0, CONTROL, SHIFT]))
        return x, y

    def _moves(self, x: float, y: float) -> tuple[float, float]:
        for _ in range(self._source.randrange(5)):
            x, y = x + self._source.choice([self._source.randrange(-4, 5), self._source.randrange(-150, 150), 0]), y + self._source.randrange(-6, 7)
            self._browser.mouse("mouseMoved", x, y, 1, self._source.choice([0, 0, SHIFT]))
        return x, y

    def _drag(self) -> None:
        place = self._pressed()
        if place:
            self._browser.mouse("mouseReleased", *self._moves(*place))

    def _odd_drag(self) -> None:
        """A drag in which something comes between."""
        place = self._pressed()
        if not place:
            return
        x, y = self._moves(*place)
        way = self._source.randrange(8)
        if way == 0:
            self._browser.mouse("mouseMoved", x + 50, y)  # the button was released where nobody saw it
        elif way == 1:
            self._browser.keys("Escape")
        elif way == 2:
            self._browser.run("window.dispatchEvent(new Event('blur'))")
        elif way == 3:
            self._browser.run("const it = document.getElementById('events'); for (const id of [1, 2, 3]) if (it.hasPointerCapture(id)) it.releasePointerCapture(id)")
        elif way == 4:
            x = self._source.choice([-300, 5_000])
            self._browser.mouse("mouseMoved", x, y, 1)
        elif way == 5:
            self._other_page()
            self._browser.mouse("mouseMoved", x + 5, y, 1)
        elif way == 6:
            self._browser.keys("z", held=["Control"])
        else:
            self._browser.run("for (let k = 0; k < 6; k++) document.getElementById('closer').click()")  # its handle may be out of view
        self._browser.mouse("mouseMoved", x + 9, y, self._source.randrange(2))
        self._browser.mouse("mouseReleased", x, y)

    def _touch(self) -> None:
        event = self._event()
        if event is None:
            return
        x, y = self._test.place(event)
        for kind in ("touchStart", *["touchMove"] * self._source.randrange(4)):
            self._browser.command("Input.dispatchTouchEvent", type=kind, touchPoints=[{"x": x, "y": y}])
            x += self._source.randrange(-60, 60)
        self._browser.command("Input.dispatchTouchEvent", type=self._source.choice(["touchEnd", "touchCancel"]), touchPoints=[])

    def _wheel(self) -> None:
        event = self._event()
        x, y = self._test.place(event) if event is not None and self._source.random() < 0.7 else (self._source.randrange(170, 800), 150)
        for _ in range(self._source.randrange(1, 4)):
            self._browser.command("Input.dispatchMouseEvent", type="mouseWheel", x=x, y=y, deltaX=self._source.choice([0, 0, 3, -120]),
                                  deltaY=self._source.choice([-120, 120, -4, 4]), modifiers=self._source.choice([0, ALT, ALT, SHIFT]))

    def _keys(self) -> None:
        event = self._event()
        if event is not None and self._source.random() < 0.7:
            self._test.key_on(event)
        for _ in range(self._source.randrange(1, 4)):
            self._browser.keys(self._source.choice(KEYS), held=self._source.choice([[], [], ["Shift"]]))
        self._browser.run("if (!document.getElementById('line').hidden) document.querySelector('#line button').click()")

    def _canvas(self) -> None:
        """A press beside events: the cursor, a pan, or a selection."""
        x, y = self._source.randrange(170, 800), self._source.choice([8, 20, 60, 100, 150])
        top = self._browser.run("return document.getElementById('canvas').getBoundingClientRect().y")
        shift = self._source.choice([0, SHIFT])
        self._browser.mouse("mouseMoved", x, top + y)
        self._browser.mouse("mousePressed", x, top + y, 1, shift)
        self._browser.mouse("mouseReleased", *self._moves(x, top + y))

    def _double_click(self) -> None:
        x, y = self._source.randrange(170, 800), self._test.at(0, "in")[1] + self._source.choice([0, 22])
        self._browser.pointer(to(x, y), *[browsers.DOWN, browsers.UP] * 2)

    def _undo(self) -> None:
        for _ in range(self._source.randrange(1, 4)):
            self._browser.keys("z", held=self._source.choice([["Control"], ["Control"], ["Control", "Shift"]]))

    def _other_page(self) -> None:
        """Another page deletes or moves an event."""
        ids = self._test.desk._now.ids
        if len(ids) < 3:
            return
        self.count["edits of another page"] += 1
        event = self._source.choice(ids)
        edit: Dict[str, Any] = {"do": "delete"} if self._source.random() < 0.5 else {"do": "change", "time": self._source.randrange(self._test.desk.end), "byte": 1}
        Hand(self._test.desk).ask(page="other", edits=[{"number": self.count["edits of another page"], "id": event,
                                                        "gesture": self.count["edits of another page"], **edit}])
        self._browser.run("window.dispatchEvent(new Event('focus'))")

    def _stray_move(self) -> None:
        """The mouse moves without a button, also over events: nothing is edited."""
        log = self._log()
        for _ in range(4):
            self._browser.mouse("mouseMoved", self._source.randrange(0, 1_390), self._source.randrange(0, 500))
        self._test.assertEqual(self._log(), log)

    def _view(self) -> None:
        self._browser.run("document.getElementById(arguments[0]).click()", self._source.choice(["all", "closer", "wider", "show-ghost", "all"]))

    def _sweep(self) -> None:
        self._browser.run("const it = document.getElementById(arguments[0]); if (!it.disabled) it.click()", self._source.choice(["sweep-time", "sweep-value"]))
        if self._source.random() < 0.5:
            self._browser.run("const it = document.querySelector('.outcome'); if (it) it.click()")
        self._browser.run("if (!document.getElementById('stop').hidden) document.getElementById('stop').click()")

    # What holds after each

    def _log(self) -> list[Event]:
        self._browser.waits(f"window.bezhakkom.gesture() === 'idle' && {READY}")
        return list(self._test.desk._now.log)

    def _check(self, name: str) -> None:
        log, test = self._log(), self._test
        test.assertEqual(test.desk._driver.log, log, name)
        test.assertEqual(log, sorted(log, key=lambda it: it.time), name)
        found = self._browser.run("""const b = window.bezhakkom, s = b.s; return {view: s.view, events: s.now.events, end: s.state.end, count: s.state.events,
            pending: s.pending.size, handles: [...document.querySelectorAll('.event')].map(it => [+it.dataset.id, +it.getAttribute('aria-valuenow')])}""")
        view = found["view"]
        test.assertTrue(0 <= view["begin"] < view["end"] <= found["end"], (name, view, found["end"]))
        test.assertEqual(events_of(found["events"]), [it for it in log if view["begin"] <= it.time <= view["end"]], name)
        test.assertEqual((found["count"], found["pending"]), (len(log), 0), name)
        test.assertEqual(sorted(found["handles"]), sorted([it[0], it[1]] for it in found["events"]), name)
        test.assertEqual([it for it in log if it.time >= found["end"]], [], name)
        test.assertEqual(self._browser.errors(), [], name)
