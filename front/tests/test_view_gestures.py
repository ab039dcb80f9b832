"""Gestures of the page in a real browser: every way in which one ends, and what is no gesture. The login program's log has a backspace,
event 2, at step 40,000; a view of the whole run has 196,608 steps."""
from __future__ import annotations

import random
import time
from typing import Any

from bezhakkom.log import Event
from front.tests import brute
from front.tests.monkey import Monkey
from front.tests.viewed import LENGTH, LOGIN, Hand, PageTest

ALT = 1  # the modifier in an event of the DevTools protocol
END = 196_608
SEED = 79
WORDS = ("--to", str(END), *LOGIN)


class GestureTest(PageTest):
    def setUp(self) -> None:
        self.log_before = brute.log_of("login")

    def state(self) -> str:
        return str(self.browser.run("return window.bezhakkom.gesture()"))

    def hold(self, by: float, event: int = 2) -> tuple[float, float]:
        """Presses the button on an event and drags it some pixels. Returns where the mouse is then."""
        x, y = self.place(event)
        self.browser.mouse("mouseMoved", x, y)
        self.browser.mouse("mousePressed", x, y, 1)
        self.browser.mouse("mouseMoved", x + by, y, 1)
        return x + by, y

    def time(self, event: int = 2) -> int:
        return next(int(it[1]) for it in self.shown()["now"]["events"] if it[0] == event)

    def ended(self, x: float, y: float) -> None:
        """The gesture is over: the machine is idle, and the mouse moves no event, whether the button is up or comes up now."""
        log = self.log()
        self.assertEqual(self.state(), "idle")
        for kind, buttons in (("mouseMoved", 1), ("mouseReleased", 0), ("mouseMoved", 0)):
            x += 37
            self.browser.mouse(kind, x, y, buttons)
        self.assertEqual(self.log(), log)
        self.assertEqual(self.state(), "idle")

    def moved(self) -> int:
        """Event 2 was moved in one step of undo, and nothing else changed. Returns its step."""
        time = self.time()
        self.assertNotEqual(time, 40_000)
        self.check("login/login.elf", brute.moved(self.log_before, 2, time), [LENGTH])
        self.browser.keys("z", held=["Control"])
        self.assertEqual(self.log(), self.log_before)
        self.assertIsNone(self.shown()["state"]["undo"])
        return time

    def wheel(self, event: int, down: float, across: float = 0, modifiers: int = 0) -> None:
        x, y = self.place(event)
        self.browser.command("Input.dispatchMouseEvent", type="mouseWheel", x=x, y=y, deltaX=across, deltaY=down, modifiers=modifiers)

    def focused(self) -> Any:
        """The number of the focused event, or None if the timeline has the focus."""
        return self.browser.run("const it = document.activeElement; return it.id === 'canvas' ? null : it.dataset.id")


class Ends(GestureTest):
    """The ways in which a gesture ends."""

    def test_release_outside_the_window_ends_the_drag_at_the_edge_of_the_run(self) -> None:
        with self.page(*WORDS):
            for x, step in ((-400, 0), (9_000, END - 1)):
                _, y = self.hold(50)
                self.browser.mouse("mouseMoved", x, y, 1)
                self.browser.mouse("mouseReleased", x, y)
                self.ended(300, y)
                self.assertEqual(self.moved(), step)

    def test_drag_out_of_view_removes_the_handle_and_ends_with_the_button(self) -> None:
        with self.page(*WORDS):
            self.browser.run("window.bezhakkom.s.view = {begin: 0, end: 65536}; window.bezhakkom.ask({draw: true, live: true})")
            self.rest()
            x, y = self.hold(20)
            x += 600
            self.browser.mouse("mouseMoved", x, y, 1)
            self.browser.waits("!window.bezhakkom.handle(2)")
            self.assertEqual(self.state(), "dragging")
            self.browser.mouse("mouseReleased", x, y)
            for at in (x - 100, x - 300):
                self.browser.mouse("mouseMoved", at, y)
            self.assertEqual(self.state(), "idle")
            self.browser.keys("f")
            self.assertGreater(self.moved(), 65_536)

    def test_event_deleted_on_another_page_ends_the_drag_and_the_refusal_stays_visible(self) -> None:
        with self.page(*WORDS):
            x, y = self.hold(30)
            self.rest()
            Hand(self.desk).ask(page="other", edits=[Hand(self.desk).edit("delete", id=2)])
            self.browser.mouse("mouseMoved", x + 20, y, 1)
            self.browser.waits("window.bezhakkom.gesture() === 'idle'")
            self.rest()
            self.ended(x, y)
            # What came of the edits of the other page is said, and does not replace the refusal.
            self.assertRegex(self.text("problem"), "the event was deleted meanwhile, so it was not edited")
            self.assertRegex(self.text("said"), "where the other past sends")
            self.check("login/login.elf", brute.without(self.log_before, 2), [LENGTH])
            self.browser.keys("g")
            self.assertEqual(self.text("problem"), "")

    def test_move_without_the_button_ends_the_drag_where_it_was(self) -> None:
        with self.page(*WORDS):
            x, y = self.hold(50)
            time = self.time()
            self.browser.mouse("mouseMoved", x + 90, y)
            self.assertEqual(self.time(), time)
            self.ended(x, y)
            self.assertEqual(self.moved(), time)

    def test_escape_cancels_the_drag_and_keeps_redo(self) -> None:
        with self.page(*WORDS):
            self.key_on(1, "Right")
            self.browser.keys("z", held=["Control"])
            before = self.shown()
            self.assertIsNotNone(before["state"]["redo"])
            x, y = self.hold(60)
            self.assertNotEqual(self.time(), 40_000)
            self.browser.keys("Escape")
            self.ended(x, y)
            after = self.shown()
            self.assertEqual((after["now"]["events"], after["state"], after["ghost"]), (before["now"]["events"], before["state"], before["ghost"]))
            self.check("login/login.elf", self.log_before, [LENGTH])
            self.browser.keys("z", held=["Control", "Shift"])
            self.assertEqual(self.log(), brute.moved(self.log_before, 1, 30_001))

    def test_escape_leaves_the_order_of_events_of_one_step(self) -> None:
        """Events 1 and 2 are in one step. When event 1 is dragged and comes back, it is not behind event 2."""
        with self.page(*WORDS):
            Hand(self.desk).ask(edits=[Hand(self.desk).edit("change", id=2, time=30_000, byte=0x79)])
            self.browser.run("window.dispatchEvent(new Event('focus'))")
            log = self.log()
            self.assertEqual(log[1:3], [Event(30_000, 0, 8), Event(30_000, 0, 0x79)])
            self.hold(60, 1)
            self.browser.keys("Escape")
            self.assertEqual(self.log(), log)

    def test_pointercancel_ends_the_drag(self) -> None:
        with self.page(*WORDS):
            x, y = self.place(2)
            for kind, at in (("touchStart", x), ("touchMove", x + 30), ("touchMove", x + 60)):
                self.browser.command("Input.dispatchTouchEvent", type=kind, touchPoints=[{"x": at, "y": y}])
            self.assertEqual(self.state(), "dragging")
            self.browser.command("Input.dispatchTouchEvent", type="touchCancel", touchPoints=[])
            self.ended(x, y)
            self.moved()

    def test_lost_capture_ends_the_drag(self) -> None:
        with self.page(*WORDS):
            self.browser.run("addEventListener('pointerdown', event => { window.pressed = event.pointerId; }, true)")
            x, y = self.hold(50)
            self.browser.run("document.getElementById('events').releasePointerCapture(window.pressed)")
            self.browser.mouse("mouseMoved", x + 10, y, 1)  # the browser takes the capture away before the next event
            self.ended(x, y)
            self.moved()

    def test_blur_ends_the_drag(self) -> None:
        with self.page(*WORDS):
            x, y = self.hold(50)
            self.browser.run("window.dispatchEvent(new Event('blur'))")
            self.ended(x, y)
            self.moved()

    def test_another_key_ends_the_drag_and_does_what_it_does(self) -> None:
        with self.page(*WORDS):
            x, y = self.hold(50)
            self.browser.keys("z", held=["Control"])
            self.ended(x, y)
            self.assertEqual(self.log(), self.log_before)

    def test_escape_cancels_the_cursor_the_view_and_a_selection(self) -> None:
        with self.page(*WORDS):
            self.browser.run("window.bezhakkom.s.view = {begin: 0, end: 65536}; window.bezhakkom.s.cursor = 777; window.bezhakkom.ask({draw: true})")
            self.rest()
            x, y = self.at(46_000, "in")
            for top, modifiers in ((y + 80, 0), (self.browser.run("return document.getElementById('canvas').getBoundingClientRect().y") + 8, 0), (y + 14, 8)):
                found = "const s = window.bezhakkom.s; return [s.cursor, s.view, [...s.selected]]"
                before = self.browser.run(found)
                self.browser.mouse("mousePressed", x, top, 1, modifiers)
                self.browser.mouse("mouseMoved", x - 150, top, 1, modifiers)
                self.assertNotEqual(self.browser.run(found), before)
                self.browser.keys("Escape")
                self.browser.mouse("mouseMoved", x - 300, top, 1, modifiers)
                self.assertEqual(self.browser.run(found), before)
                self.browser.mouse("mouseReleased", x - 300, top)
            self.assertEqual(self.log(), self.log_before[:5])

    def test_several_events_stop_at_the_edges_and_keep_their_distances(self) -> None:
        with self.page(*WORDS):
            for far, first in ((-2_000, 0), (2_000, END - 1 - 10_000)):
                self.browser.run("const s = window.bezhakkom.s; s.selected = new Set([1, 2])")
                x, y = self.hold(far)
                self.browser.mouse("mouseReleased", x, y)
                self.assertEqual((self.time(1), self.time(2)), (first, first + 10_000))
                self.browser.keys("z", held=["Control"])
                self.assertEqual(self.log(), self.log_before)


class Inputs(GestureTest):
    """What begins a gesture, and what does not."""

    def test_press_that_wobbles_less_than_4_pixels_moves_nothing(self) -> None:
        with self.page(*WORDS):
            x, y = self.hold(3)
            self.browser.mouse("mouseMoved", x - 6, y + 9, 1)
            self.assertEqual(self.state(), "pressed")
            self.browser.mouse("mouseReleased", x - 6, y + 9)
            self.assertEqual((self.log(), self.shown()["state"]["undo"]), (self.log_before, None))
            x, y = self.hold(4)
            self.browser.mouse("mouseReleased", x, y)
            self.assertEqual(self.moved(), 40_000 + round(4 * END / self.shown()["columns"]))
            # A click near a mark puts the cursor on it, and a wobble does not take it away.
            x, y = self.at(50_000, "in")
            self.browser.mouse("mousePressed", x + 1, y + 24, 1)
            self.browser.mouse("mouseMoved", x + 3, y + 24, 1)
            self.browser.mouse("mouseReleased", x + 3, y + 24)
            self.assertEqual(self.shown()["at"]["position"], 50_000)

    def test_wheel_over_an_event_zooms(self) -> None:
        with self.page(*WORDS):
            for down, across in ((-120, 0), (120, 0), (0, 120), (0, -120), *[(4, 1)] * 10):
                self.wheel(2, down, across)
            view = self.browser.run("return window.bezhakkom.s.view")
            self.assertEqual((self.log(), self.shown()["state"]["undo"]), (self.log_before, None))
            self.wheel(2, -120)
            after = self.browser.run("return window.bezhakkom.s.view")
            self.assertLess(after["end"] - after["begin"], view["end"] - view["begin"])

    def test_wheel_with_alt_changes_the_value_once_a_notch(self) -> None:
        with self.page(*WORDS):
            # A notch, ten moves of a trackpad with 40 pixels in all, and a wheel across.
            for wheels, byte in (([(-120, 0)], 9), ([(-4, 0)] * 10, 10), ([(0, 120)] * 5, 10)):
                for down, across in wheels:
                    self.wheel(2, down, across, ALT)
                self.browser.waits("window.bezhakkom.gesture() === 'idle'")
                self.assertEqual(self.log(), brute.with_byte(self.log_before, 2, byte))
            self.wheel(2, 120, modifiers=ALT)
            self.wheel(2, 120, modifiers=ALT)
            self.browser.keys("Escape")
            self.assertEqual(self.log()[2].byte, 10)
            self.browser.keys("z", "z", held=["Control"])
            self.assertEqual((self.log(), self.shown()["state"]["undo"]), (self.log_before, None))

    def test_characters_edit_only_an_event_that_a_key_gave_the_focus(self) -> None:
        with self.page(*WORDS):
            self.browser.run("window.bezhakkom.s.view = {begin: 0, end: 65536}; window.bezhakkom.ask({draw: true, live: true})")
            self.rest()
            self.browser.click(*self.place(2))
            self.assertEqual(self.focused(), "2")
            self.browser.keys("f")
            self.assertEqual((self.log(), self.browser.run("return window.bezhakkom.s.view.end")), (self.log_before, END))
            # Other keys do what they do on events.
            self.browser.keys("Right")
            self.assertEqual(self.log(), brute.moved(self.log_before, 2, 40_001))
            self.browser.keys("z", held=["Control"])
            self.browser.run("window.bezhakkom.handle(1).focus()")
            self.browser.keys("Tab", "f")
            self.assertEqual(self.log(), brute.with_byte(self.log_before, 2, ord("f")))
            # A press takes that away again.
            self.browser.click(*self.place(2))
            self.browser.keys("u")
            self.assertEqual(self.log()[2].byte, ord("f"))

    def test_clicked_event_takes_no_characters_after_keys_moved_it_past_another(self) -> None:
        """Its handle is then another one in the order of Tab."""
        with self.page(*WORDS):
            self.browser.click(*self.place(2))
            self.browser.keys(*["Right"] * 5, held=["Shift"])
            log = self.log()
            self.assertGreater(log[3].time, 50_000)
            self.browser.keys("u")
            self.assertEqual((self.log(), self.focused()), (log, "2"))
            self.browser.keys("Tab")
            self.assertEqual(self.focused(), "4")


class Selected(GestureTest):
    """The focus and the selection after gestures."""

    def test_selected_events_out_of_view_move_and_go_with_the_others(self) -> None:
        with self.page(*WORDS):
            self.browser.run("const s = window.bezhakkom.s; s.selected = new Set([1, 2, 9]); s.view = {begin: 35000, end: 45000}; window.bezhakkom.ask({draw: true, live: true})")
            self.rest()
            x, y = self.hold(100)
            self.browser.mouse("mouseReleased", x, y)
            self.browser.keys("f")
            by = self.time() - 40_000
            self.assertEqual(by, round(100 * 10_000 / self.shown()["columns"]))
            self.assertEqual([it.time for it in self.log()], [it.time + by * (at in (1, 2, 9)) for at, it in enumerate(self.log_before)])
            self.browser.run("window.bezhakkom.s.view = {begin: 35000, end: 45000}; window.bezhakkom.ask({draw: true, live: true})")
            self.rest()
            self.browser.keys("Delete")
            self.assertEqual(self.shown()["state"]["events"], 7)

    def test_drag_gives_the_focus_to_the_timeline(self) -> None:
        with self.page(*WORDS):
            x, y = self.hold(50)
            self.browser.mouse("mouseReleased", x, y)
            log = self.log()
            self.assertEqual(self.focused(), None)
            self.browser.keys("+", "f")
            self.assertEqual(self.log(), log)
            # What was dragged is still selected.
            self.browser.keys("Delete")
            self.assertEqual(self.log(), brute.without(self.log_before, 2))
            self.browser.keys("Delete")
            self.assertEqual(len(self.log()), 9)

    def test_event_that_a_double_click_inserts_takes_no_characters(self) -> None:
        with self.page(*WORDS):
            x, y = self.at(150_000, "in")
            self.browser.click(x, y, times=2)
            log = self.log()
            self.assertEqual(len(log), 11)
            self.browser.waits("document.activeElement.classList.contains('event')")
            self.browser.keys("f")
            self.assertEqual(self.log(), log)

    def test_ctrl_click_takes_an_event_out_of_the_selection(self) -> None:
        with self.page(*WORDS):
            self.browser.run("window.bezhakkom.s.selected = new Set([1, 2])")
            for wanted in ([1], [1, 2]):
                x, y = self.place(2)
                self.browser.mouse("mousePressed", x, y, 1, 2)
                self.browser.mouse("mouseReleased", x, y, 0, 2)
                self.assertEqual(self.browser.run("return [...window.bezhakkom.s.selected]"), wanted)

    def test_text_typed_at_the_end_runs_on(self) -> None:
        with self.page(*WORDS):
            self.browser.run("document.getElementById('canvas').focus()")
            self.browser.keys("End", "Enter", *"ab", "Enter")
            self.rest()
            state = self.shown()["state"]
            self.assertEqual((state["events"], state["end"]), (12, END + 65_536))
            self.browser.keys("f")
            self.assertEqual(self.log()[10:], [Event(END, 0, 0x61), Event(END + 1_000, 0, 0x62)])


class AtRandom(GestureTest):
    """All of it at random."""

    def test_random_gestures_leave_page_desk_and_program_with_one_log(self) -> None:
        """For 8 seconds of gestures that a seed chooses. `front/view_monkey` makes thousands."""
        end = time.monotonic() + 8
        with self.page(*WORDS):
            monkey = Monkey(self, random.Random(SEED))
            while time.monotonic() < end:
                monkey.play()
