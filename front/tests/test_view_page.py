"""The page in a real browser: after each gesture it shows what a run from reset with its log does."""
from __future__ import annotations

import random
import tempfile
import threading
import unittest
from pathlib import Path
from unittest import mock
from xml.etree import ElementTree

from bezhakkom import log as logs
from bezhakkom.log import Event
from front.tests import browser as browsers
from front.tests import brute, viewed
from front.tests.browser import to
from front.tests.support import needs_kinds
from front.tests.viewed import BUTTON, DRIVER, LENGTH, LOGIN, READY, Hand, PageTest

SEED = 78


class Editing(PageTest):
    """Edits of events by the mouse and by keys."""

    def test_drags(self) -> None:
        """A backspace is dragged, at 16 milliseconds and without gaps. Each drag is one step of undo."""
        log = brute.log_of("login")
        with self.page(*LOGIN):
            self.check("login/login.elf", log, [LENGTH])
            for wait in (16, 0):
                self.browser.run("window.bezhakkom.s.samples = 12")  # as if the guest were slow
                x, y = self.place(2)
                self.browser.drag(x, y, [(x + 5 * it, y) for it in range(1, 25)], wait)
                moved = next(it for it in self.shown()["now"]["events"] if it[0] == 2)
                self.assertGreater(moved[1], 60_000)
                self.check("login/login.elf", brute.moved(log, 2, moved[1]), [LENGTH])
                self.assertEqual(viewed.events_of(self.shown()["ghost"]["events"]), log)
                self.assertEqual(len(self.shown()["now"]["functions"]["at"]), 96)  # at rest all places are looked at
                self.assertRegex(self.browser.run("return document.getElementById('said').textContent"), "^Line 0 sends '.*' where the other past sends '")
                self.browser.keys("z", held=["Control"])
                self.check("login/login.elf", log, [LENGTH])
                self.assertIsNone(self.shown()["state"]["undo"])

    def test_random_gestures(self) -> None:
        """Moves, turns, characters, insertions, deletions and undos, each checked against a fresh program."""
        source = random.Random(SEED)
        log = brute.log_of("login")
        pasts = [log]
        with self.page(*LOGIN):
            for turn in range(6):
                events = self.shown()["now"]["events"]
                one = source.choice(events)
                do = source.choice(["drag", "wheel", "type", "insert", "delete", "undo"])
                if do == "undo":
                    self.browser.keys("z", held=["Control"])
                    pasts = pasts[:-1] or pasts
                else:
                    if do == "drag":
                        x, y = self.place(one[0])
                        self.browser.drag(x, y, [(x + source.randrange(-40, 60), y) for _ in range(5)] + [(x + 37, y)])
                    elif do == "wheel":
                        self.browser.wheel(*self.place(one[0]), source.choice([-120, 120]))
                    elif do == "type":
                        self.key_on(one[0], source.choice("ABu"))
                    elif do == "insert":
                        self.browser.click(*self.at(source.randrange(120_000, 190_000), "in"), times=2)
                    else:
                        self.key_on(one[0], "Delete")
                    pasts.append(self.log())
                self.assertEqual(self.log(), pasts[-1], (turn, do))
                self.check("login/login.elf", pasts[-1], [LENGTH])

    def test_keys(self) -> None:
        """Tab goes through events. On one, arrows move and turn it, and letters are values; elsewhere they are commands."""
        log = brute.log_of("login")
        with self.page(*LOGIN):
            self.browser.run("window.bezhakkom.handle(0).focus()")
            self.browser.keys("Tab", "Tab")
            self.assertEqual(self.browser.run("return document.activeElement.dataset.id"), "2")
            self.browser.keys("Right", "Right", "Left", "Up")
            self.assertEqual(self.log()[2], Event(40_001, 0, 9))
            self.browser.keys("u")
            self.assertEqual(self.log()[2], Event(40_001, 0, ord("u")))
            self.browser.keys("Delete")
            self.check("login/login.elf", brute.without(log, 2), [LENGTH])
            while self.shown()["state"]["undo"] is not None:
                self.browser.keys("z", held=["Control"])
            self.check("login/login.elf", log, [LENGTH])
            self.browser.keys("z", held=["Control", "Shift"])
            self.assertNotEqual(self.log(), log)
            self.browser.keys("z", held=["Control"])
            # Enter begins a text in the event's place, with more bytes after it.
            self.key_on(0, "Enter")
            self.browser.keys("a", "\\", "x", "0", "1", "é", "Enter")
            self.rest()
            self.assertEqual(self.log()[:3], [Event(20_000, 0, 0x61), Event(21_000, 0, 1), Event(22_000, 0, 0xE9)])
            self.browser.keys("z", held=["Control"])
            self.assertEqual(self.log(), log)
            self.key_on(0, "Escape")
            self.assertEqual(self.browser.run("return document.activeElement.id"), "canvas")
            self.browser.keys("Home", "Right", "Right")
            self.assertEqual(self.shown()["at"]["position"], 2)
            self.browser.keys(".")
            # The first line of start.S makes two instructions, and so do all that follow: `la`.
            self.browser.waits(f"window.bezhakkom.s.at.position === 4 && {READY}")
            self.browser.keys("g")
            self.assertFalse(self.browser.run("return document.getElementById('show-ghost').checked"))
            self.browser.keys("g")
            self.assertEqual(self.log(), log)

    def test_several_events(self) -> None:
        log = brute.log_of("login")
        with self.page(*LOGIN):
            (x, y), (low, _), (high, _) = self.place(1), self.at(25_000, "in"), self.at(45_000, "in")
            self.browser.acts({"type": "key", "id": "keys", "actions": [{"type": "keyDown", "value": browsers.KEYS["Shift"]}, *[{"type": "pause"}] * 4,
                                                                       {"type": "keyUp", "value": browsers.KEYS["Shift"]}]},
                              {"type": "pointer", "id": "mouse", "parameters": {"pointerType": "mouse"},
                               "actions": [{"type": "pause"}, to(low, y + 14), browsers.DOWN, to(high, y + 14), browsers.UP, {"type": "pause"}]})
            self.assertEqual(self.browser.run("return document.querySelectorAll('.event.selected').length"), 2)
            self.browser.drag(x, y, [(x + 3, y), (x + 9, y)])
            found = self.log()
            by = next(it for it in self.shown()["now"]["events"] if it[0] == 1)[1] - log[1].time
            self.assertGreater(by, 0)
            self.assertEqual(found, brute.moved(brute.moved(log, 2, log[2].time + by), 1, log[1].time + by))
            self.check("login/login.elf", found, [LENGTH])
            self.key_on(1, "Delete")
            self.assertEqual(len(self.log()), 8)
            self.browser.keys("z", held=["Control"])
            self.assertEqual(self.log(), found)

    def test_refused_insertion_keeps_undo_redo_the_other_past_and_the_selection(self) -> None:
        with self.page(*LOGIN):
            self.key_on(1, "Right")
            self.browser.keys("z", held=["Control"])
            before, selected = self.shown(), self.browser.run("return [...window.bezhakkom.s.selected]")
            self.assertIsNotNone(before["state"]["redo"])
            with mock.patch("bezhakkom.view.past.MOST_EVENTS", 10):
                self.browser.click(*self.at(150_000, "in"), times=2)
                self.rest()
            self.assertEqual(self.text("problem"), "a log has at most 10 events: delete some first")
            after = self.shown()
            self.assertEqual((after["now"]["events"], after["state"], after["ghost"]), (before["now"]["events"], before["state"], before["ghost"]))
            self.assertEqual(self.browser.run("return [...window.bezhakkom.s.selected]"), selected)
            self.browser.keys("z", held=["Control", "Shift"])
            self.check("login/login.elf", brute.moved(brute.log_of("login"), 1, 30_001), [LENGTH])

    def test_character_typed_before_the_answer_to_undo_changes_the_value_alone(self) -> None:
        """The page still shows the event where the undo takes it from."""
        held = threading.Event()
        log = brute.log_of("login")
        with self.page(*LOGIN):
            self.key_on(2, "Right")
            self.rest()
            answer = self.desk.answer
            with mock.patch.object(self.desk, "answer", lambda ask: held.wait(100) and answer(ask)):
                self.browser.keys("z", held=["Control"])
                self.key_on(2, "f")
                self.assertEqual(self.browser.run("return window.bezhakkom.handle(2).getAttribute('aria-valuenow')"), "40001")
                held.set()
                self.rest()
            self.check("login/login.elf", brute.with_byte(log, 2, ord("f")), [LENGTH])

    def test_edges_of_a_wire(self) -> None:
        needs_kinds(self)
        with self.page("--to", "1000", *BUTTON):
            # The log is `100 0 1 wire`, `110 2 1 wire`, `120 0 0 wire`.
            self.key_on(2, *["Right"] * 3)
            self.assertEqual(self.log()[2].time, 123)
            x, y = self.place(2)
            self.browser.drag(x, y, [(x + 20, y), (x + 200, y)])
            self.assertGreater(self.log()[2].time, 10_000)
            self.key_on(2, "1")
            self.assertEqual(self.log()[2].byte, 1)
            self.check("button/boot.s", self.log())

    def test_far_away(self) -> None:
        """Where a pixel is 100,000 steps a drag asks for zoom, and Shift moves by hundredths."""
        with self.page("--to", "10000000", *LOGIN):
            self.browser.run("window.bezhakkom.s.width = 370; window.bezhakkom.ask({draw: true, live: true})")  # 100 columns
            self.rest()
            x, y = self.place(9)
            self.browser.drag(x, y, [(x + 40, y)])
            self.assertEqual(self.log(), brute.log_of("login"))
            self.browser.acts({"type": "key", "id": "keys", "actions": [{"type": "keyDown", "value": browsers.KEYS["Shift"]}, *[{"type": "pause"}] * 4,
                                                                       {"type": "keyUp", "value": browsers.KEYS["Shift"]}]},
                              {"type": "pointer", "id": "mouse", "parameters": {"pointerType": "mouse"},
                               "actions": [{"type": "pause"}, to(x, y), browsers.DOWN, to(x + 30, y), browsers.UP, {"type": "pause"}]})
            # 30 hundredths of a pixel, which is a hundredth of the run's 10,027,008 steps.
            self.assertEqual(self.log()[-1].time, 110_000 + round(30 * 10_027_008 / 100 / 100))

    def test_markup_stays_text(self) -> None:
        """What is in a log or is sent by a program makes no element."""
        markup = "<img src=x onerror=alert(1)>"
        log = [Event(1_000 + 700 * at, 0, ord(it)) for at, it in enumerate(markup)]
        with self.page("--to", "60000", str(brute.ROOT / "examples/echo/boot.s")):
            before = self.browser.run("return document.images.length")
            self.browser.keys("Tab")
            self.browser.run("document.getElementById('canvas').focus(); window.bezhakkom.s.cursor = 1000")
            self.browser.keys("Enter", *markup, "Enter")
            self.rest()
            self.assertEqual([it.byte for it in self.log()], [it.byte for it in log])
            self.assertIn(markup, self.browser.run("return document.querySelector('.console').textContent"))
            self.assertEqual(self.browser.run("return document.images.length"), before)
            self.check("echo/boot.s", self.log())


class Showing(PageTest):
    """What the page shows, and where it goes."""

    def test_bytes_of_one_step_fan_out(self) -> None:
        """The log has 18 bytes in step 5,000. Each has a handle of its own, beside the others."""
        with self.page("--to", "16000", *DRIVER):
            places = self.browser.run("return [...document.querySelectorAll('.event')].filter(it => it.getAttribute('aria-valuenow') === '5000').map(it => it.offsetLeft)")
            self.assertEqual(len(set(places)), 18)

    def test_names_and_values(self) -> None:
        """Events are sliders with names and values, and a table has the same facts."""
        with self.page(*LOGIN):
            found = self.browser.run("const it = window.bezhakkom.handle(1); return ['role', 'aria-label', 'aria-valuenow', 'aria-valuetext', 'tabindex'].map(a => it.getAttribute(a))")
            self.assertEqual(found, ["slider", "event on line 0", "30000", "step 30,000, line 0, '\\b' 0x08", "0"])
            self.browser.run("document.getElementById('facts').open = true")
            table = self.browser.waits("document.querySelector('#table table') && document.querySelector('#table table').textContent")
            for fact in ("'\\b' 0x0830,000", "session+320xffffffff40,024", "59 of 59 bytes in view", "receive"):
                self.assertIn(fact, table)
            unnamed = self.browser.run("return [...document.querySelectorAll('button, select, input, [tabindex]')].filter(it => !(it.textContent.trim() || it.getAttribute('aria-label') || it.labels && it.labels.length)).map(it => it.outerHTML)")
            self.assertEqual(unnamed, [])

    def test_jumps(self) -> None:
        with self.page(*LOGIN):
            for label, position in (("previous store of session+32", 110_951), ("previous store of session+32", 100_031),
                                    ("next store of session+32", 110_951), ("previous send of line 0 sends", 110_933),
                                    ("previous event of line 0 receives", 110_000)):
                self.browser.run("document.querySelector(`[aria-label='${arguments[0]}']`).click()", label)
                self.browser.waits(f"window.bezhakkom.s.at.position === {position} && {READY}")
            # A click on a byte goes to the step that sent it: the sixth one is the first `o` of the prompt.
            self.browser.run("document.querySelector('.console [data-place]').click()")
            self.browser.waits(f"window.bezhakkom.s.at.position === 147 && {READY}")

    def test_why(self) -> None:
        """Why the length is -1 is a list of steps: each link goes to its step, an event is selected, and an edit ends the list. A word, a
        register and a byte that was sent are asked for by a click, and anything by its name."""
        steps = [40_024, 40_023, 40_021, 30_024, 30_023, 30_021, 20_031, 20_030, 20_021, 372]  # docs/DEBUGGING.md has the first four
        rows = "[...document.querySelectorAll('#why [data-step]')].map(it => +it.dataset.step)"
        name = "document.getElementById('why-name').textContent"
        with self.page("--to", "131072", *LOGIN):
            self.browser.run("window.bezhakkom.s.cursor = 40025; window.bezhakkom.ask({draw: true, live: true})")
            self.rest()
            self.click("[aria-label='why session+32']")
            self.assertEqual(self.browser.waits(f"!document.getElementById('why').hidden && {rows}"), steps)
            self.assertEqual(self.browser.run(f"return {name}"), "session+0x20 at step 40,025: 0xffffffff")
            # Its first link has the focus. From there on keys go through the chain.
            self.browser.keys("Enter")
            self.browser.waits(f"window.bezhakkom.s.at.position === 40024 && {READY}")
            self.assertEqual(self.browser.run("return document.querySelector('#why [aria-current]').textContent.slice(0, 7)"), "▸40,024")
            self.click("#why [data-step='40021'] td:last-child button")
            self.browser.waits(f"window.bezhakkom.s.at.position === 30024 && {READY}")
            self.click("[data-register=v1]")
            self.browser.waits(f"/^v1 at step 30,024: 0x00000000$/.test({name})")
            self.click("[aria-label='why the last byte before the cursor that line 0 sent']")
            self.browser.waits(f"/^byte 10 of line 0 at step 30,024: /.test({name})")
            # A backspace is out of view. It is selected, and comes into view.
            self.browser.run("window.bezhakkom.s.cursor = 40011; window.bezhakkom.s.view = {begin: 60000, end: 61000}; window.bezhakkom.ask({draw: true, live: true})")
            self.rest()
            self.browser.run("document.getElementById('canvas').focus()")
            self.browser.keys("y", *"v0 to input", "Enter")
            self.browser.waits(f"/^v0 at step 40,011: /.test({name}) && {READY}")
            self.assertEqual(self.browser.run("return document.getElementById('said').textContent"),
                             "v0 at step 40,011: 0x00000008. It comes from 3 steps and 1 event.")
            self.browser.run("[...document.querySelectorAll('#why button')].find(it => it.textContent === 'line 0, 0x08, step 40,000').click()")
            self.browser.waits("document.activeElement.dataset.id === '2'")
            self.rest()
            self.assertEqual(self.browser.run("return document.querySelectorAll('.event.selected').length"), 1)
            self.browser.run("document.getElementById('keep').click()")
            self.browser.keys("Enter")
            self.browser.waits(f"window.bezhakkom.s.state.kept.length && {READY}")
            self.assertFalse(self.browser.run("return document.getElementById('why').hidden"))
            self.key_on(2, "Delete")
            self.browser.waits("document.getElementById('why').hidden")
            self.assertEqual((self.log(), self.shown()["state"]["events"]), ([], 9))
            # What is asked for and is none is said, and nothing is shown.
            self.browser.run("document.getElementById('whence').click()")
            self.browser.keys(*"nothing", "Enter")
            self.browser.waits("/nothing/.test(document.getElementById('problem').textContent)")
            self.assertTrue(self.browser.run("return document.getElementById('why').hidden"))

    def test_next_event_is_found_out_of_view(self) -> None:
        with self.page(*LOGIN):
            self.browser.run("window.bezhakkom.s.view = {begin: 41000, end: 42000}; window.bezhakkom.s.cursor = 41500; window.bezhakkom.ask({draw: true, live: true})")
            self.rest()
            for label, event in (("next", 3), ("next", 4), ("previous", 3), ("previous", 2), ("previous", 1)):
                self.click(f"[aria-label='{label} event of line 0 receives']")
                self.browser.waits(f"window.bezhakkom.s.selected.has({event}) && {READY}")
                self.assertEqual(self.shown()["at"]["position"], 20_000 + 10_000 * event)
                self.assertTrue(self.browser.run("return !!window.bezhakkom.handle(arguments[0])", event))

    def test_console_shows_its_end_at_the_end_of_the_run(self) -> None:
        log = [Event(1_000 + 300 * at, 0, byte) for at, byte in enumerate(b"x\n" * 150)]
        ends = "const it = document.querySelector('.console'); return [it.scrollTop, it.scrollHeight - it.clientHeight]"
        with tempfile.TemporaryDirectory() as folder:
            Path(folder, "log").write_bytes(logs.write(log))
            with self.page("--log", f"{folder}/log", str(brute.ROOT / "examples/echo/boot.s")):
                for key, is_at_end in (("Home", False), ("End", True), ("Home", False), ("End", True)):
                    self.browser.run("document.getElementById('canvas').focus()")
                    self.browser.keys(key)
                    self.rest()
                    top, last = self.browser.run(ends)
                    self.assertGreater(last, 500)
                    self.assertEqual(abs(top - last) < 2, is_at_end, (key, top, last))

    def test_labels_stand_apart(self) -> None:
        """The main loop of the driver counts in a word, so that each sample of it has another value. A letter takes some 7 pixels."""
        with self.page(*DRIVER[:2], "--words", "0xa000100c", DRIVER[-1]):
            texts = ElementTree.fromstring(self.browser.later(viewed.PICTURE)).iter("{http://www.w3.org/2000/svg}text")
            labels = [(float(it.attrib["x"]), str(it.text)) for it in texts if "store" in it.attrib["class"].split()]
        self.assertGreater(len(labels), 5)
        for (x, text), (following, _) in zip(labels, labels[1:]):
            self.assertGreater(following, x + 7 * len(text))

    def test_dragged_event_stays_in_a_log_that_is_thinned(self) -> None:
        """Of 20,000 events some are shown. The one that is dragged is shown in each place, and after the drag."""
        log = [Event(1_000 + 5 * at, at % 4, 65) for at in range(20_000)]
        with tempfile.TemporaryDirectory() as folder:
            Path(folder, "log").write_bytes(logs.write(log))
            with self.page("--log", f"{folder}/log", str(brute.ROOT / "examples/echo/boot.s")):
                shown = self.shown()["now"]
                self.assertTrue(shown["thinned"])
                x, y = self.place(next(it[0] for it in shown["events"] if it[1] > 30_000))
                event = int(self.browser.run("return document.elementFromPoint(arguments[0], arguments[1]).dataset.id", x, y))  # one lies over another
                self.browser.mouse("mousePressed", x, y, 1)
                for by in range(5, 60, 7):
                    self.browser.mouse("mouseMoved", x + by, y, 1)
                    self.browser.waits("!window.bezhakkom.s.pending.size")  # what the mouse did is drawn
                    self.assertTrue(self.browser.run("return !!window.bezhakkom.handle(arguments[0])", event), by)
                self.browser.mouse("mouseReleased", x + by, y)
                time = next(it[1] for it in self.shown()["now"]["events"] if it[0] == event)
                self.assertGreater(time, 35_000)
                self.assertIn(Event(time, event % 4, 65), self.desk._now.log)


class OtherPasts(PageTest):
    """What the page asks of other pasts."""

    def test_a_sweep(self) -> None:
        """The borders of outcomes are exact, and a click makes one so."""
        log = brute.log_of("login")
        with self.page(*LOGIN):
            self.browser.run("window.bezhakkom.handle(2).focus(); document.getElementById('wanted').value = \"'Welcome'\"; document.getElementById('sweep-time').click()")
            done = self.browser.waits("window.bezhakkom.s.sweep && window.bezhakkom.s.sweep.took && window.bezhakkom.s.sweep.done")
            texts = self.browser.run("return window.bezhakkom.s.sweep.texts")
            borders = [(two[0], texts[two[1]]) for one, two in zip(done, done[1:]) if one[1] != two[1]]
            self.assertTrue(borders)
            for step, text in borders:
                for at, comes in ((step, text == "it comes true"), (step - 1, text != "it comes true")):
                    with brute.fresh(brute.image("login/login.elf"), brute.moved(log, 2, at)) as driver:
                        driver.goto(self.desk.end)
                        self.assertEqual(b"Welcome" in driver.console(0), comes, at)
            self.browser.run("[...document.querySelectorAll('.outcome')].find(it => it.textContent.includes('it comes true')).click()")
            self.rest()
            self.assertIn("Welcome", self.browser.run("return document.querySelector('.console').textContent"))
            self.check("login/login.elf", self.log(), [LENGTH])

    def test_kept_pasts_and_questions(self) -> None:
        """A past is kept under a name, stands beside another, and is gone back to; and what the menu asks of many pasts is shown."""
        log = brute.log_of("login")
        with self.page(*LOGIN):
            self.key_on(2, "Delete")
            self.rest()
            self.browser.run("document.getElementById('keep').click()")
            self.browser.keys(*"one", "Enter")
            self.browser.waits("window.bezhakkom.s.state.kept.length")
            self.browser.keys("z", held=["Control"])
            self.rest()
            self.browser.run("const it = document.getElementById('against'); it.value = arguments[0]; it.dispatchEvent(new Event('change'))",
                             self.shown()["state"]["kept"][0])
            self.rest()
            self.assertEqual(viewed.events_of(self.shown()["ghost"]["events"]), brute.without(log, 2))
            self.assertEqual(self.log(), log)
            self.browser.run("document.getElementById('back').click()")
            self.check("login/login.elf", brute.without(log, 2), [LENGTH])
            self.browser.run("document.getElementById('causes').click()")
            self.browser.keys("Enter")
            said = self.browser.waits("/decided by the value of/.test(document.getElementById('said').textContent) && document.getElementById('said').textContent")
            self.assertTrue(said.startswith("session+0x20 at step 196,608: "), said)
            self.browser.run("document.getElementById('wanted').value = \"'Welcome'\"; document.getElementById('shrink').click()")
            self.browser.waits("/events are left/.test(document.getElementById('said').textContent)")
            # The password and Return are enough: that is 7 bytes.
            self.assertEqual(bytes(it.byte for it in self.log()), b"sesame\r")
            self.check("login/login.elf", self.log(), [LENGTH])

    def test_outcomes_look_the_same_in_strip_and_cards_and_differ_from_one_another(self) -> None:
        with self.page(*LOGIN):
            self.browser.run("window.bezhakkom.handle(2).focus()")
            for kind in "value", "time":
                self.click(f"#sweep-{kind}")
                self.browser.waits(f"window.bezhakkom.s.sweep && window.bezhakkom.s.sweep.took && {READY}")
            texts = self.browser.run("return [...document.querySelectorAll('.outcome')].map(it => it.textContent)")
            cards = self.browser.run("""return Object.fromEntries([...document.querySelectorAll('.outcome')].map(it => {
                const swatch = getComputedStyle(it.querySelector('.swatch'));
                return [it.textContent[0], [swatch.backgroundColor, it.querySelector('.swatch').dataset.hatching, swatch.backgroundImage.split('repeating').length - 1]]; }))""")
            self.assertEqual(sorted(cards), sorted(it[0] for it in texts))
            self.assertEqual(len({str(it) for it in cards.values()}), len(cards))
            # What the strip has where an outcome begins: its color, and beside that the paper only where there is a hatching.
            strip = self.browser.run("""const b = window.bezhakkom, row = b.rows().find(it => it.swept), g = document.getElementById('canvas').getContext('2d');
                const all = g.getImageData(0, 0, g.canvas.width, g.canvas.height).data;
                return b.s.sweep.done.map(([step, outcome], at) => { const next = b.s.sweep.done[at + 1], x = Math.round(b.X(step));
                    if (!next || b.X(next[0]) - x < 2 || at && b.s.sweep.done[at - 1][1] !== outcome) return null;
                    const pixel = y => { const k = 4 * ((row.y + y) * g.canvas.width + x + 1); return `rgb(${all[k]}, ${all[k + 1]}, ${all[k + 2]})`; };
                    return [String.fromCharCode(65 + outcome), [...Array(12).keys()].map(k => pixel(36 + k))]; }).filter(Boolean)""")
            self.assertTrue(strip)
            for letter, pixels in strip:
                color, _, hatchings = cards[letter]
                self.assertIn(color, pixels, letter)
                self.assertEqual(len(set(pixels)) > 1, hatchings > 0, (letter, pixels))
            # An outcome that was seen in the sweep of values alone is not counted.
            count = int(self.text("said").partition(" outcome")[0].rpartition(" ")[2])
            self.assertEqual(count, len(cards))

    def test_the_pictures_of_the_page(self) -> None:
        """They are as they are made now: `front/view_pictures` makes them anew."""
        for name, content in viewed.pictures(self.browser).items():
            self.assertEqual(content, (brute.ROOT / "docs" / name).read_text(), name)


class Serving(PageTest):
    """The page and its server: links that break, slow answers, other pages, files."""

    def test_a_program_that_dies_in_a_drag(self) -> None:
        log = brute.log_of("login")
        with self.page(*LOGIN):
            x, y = self.place(2)
            self.browser.pointer(to(x, y), browsers.DOWN, to(x + 10, y), to(x + 20, y))
            program = self.desk._driver._program
            assert program
            program._process.kill()
            self.browser.pointer(to(x + 30, y), to(x + 60, y), browsers.UP)
            moved = next(it for it in self.shown()["now"]["events"] if it[0] == 2)
            self.assertGreater(moved[1], 45_000)
            self.check("login/login.elf", brute.moved(log, 2, moved[1]), [LENGTH])

    def test_the_link(self) -> None:
        """The page asks over a link. Where that breaks, no edit is lost or made twice, and there is another one."""
        asked = "performance.getEntriesByType('resource').filter(it => it.name.endsWith('/ask')).length"
        log = brute.log_of("login")
        with self.page(*LOGIN):
            count = self.browser.run(f"return {asked}")
            self.key_on(2, "Right")
            self.rest()
            self.assertEqual(self.browser.run(f"return {asked}"), count)
            broken = mock.Mock(side_effect=ConnectionError)
            with mock.patch("bezhakkom.view.server.Link.send", broken):
                self.key_on(2, "Right", "Right")
                self.assertEqual(self.log(), brute.moved(log, 2, log[2].time + 3))
            self.assertTrue(broken.called)
            self.assertGreater(self.browser.run(f"return {asked}"), count)
            self.browser.until(lambda: self.posts_nothing(asked))
            self.check("login/login.elf", brute.moved(log, 2, log[2].time + 3), [LENGTH])

    def test_link_comes_back_after_refused_tries(self) -> None:
        asked = "performance.getEntriesByType('resource').filter(it => it.name.endsWith('/ask')).length"
        with self.page(*LOGIN):
            with mock.patch("bezhakkom.view.server._Handler._wants_link", return_value=False) as refused, \
                    mock.patch("bezhakkom.view.server.Link.send", side_effect=ConnectionError):
                self.key_on(2, "Right")
                self.browser.until(lambda: refused.call_count >= 2)
            self.browser.until(lambda: self.posts_nothing(asked))
            self.check("login/login.elf", brute.moved(brute.log_of("login"), 2, 40_001), [LENGTH])
            self.assertTrue(all("WebSocket" in it for it in self.browser.errors()))

    def posts_nothing(self, asked: str) -> bool:
        count = self.browser.run(f"return {asked}")
        self.browser.run("window.bezhakkom.ask({})")
        self.rest()
        return bool(self.browser.run(f"return {asked}") == count)

    def test_another_page(self) -> None:
        """What was edited on another page is shown when one comes back to this one."""
        with self.page(*LOGIN):
            Hand(self.desk).ask(page="other", edits=[Hand(self.desk).edit("delete", id=2)])
            self.browser.run("window.dispatchEvent(new Event('focus'))")
            self.check("login/login.elf", brute.without(brute.log_of("login"), 2), [LENGTH])

    def test_busy_server_is_shown_within_a_second(self) -> None:
        held = threading.Event()
        with self.page(*LOGIN):
            answer = self.desk.answer
            with mock.patch.object(self.desk, "answer", lambda ask: held.wait(100) and answer(ask)):
                self.browser.run("window.begun = performance.now(); window.bezhakkom.ask({draw: true, live: true})")
                after = self.browser.waits("document.getElementById('busy').textContent && performance.now() - window.begun")
                self.assertEqual(self.text("busy"), "Waiting for the server…")
                self.browser.waits("/^No answer from the server for [1-9]\\d* s\\.$/.test(document.getElementById('busy').textContent)")
                held.set()
            self.rest()
            self.assertEqual(self.text("busy"), "")
        self.assertLess(after, 1_000)

    def test_page_names_who_has_the_edits_while_the_server_does_not_answer(self) -> None:
        """And what they are sent to later has them once."""
        lost = "const event = new Event('beforeunload', {cancelable: true}); window.dispatchEvent(event); return event.defaultPrevented"
        broken = mock.Mock(side_effect=ConnectionError)
        with self.page(*LOGIN):
            self.assertFalse(self.browser.run(lost))
            with mock.patch("bezhakkom.view.server._Handler._read", broken):
                self.key_on(2, "Right")
                self.browser.waits("/^The server does not answer/.test(document.getElementById('busy').textContent)")
                self.assertRegex(self.text("busy"), r"^The server does not answer \(.*\)\. 1 edit is in this tab alone and will be sent again\. "
                                                    r"If the server has ended, its terminal names the session with the other unsaved edits\.$")
                self.key_on(1, "Delete")
                self.browser.waits("/2 edits are in this tab alone/.test(document.getElementById('busy').textContent)")
                self.assertTrue(self.browser.run(lost))
            self.rest()
            self.assertEqual((self.text("busy"), self.log()), ("", brute.without(brute.moved(brute.log_of("login"), 2, 40_001), 1)))
            self.assertTrue(all("WebSocket" in it or "ERR_EMPTY_RESPONSE" in it for it in self.browser.errors()))

    def test_image_that_is_rebuilt_is_named_when_the_page_has_the_focus_again(self) -> None:
        with tempfile.TemporaryDirectory() as folder:
            elf = Path(folder, "login.elf")
            elf.write_bytes(Path(LOGIN[-1]).read_bytes())
            with self.page(*LOGIN[:-1], str(elf)):
                self.assertEqual((self.text("name"), self.text("problem")), ("login.elf", ""))
                elf.write_bytes(elf.read_bytes() + b"\n")
                self.browser.run("window.dispatchEvent(new Event('focus'))")
                self.rest()
                self.assertEqual(self.text("name"), "login.elf (as opened; changed on disk)")
                self.assertEqual(self.text("problem"), f"{elf} has changed on disk, and this is a run of what it was: save the log, and start bin/wb view with it again.")
                # It is said once, and the run is that of before.
                self.browser.keys("g")
                self.rest()
                self.assertEqual(self.text("problem"), "")
                self.check("login/login.elf", brute.log_of("login"), [LENGTH])

    def test_refusal_stays_until_the_next_input(self) -> None:
        with self.page(*LOGIN):
            for refused in ("window.bezhakkom.ask({words: [{name: 'nothing'}]})", "window.bezhakkom.ask({jump: {to: 'visit', function: 'zz'}})"):
                self.browser.run(refused)
                self.rest()
            self.assertRegex(self.text("problem"), "^there is no word nothing: .* there is no function zz: ")
            self.browser.run("document.querySelector('.event').click()")
            self.browser.keys("Shift")
            self.assertNotEqual(self.text("problem"), "")
            self.browser.click(*self.at(70_000, "out"))
            self.assertEqual(self.text("problem"), "")

    def test_saving(self) -> None:
        """The log is saved by its key and read back; the picture is SVG, and the page that is saved has no script."""
        with self.page(*LOGIN):
            self.key_on(2, "Delete")
            self.rest()
            said = "The browser got {} for its downloads; if the name is taken, it adds a number. {}. The files that the page opened are unchanged by it."
            self.browser.keys("s", held=["Control"])
            self.assertEqual(logs.read(self.saved("login.log"), "login.log"), brute.without(brute.log_of("login"), 2))
            self.assertEqual(self.text("said"), said.format("login.log", "All edits are in it"))
            self.assertFalse(self.shown()["state"]["unsaved"])
            self.key_on(3, "Right")
            for kind, name in (("svg", "login.svg"), ("page", "login.html"), ("session", "login.session")):
                self.browser.run("document.getElementById('save-kind').value = arguments[0]; document.getElementById('save').click()", kind)
                content = self.saved(name)
                self.rest()
                self.assertEqual(self.shown()["state"]["unsaved"], kind != "session")
                self.assertEqual(self.text("said"), said.format(name, "All edits are in it" if kind == "session" else
                                                                "It has no edit that can be opened again: a log or a session has them"))
                if kind == "svg":
                    texts = [it.text for it in ElementTree.fromstring(content).iter("{http://www.w3.org/2000/svg}text")]
                    self.assertIn("line 0 receives", texts)
                    self.assertIn("session+32", texts)
                elif kind == "page":
                    self.assertNotIn(b"<script", content)
                    self.assertIn(b"Welcome, operator.", content)
                else:
                    self.assertTrue(content.startswith(b"bezhakkom session 1\n"))

    def saved(self, name: str) -> bytes:
        file = Path(self.browser.downloads, name)
        self.browser.until(file.exists)
        return file.read_bytes()


if __name__ == "__main__":
    unittest.main()
