"""The server of the page and its desk: what they refuse, that each answer is that of a run from reset, and what a redraw may ask. Steps of
the login program are counted on docs/DEBUGGING.md, or are those of a fresh program."""
from __future__ import annotations

import itertools
import json
import math
import random
import re
import signal
import socket
import subprocess
import sys
import tempfile
import threading
import unittest
import urllib.request
from dataclasses import replace
from pathlib import Path
from typing import Any, Optional, Sequence, Tuple
from unittest import mock

from bezhakkom import loading, saved
from bezhakkom import log as logs
from bezhakkom.errors import Problem
from bezhakkom.limits import SPAN
from bezhakkom.loading import Opening
from bezhakkom.lines import Lines
from bezhakkom.log import Event, Kind
from bezhakkom.states import registers_at
from bezhakkom.symbols import symbols_of
from bezhakkom.view.fields import Fields
from bezhakkom.view.rows import SAMPLES, View
from bezhakkom.view.server import FILES, MOST_BYTES, Server
from bezhakkom.whatif import why as reasons
from bezhakkom.whatif.questions import Register, Sent, Word
from bezhakkom.whatif.why import End, Origin
from front.tests import brute, viewed
from front.tests.support import ROOT, needs_kinds
from front.tests.viewed import BUTTON, DRIVER, LOGIN, Hand, laid_out, posted, served, view

SEED = 77
LENGTH = 0x1020  # the word session+32, by its physical address
WHOLE = view(0, 3 * SPAN)


# What is left of linear red, green and blue to people with all cones, without green cones and without red ones: Machado, Oliveira and
# Fernandes, "A physiologically-based model for simulation of color vision deficiency", 2009.
EYES = (((1.0, 0.0, 0.0), (0.0, 1.0, 0.0), (0.0, 0.0, 1.0)),
        ((0.367322, 0.860646, -0.227968), (0.280085, 0.672501, 0.047413), (-0.01182, 0.04294, 0.968881)),
        ((0.152286, 1.052583, -0.204868), (0.114503, 0.786281, 0.099216), (-0.003882, -0.048116, 1.051998)))


def lab(color: str, eyes: Sequence[Sequence[float]]) -> Tuple[float, float, float]:
    """An sRGB color in CIELAB, as these eyes see it."""
    parts = [int(color[at:at + 2], 16) / 255 for at in (1, 3, 5)]
    linear = [it / 12.92 if it <= 0.04045 else ((it + 0.055) / 1.055) ** 2.4 for it in parts]
    seen = [min(1.0, max(0.0, sum(a * b for a, b in zip(row, linear)))) for row in eyes]
    white = ((0.4124, 0.3576, 0.1805, 0.9505), (0.2126, 0.7152, 0.0722, 1.0), (0.0193, 0.1192, 0.9505, 1.089))
    x, y, z = (sum(a * b for a, b in zip(row, seen)) / row[3] for row in white)
    x, y, z = (it ** (1 / 3) if it > 0.008856 else 7.787 * it + 16 / 116 for it in (x, y, z))
    return 116 * y - 16, 500 * (x - y), 200 * (y - z)


class Refusals(unittest.TestCase):
    """Who is no page of this server gets nothing, and a request that is damaged leaves the desk as it was."""

    def test_refusals(self) -> None:
        with laid_out(*LOGIN) as desk, served(desk) as server:
            self.assertEqual(posted(server, {"view": WHOLE}).status, 200)
            other = f"127.0.0.1:{int(server.host.split(':')[1]) % 60_000 + 1}"
            for status, changes in (
                    (404, {"token": "x"}), (404, {"token": ""}), (404, {"token": server.token[:-1]}), (404, {"token": server.token + "x"}),
                    (404, {"name": ""}), (404, {"name": "page.html"}), (404, {"name": "../ask"}), (404, {"name": "ask?x"}),
                    (403, {"Host": other}), (403, {"Host": server.host.replace("127.0.0.1", "localhost")}), (403, {"Host": "example.org"}),
                    (403, {"Host": None}), (403, {"Origin": None}), (403, {"Origin": "null"}), (403, {"Origin": "http://example.org"}),
                    (403, {"Origin": f"http://{other}"}), (403, {"Origin": server.origin.replace("http", "https")}),
                    (403, {"Sec_Fetch_Site": "cross-site"}), (403, {"Sec_Fetch_Site": "same-site"}), (403, {"Sec_Fetch_Site": "none"}),
                    (403, {"Content_Type": None}), (403, {"Content_Type": "text/plain"}),
                    (403, {"Content_Type": "application/json; charset=utf-8"}), (403, {"Content_Type": "application/x-www-form-urlencoded"}),
                    (411, {"Content_Length": None}), (411, {"Content_Length": "-1"}), (411, {"Content_Length": "x"}),
                    (411, {"Content_Length": "+2"}), (411, {"Transfer_Encoding": "chunked"}),
                    (413, {"Content_Length": str(MOST_BYTES + 1)}), (413, {"Content_Length": "9" * 40}),
                    (400, {"body": "{"}), (400, {"body": "[]"}), (400, {"body": "[" * 100_000}), (400, {"body": "\udcff"}),
                    (501, {"method": "PUT"}), (501, {"method": "OPTIONS"})):
                with self.subTest(changes):
                    reply = posted(server, **changes)  # type: ignore[arg-type]
                    self.assertEqual((reply.status, reply.content), (status, b""))  # type: ignore[attr-defined]
                    self.assertNotIn("Access-Control-Allow-Origin", reply.headers)

    def test_files(self) -> None:
        with laid_out(*LOGIN) as desk, served(desk) as server:
            for name in ("", *FILES):
                reply = posted(server, name=name, method="GET")
                self.assertEqual(reply.status, 200, name)
                policy = reply.headers["Content-Security-Policy"]
                self.assertIn("default-src 'none'", policy)
                self.assertIn(f"connect-src 'self' ws://{server.host};", policy)
                self.assertNotIn("unsafe", policy)
                self.assertEqual((reply.headers["X-Content-Type-Options"], reply.headers["Cross-Origin-Resource-Policy"]),
                                 ("nosniff", "same-origin"))
            for name, changes in (("none.js", {}), ("..%2fserver.py", {}), ("page.js", {"token": "x"}), ("page.js", {"Host": "example.org"}),
                                  ("page.js", {"Sec_Fetch_Site": "cross-site"}), ("page.js", {"Origin": "http://example.org"}), ("ask", {})):
                self.assertEqual(posted(server, name=name, method="GET", **changes).status, 404, (name, changes))  # type: ignore[arg-type]

    def test_only_this_machine(self) -> None:
        """It listens on the loopback alone."""
        with laid_out(*LOGIN) as desk, served(desk) as server:
            self.assertEqual(server.server_address[0], "127.0.0.1")
            with socket.create_connection(("127.0.0.1", server.server_address[1]), 60) as link:
                link.sendall(b"nothing of HTTP\r\n\r\n")
                self.assertEqual(link.recv(1 << 16), b"")

    def test_no_inline_script(self) -> None:
        for name in FILES:
            text = (ROOT / "front/bezhakkom/view/page" / name).read_text()
            if name.endswith(".html"):
                self.assertNotRegex(text, r"(?i)<script(?![^>]*\ssrc=)|\son\w+=|\sstyle=|javascript:|<style")
            self.assertNotRegex(text, r"https?://(?!www\.w3\.org/2000/svg)|\beval\(|insertAdjacentHTML|document\.write|innerHTML\s*=")

    def test_colors_of_outcomes_are_far_apart(self) -> None:
        """In both themes, also without red or green cones: at least 25 in CIELAB, of which some 2 are seen side by side. The pictures that
        the page saves have the same colors."""
        folder = ROOT / "front/bezhakkom/view/page"
        themes = [re.findall(r"--outcome-\d: (#\w{6})", it) for it in (folder / "page.css").read_text().split("@media")]
        self.assertEqual([len(it) for it in themes], [7, 7])
        saved_there = re.findall(r'"outcome-\d": "(#\w{6})"', (folder / "save.js").read_text())
        self.assertEqual(saved_there, themes[0] + themes[1])
        for theme in themes:
            for eyes in EYES:
                for one, two in itertools.combinations([lab(it, eyes) for it in theme], 2):
                    self.assertGreater(math.dist(one, two), 25, theme)

    def test_damaged_requests(self) -> None:
        """What is wrong with a request is a sentence, or a reply with one; log and edits stay."""
        with laid_out(*LOGIN) as desk:
            before = Hand(desk).ask()["state"]
            for ask in ({"view": 5}, {"view": {"begin": 5, "end": 5, "columns": 900}}, {"view": view(0, 1 << 50)}, {"view": view(-1, 5)},
                        {"view": view(0, 5, 1)}, {"cursor": "0"}, {"cursor": 1.5}, {"cursor": True}, {"edits": {}}, {"edits": [5]},
                        {"edits": [{"do": "add"}]}, {"jump": {"to": "nowhere"}}, {"jump": {"to": "store", "word": 7}},
                        {"jump": {"to": "store", "address": 0x1000}}, {"jump": {"to": "difference"}}, {"words": [{"name": "nothing"}]},
                        {"sweep": {"id": 99}}, {"sweep": {"id": 0, "steps": ["x"]}}, {"sweep": {"id": 0, "wanted": "so"}},
                        {"causes": {"what": ""}}, {"causes": {"what": "a\nb"}}, {"causes": {"what": "a\u2028b"}}, {"save": {"kind": "../x"}}, {"words": [{"name": "x" * 999}]}):
                with self.assertRaises(Problem, msg=str(ask)):
                    desk.answer(Fields(ask))
            for number, edit in enumerate((
                    {"do": "add", "id": 1, "time": 5, "line": 0, "byte": 65, "gesture": 1}, {"do": "add", "id": 50, "time": 5, "line": 4, "byte": 65},
                    {"do": "add", "id": 50, "time": 5, "line": 0, "byte": 256}, {"do": "add", "id": 50, "time": 5, "line": 0, "byte": 2, "kind": 2},
                    {"do": "add", "id": 50, "time": -5, "line": 0, "byte": 2}, {"do": "change", "id": 0, "time": 1 << 40, "byte": 1},
                    {"do": "change", "id": 77, "time": 1, "byte": 1}, {"do": "delete", "id": 77}, {"do": "quit"}, {"do": "back", "name": "x"},
                    {"do": "against", "name": "x"}, {"do": "keep", "name": " "}, {"do": "shrink", "until": "console 'none'"},
                    {"do": "shrink", "until": " "}, {"do": "cancel"}, {"do": "cancel", "gesture": 1}), 1):
                reply = desk.answer(Fields({"edits": [{"number": number, **edit}]}))
                self.assertIn("problem", reply, edit)
                self.assertEqual(reply["state"], before, edit)


class Rows(unittest.TestCase):
    def test_login(self) -> None:
        """The rows of the whole run, and those of a part in which each step is looked at."""
        image, log = brute.image("login/login.elf"), brute.log_of("login")
        with laid_out(*LOGIN) as desk:
            hand = Hand(desk)
            shown = hand.rested(view=WHOLE, cursor=40_024)
            viewed.check(self, image, log, shown["now"], [LENGTH], cursor=shown["cursor"])
            self.assertEqual((shown["cursor"]["source"]["file"], shown["cursor"]["source"]["line"]), ("login.c", 44))
            self.assertEqual(shown["cursor"]["accessed_name"], "session+0x20")
            near = hand.rested(view=view(40_000, 40_400), cursor=40_024)["now"]
            viewed.check(self, image, log, near, [LENGTH])
            self.assertTrue(near["functions"]["exact"])
            # Of 400 steps each is one: what `regs` says at each, in a fresh program.
            with brute.fresh(image, log) as driver:
                for at, name in near["functions"]["at"]:
                    driver.goto(at)
                    found = desk._symbols.at(driver.registers().pc)
                    self.assertEqual(near["functions"]["names"][name], found[0].name if found else "")
            self.assertEqual([at for at, _ in near["functions"]["at"]], list(range(40_000, 40_400)))
            # How often functions are entered: by looking at each step of a fresh program.
            part = hand.rested(view=view(38_000, 42_000), cursor=40_024)["now"]["visits"]
            with brute.fresh(image, log) as driver:
                counters = [it.pc for it in registers_at(driver, range(38_000, 42_000))]
            self.assertIn("receive", part)
            for name, (found, is_all) in part.items():
                entered = [38_000 + at for at, counter in enumerate(counters) if counter == desk._symbols.address(name)]
                self.assertEqual((found, is_all), (entered[:32], len(entered) < 32), name)

    def test_random_gestures_and_undo(self) -> None:
        """After each of some random gestures and undos the rows are those of a fresh program with the log that is shown."""
        needs_kinds(self)
        source = random.Random(SEED)
        image = brute.image("driver/boot.s")
        with laid_out("--to", "16000", *DRIVER) as desk:
            hand, whole = Hand(desk), view(0, SPAN)
            log, past, future = brute.log_of("driver"), [], []
            ids, fresh = list(range(len(log))), 1000
            for turn in range(9):
                do = source.choice(["add", "change", "change", "delete", "undo", "redo", "drag"])
                if do in ("undo", "redo"):
                    edits, (one, other) = [hand.edit(do)], (past, future) if do == "undo" else (future, past)
                    if one:
                        other.append((log, ids))
                        log, ids = one.pop()
                else:
                    past.append((log, ids))
                    future.clear()
                    if do == "add":
                        fresh += 1
                        kind = source.choice(list(Kind))
                        event = Event(source.randrange(14_000), source.randrange(3), source.randrange(2) if kind == Kind.WIRE else source.randrange(256), kind)
                        edits = [hand.edit("add", id=fresh, time=event.time, line=event.line, byte=event.byte, kind=int(kind))]
                        log, ids = put(log, ids, fresh, event)
                    else:
                        at = source.randrange(len(log))
                        name, event = ids[at], log[at]
                        log, ids = log[:at] + log[at + 1:], ids[:at] + ids[at + 1:]
                        if do == "delete":
                            edits = [hand.edit("delete", id=name)]
                        else:
                            steps = [source.randrange(14_000) for _ in range(1 + 2 * (do == "drag"))]
                            byte = source.randrange(2) if event.kind == Kind.WIRE else source.randrange(256)
                            edits = [hand.edit("change", id=name, time=step, byte=byte, again=number > 0) for number, step in enumerate(steps)]
                            log, ids = put(log, ids, name, replace(event, time=steps[-1], byte=byte))
                for edit in edits:
                    hand.ask(view=whole, live=True, edits=[edit], cursor=9_000)
                shown = hand.rested(view=whole, cursor=9_000)
                self.assertEqual([it[0] for it in shown["now"]["events"]], ids, (turn, do))
                viewed.check(self, image, log, shown["now"], [0x100], exact=False, cursor=shown["cursor"])
                if past and do not in ("undo", "redo"):
                    viewed.check(self, image, past[-1][0], shown["ghost"], [0x100], exact=False)

    def test_while_the_hand_moves(self) -> None:
        """What is shown in a drag is so, though only the view's part is asked."""
        image, log = brute.image("login/login.elf"), brute.log_of("login")
        part = view(0, SPAN)
        with laid_out("--to", "1000000", *LOGIN) as desk:
            hand = Hand(desk)
            hand.ask(view=part, cursor=40_024)
            for turn in range(5):
                step = 40_000 + 4_321 * turn
                shown = hand.ask(view=part, live=True, cursor=40_024, edits=[hand.edit("change", id=2, time=step, byte=8, again=turn > 0)])
                self.assertEqual(shown["now"]["until"], SPAN)
                viewed.check(self, image, brute.moved(log, 2, step), shown["now"], [LENGTH], exact=False)
            self.assertEqual(shown["state"]["undo"], "change")
            shown = hand.ask(view=part, edits=[hand.edit("undo")])
            self.assertIsNone(shown["state"]["undo"])
            viewed.check(self, image, log, shown["now"], [LENGTH], exact=False)

    def test_targets_are_virtual(self) -> None:
        """The branch that tells a backspace is the one of the worked example of `why`."""
        with laid_out(*LOGIN) as desk:
            listed = Hand(desk).ask(view=view(40_000, 40_400), cursor=40_017)["cursor"]["listed"]
        self.assertEqual([it for it in listed if it[3]], [[0xBFC0_0284, "read_line+0x5c", "beq r2, r3, 0xbfc00244 <read_line+0x1c>", True]])

    def test_many_bytes_in_one_step(self) -> None:
        with laid_out(*DRIVER) as desk:
            shown = Hand(desk).ask(view=view(0, SPAN))["now"]["events"]
        # The line `5000 2 'ABCDEFGHIJKLMNOPQR'` of the log has 18 bytes.
        self.assertEqual("".join(chr(it[3]) for it in shown if it[1] == 5000), "ABCDEFGHIJKLMNOPQR")


def put(log: list[Event], ids: list[int], name: int, event: Event) -> tuple[list[Event], list[int]]:
    """A log with an event after all of its step."""
    at = sum(it.time <= event.time for it in log)
    return log[:at] + [event] + log[at:], ids[:at] + [name] + ids[at:]


class Costs(unittest.TestCase):
    """What a redraw may ask. Each position that is looked at is run to, so questions are what makes it slow."""

    def test_limits(self) -> None:
        with laid_out("--to", "10000000", *LOGIN) as desk:
            hand = Hand(desk)
            for window in (view(0, 2 * SPAN), view(0, desk.end), view(39_900, 40_300)):
                for cursor in (40_024, 60_000, desk.end):  # before what is dragged, between, and after it
                    first = hand.ask(view=window, cursor=cursor)["cost"]
                    self.assertLessEqual(first["batches"], 4)
                    self.assertLessEqual(first["questions"], 250)
                    self.assertEqual(hand.ask(view=window, cursor=cursor)["cost"]["questions"], 0)
                    costs = [hand.ask(view=window, cursor=cursor, live=True, edits=[
                        hand.edit("change", id=2, time=40_100 + 900 * turn, byte=8, again=turn > 0)])["cost"] for turn in range(1, 8)]
                    hand.ask(edits=[hand.edit("undo")])
                    self.assertLessEqual(costs[0]["batches"], 2)
                    self.assertLessEqual(max(it["batches"] for it in costs[1:]), 1, costs)
                    self.assertLessEqual(max(it["questions"] for it in costs), 250, costs)

    def test_fewer_samples_are_some_of_all(self) -> None:
        """What was looked at at rest is not asked again for fewer samples, unless these alone are so far apart that they begin spans."""
        for begin, end in (0, SPAN), (77, 100_003), (5, 9_999_999):
            for samples in (12, 24, 48):
                some, every = (View(begin, end, 900, it, end) for it in (samples, SAMPLES))
                self.assertLessEqual({*some.positions()}, {*every.positions()})
                self.assertLessEqual(len(some.positions()), samples)

    def test_to_and_fro(self) -> None:
        """Where many pasts are kept, an event that goes to and fro between two steps asks no more than at first."""
        with laid_out("--to", "1000000", *LOGIN) as desk:
            hand = Hand(desk)
            for number in range(8):
                hand.ask(edits=[hand.edit("change", id=2, time=41_000 + number, byte=8), hand.edit("keep", name=f"past {number}")])
            for window in (view(0, 2 * SPAN), view(0, desk.end)):
                costs = []
                for turn in range(6):
                    edit = hand.edit("change", id=2, time=70_000 if turn % 2 else 50_000, byte=8)
                    costs.append(hand.ask(view=window, cursor=40_024, live=True, edits=[edit])["cost"])
                    hand.rested(view=window, cursor=40_024)
                for name in "questions", "batches":
                    self.assertLessEqual(max(it[name] for it in costs[2:]), max(it[name] for it in costs[:2]), (name, costs))

    def test_the_rest_comes_in_pieces(self) -> None:
        """A run of 40 million steps is made in pieces, between which an edit may come."""
        with laid_out("--to", "40000000", *LOGIN) as desk:
            hand, part = Hand(desk), view(0, 2 * SPAN)
            hand.ask(view=part, live=True)
            first = hand.ask(view=part, rest=True)
            self.assertTrue(first["more"])
            self.assertLess(desk._driver.made, desk.end)
            hand.ask(view=part, live=True, edits=[hand.edit("delete", id=2)])
            self.assertFalse(hand.rested(view=part)["more"])
            self.assertEqual(desk._driver.made, desk.end)

    def test_many_pieces_show_their_rows_now_and_then(self) -> None:
        with laid_out("--to", "100000000", *LOGIN) as desk, mock.patch("bezhakkom.view.desk.GLANCE", 3600):
            hand, part = Hand(desk), view(0, 2 * SPAN)
            hand.ask(view=part, live=True)
            shown = [hand.ask(view=part, rest=True)]
            while shown[-1]["more"]:
                shown.append(hand.ask(view=part, rest=True))
            self.assertGreater(len(shown), 1)
            self.assertEqual(["now" in it for it in shown], [False] * (len(shown) - 1) + [True])

    def test_many_events(self) -> None:
        """Of 5,000 events some of each line are shown. Where one is dragged, no more than that one is changed in the program."""
        log = [Event(1_000 + 20 * at, at % 4, 65) for at in range(5_000)]
        with tempfile.TemporaryDirectory() as folder:
            Path(folder, "log").write_bytes(logs.write(log))
            with laid_out("--log", f"{folder}/log", str(ROOT / "examples/echo/boot.s")) as desk:
                hand, asked = Hand(desk), mock.Mock(wraps=desk._driver.ask_all)
                whole = hand.ask(view=view(0, 2 * SPAN))["now"]
                self.assertTrue(whole["thinned"])
                self.assertLessEqual(len(whole["events"]), 3_000)
                self.assertEqual({it[2] for it in whole["events"]}, {0, 1, 2, 3})
                with mock.patch.object(desk._driver, "ask_all", asked):
                    shown = hand.ask(view=view(0, SPAN), live=True, edits=[hand.edit("change", id=2_000, time=41_003, byte=66)])["now"]
                self.assertEqual(asked.call_args_list[0].args[0], ["del 2000", "add 41003 0 66"])
                self.assertTrue(shown["thinned"])
                # What is selected is shown, though it is not the last event of its line there.
                held = [2_000, 2_004, 3_001]
                for numbers in held, []:
                    shown = hand.ask(view=view(0, 2 * SPAN), held=numbers)["now"]["events"]
                    self.assertEqual([it[0] for it in shown if it[0] in held], numbers)
                    self.assertLessEqual(len(shown), 3_000)
                part = hand.ask(view=view(41_000, 41_100))["now"]
                self.assertEqual([it[:4] for it in part["events"]], [[2_000, 41_003, 0, 66], *([at, 1_000 + 20 * at, at % 4, 65] for at in range(2_001, 2_006))])


class Pasts(unittest.TestCase):
    def test_edits_are_made_once(self) -> None:
        """One that is sent again, as its reply was lost, is not made again."""
        with laid_out(*LOGIN) as desk:
            hand = Hand(desk)
            edit = hand.edit("add", id=70, time=5, line=0, byte=65)
            for _ in range(2):
                self.assertEqual(hand.ask(edits=[edit])["state"]["events"], 11)

    def test_two_pages_number_their_edits(self) -> None:
        with laid_out(*LOGIN) as desk:
            replies = [desk.answer(Fields({"page": page, "edits": [{"number": 1, "do": "delete", "id": identity, "gesture": identity + 1}]}))
                       for identity, page in enumerate(("one", "two"))]
            self.assertEqual([(it["edit"], it["state"]["events"]) for it in replies], [(1, 9), (1, 8)])

    def test_kept_pasts(self) -> None:
        image, log = brute.image("login/login.elf"), brute.log_of("login")
        without = brute.without(log, 2)
        with laid_out(*LOGIN) as desk:
            hand = Hand(desk)
            hand.ask(edits=[hand.edit("keep", name="as it was"), hand.edit("delete", id=2), hand.edit("keep", name="without")])
            hand.ask(edits=[hand.edit("delete", id=0), hand.edit("against", name="as it was")])
            shown = hand.rested(view=WHOLE)
            self.assertEqual(shown["state"]["kept"], ["as it was", "without"])
            viewed.check(self, image, log, shown["ghost"], [LENGTH])
            hand.ask(edits=[hand.edit("back", name="without")])
            shown = hand.rested(view=WHOLE)
            viewed.check(self, image, without, shown["now"], [LENGTH])
            viewed.check(self, image, log, shown["ghost"], [LENGTH])
            hand.ask(edits=[hand.edit("undo"), hand.edit("against")])
            shown = hand.rested(view=WHOLE)
            viewed.check(self, image, brute.without(without, 0), shown["now"], [LENGTH])

    def test_edits_that_change_nothing_are_no_step_of_undo_and_leave_redo(self) -> None:
        with laid_out(*LOGIN) as desk:
            hand = Hand(desk)
            hand.ask(edits=[hand.edit("keep", name="first"), hand.edit("delete", id=9, name="one"), hand.edit("undo")])
            before = hand.ask(view=WHOLE, ghost=True)
            self.assertEqual((before["state"]["undo"], before["state"]["redo"]), (None, "one"))
            event = before["now"]["events"][2]
            for edit in (hand.edit("change", id=2), hand.edit("change", id=2, time=event[1], byte=event[3]), hand.edit("back", name="first")):
                after = hand.ask(view=WHOLE, ghost=True, edits=[edit])
                self.assertNotIn("problem", after)
                for name in "state", "now", "ghost":
                    self.assertEqual(after[name], before[name], edit)
            # Without the backspace the password is right. Of its characters and Return none can be taken out.
            welcome = {"until": "console 'Welcome'"}
            small = hand.ask(edits=[hand.edit("delete", id=2), hand.edit("shrink", **welcome)])
            self.assertEqual((small.get("problem"), small["state"]["events"]), (None, 7))
            again = hand.ask(edits=[hand.edit("delete", id=9, name="two"), hand.edit("undo"), hand.edit("shrink", **welcome)])
            self.assertEqual((again.get("problem"), again["state"]), (None, {**small["state"], "redo": "two"}))

    def test_undo_passes_over_a_drag_that_came_back(self) -> None:
        log = brute.log_of("login")
        with laid_out(*LOGIN) as desk:
            hand = Hand(desk)
            hand.ask(edits=[hand.edit("delete", id=9), hand.edit("change", id=2, time=41_000), hand.edit("change", id=2, time=log[2].time, again=True)])
            for do, wanted in ("undo", log), ("redo", log[:9]), ("undo", log):
                hand.ask(edits=[hand.edit(do)])
                self.assertEqual(desk._now.log, wanted)

    def test_change_of_the_value_alone_leaves_the_step_and_the_other_way(self) -> None:
        log = brute.log_of("login")
        with laid_out(*LOGIN) as desk:
            hand = Hand(desk)
            hand.ask(edits=[hand.edit("change", id=2, byte=65)])
            self.assertEqual(desk._now.log, brute.with_byte(log, 2, 65))
            hand.ask(edits=[hand.edit("change", id=2, time=41_000)])
            self.assertEqual(desk._now.log, brute.moved(brute.with_byte(log, 2, 65), 2, 41_000))

    def test_cancel_restores_the_log_undo_redo_and_the_other_past(self) -> None:
        image, log = brute.image("login/login.elf"), brute.log_of("login")
        with laid_out(*LOGIN) as desk:
            hand = Hand(desk)
            hand.ask(edits=[hand.edit("change", id=1, time=30_500, byte=8, name="one"), hand.edit("delete", id=9, name="two"), hand.edit("undo")])
            before = hand.rested(view=WHOLE)
            self.assertEqual((before["state"]["undo"], before["state"]["redo"]), ("one", "two"))
            drag = [hand.edit("change", id=2, time=41_000 + it, byte=8, again=it > 0) for it in range(3)]
            self.assertIsNone(hand.ask(edits=drag)["state"]["redo"])
            hand.ask(edits=[hand.edit("cancel", again=True)])
            after = hand.rested(view=WHOLE)
            self.assertEqual((after["state"], after["now"], after["ghost"]), (before["state"], before["now"], before["ghost"]))
            viewed.check(self, image, brute.moved(log, 1, 30_500), after["now"], [LENGTH])
            self.assertEqual(hand.ask(edits=[hand.edit("redo")])["state"]["events"], 9)

    def test_cancel_after_an_edit_of_another_page_is_refused(self) -> None:
        with laid_out(*LOGIN) as desk:
            for number, edit in enumerate(({"do": "change", "id": 2, "time": 41_000, "byte": 8, "gesture": 5}, {"do": "delete", "id": 0, "gesture": 6},
                                           {"do": "cancel", "gesture": 5}), 1):
                reply = desk.answer(Fields({"page": str(number == 2), "edits": [{"number": number, **edit}]}))
            self.assertRegex(reply["problem"], "not cancelled, as another page has edited the log")
            self.assertEqual((reply["refused"], reply["state"]["events"]), ([5], 9))

    def test_refused_edit_names_its_gesture(self) -> None:
        with laid_out(*LOGIN) as desk:
            hand = Hand(desk)
            reply = hand.ask(edits=[hand.edit("delete", id=2), hand.edit("change", id=2, time=5, byte=1), hand.edit("change", id=1, time=5, byte=1)])
            self.assertEqual(reply["refused"], [2])
            self.assertEqual(reply["problem"], "the event was deleted meanwhile, so it was not edited: `Undo` brings it back")

    def test_a_program_that_dies(self) -> None:
        image, log = brute.image("login/login.elf"), brute.log_of("login")
        with laid_out(*LOGIN) as desk:
            hand = Hand(desk)
            for turn in range(4):
                assert desk._driver._program
                desk._driver._program._process.kill()
                desk._driver._program._process.wait()
                shown = hand.ask(view=WHOLE, live=True, edits=[hand.edit("change", id=2, time=40_000 + 999 * turn, byte=8, again=turn > 0)])
                self.assertNotIn("problem", shown)
                viewed.check(self, image, brute.moved(log, 2, 40_000 + 999 * turn), shown["now"], [LENGTH], exact=False)


class Jumps(unittest.TestCase):
    def test_jumps(self) -> None:
        image, log = brute.image("login/login.elf"), brute.log_of("login")
        with brute.fresh(image, log) as driver:
            driver.goto(3 * SPAN)
            sends = [driver.find(0, place) for place in range(driver.sent(0))]
            stores, at = [], 3 * SPAN
            while True:
                driver.goto(at)
                step = driver.writer(LENGTH).step
                if step is None:
                    break
                stores.append(step)
                at = step
        stores.reverse()
        with laid_out(*LOGIN) as desk:
            hand = Hand(desk)

            def jump(position: int, **to: object) -> object:
                return hand.ask(cursor=position, jump=to)["jump"]

            for position in (0, 40_024, 40_025, stores[-1], 3 * SPAN):
                for forward in (False, True):
                    for name, steps in (("store", stores), ("send", sends)):
                        found = [it for it in steps if it > position] if forward else [it for it in reversed(steps) if it < position]
                        self.assertEqual(jump(position, to=name, word=0, line=0, forward=forward), found[0] if found else None,
                                         (name, position, forward))
            self.assertEqual(jump(40_030, to="store", address=0x8000_1020), 40_024)
            self.assertEqual(jump(0, to="byte", line=0, place=3), sends[3])
            # receive() is called for the first time after the prompt, and read_line() calls it.
            entry = desk._symbols.address("receive")
            assert entry is not None
            with brute.fresh(image, log) as driver:
                first = brute.comes(driver, entry, 1, 5_000)
                lines = Lines(image.elves)
                places = [brute.register_pc(driver, at) for at in range(39_900, 40_100)]
            self.assertEqual(jump(0, to="visit", function="receive", forward=True), first)
            # Line 44 of login.c is where step 40,024 is; the line after it begins where another one does.
            here = [lines.at(it) for it in places]
            after = next(at for at in range(40_024, 40_100) if here[at - 39_900] not in (here[124], None))
            self.assertEqual(jump(40_024, to="line", forward=True), after)
            last = next(at for at in range(40_024, 39_900, -1) if here[at - 39_900] != here[124])
            begin = next(at for at in range(last, 39_900, -1) if here[at - 1 - 39_900] != here[last - 39_900])
            self.assertEqual(jump(40_024, to="line"), begin)

    def test_events_are_found_in_the_whole_log(self) -> None:
        """Also out of view, and in a view that shows only some of them."""
        log = sorted([*(Event(1_000 + 20 * at, at % 4, 65) for at in range(5_000)), Event(60_500, 1, 1, Kind.WIRE)], key=lambda it: it.time)
        with tempfile.TemporaryDirectory() as folder:
            Path(folder, "log").write_bytes(logs.write(log))
            with laid_out("--log", f"{folder}/log", str(ROOT / "examples/echo/boot.s")) as desk:
                hand = Hand(desk)
                for position in (0, 999, 1_000, 41_000, 60_500, 100_980, desk.end):
                    for line, is_wire in ((0, False), (3, False), (1, True), (2, True)):
                        mine = [at for at, it in enumerate(log) if (it.line, it.kind == Kind.WIRE) == (line, is_wire)]
                        for forward in (False, True):
                            wanted = next((at for at in mine if log[at].time > position), None) if forward \
                                else next((at for at in reversed(mine) if log[at].time < position), None)
                            reply = hand.ask(view=view(0, desk.end), cursor=position, jump={"to": "event", "line": line, "wire": is_wire, "forward": forward})
                            self.assertEqual(reply["jump"], None if wanted is None else log[wanted].time)
                            self.assertEqual(reply.get("event"), wanted)
                            if wanted is not None:
                                self.assertIn(wanted, [it[0] for it in reply["now"]["events"]])
            # An event after the run's end is not gone to.
            with laid_out("--log", f"{folder}/log", "--to", "65536", str(ROOT / "examples/echo/boot.s")) as desk:
                found = Hand(desk).ask(cursor=65_530, jump={"to": "event", "line": 0, "forward": True})
                self.assertEqual((found["jump"], "event" in found), (None, False))

    def test_visit_of_what_is_no_function_is_refused(self) -> None:
        with laid_out(*LOGIN) as desk, served(desk) as server:
            for name in ("zz", "", "-5", "1_0", "0x", "fffffffff", "\u0663"):
                reply = posted(server, {"cursor": 5, "jump": {"to": "visit", "function": name, "forward": True}})
                self.assertEqual(json.loads(reply.content), {  # type: ignore[attr-defined]
                    "problem": f"there is no function {name}: choose a row of the page, or an address of up to 8 hexadecimal digits"})
            # An instruction and a row of code without a symbol are named by their addresses.
            entry = desk._symbols.address("receive")
            found = [Hand(desk).ask(cursor=5, jump={"to": "visit", "function": name, "forward": True})["jump"]
                     for name in ("receive", f"{entry:x}", f"{entry:#010x}")]
            self.assertEqual(found, [found[0]] * 3)
            self.assertGreater(found[0], 5)

    def test_differences(self) -> None:
        """The first step after the cursor that two pasts do not share: an event, a byte that is sent, or a store."""
        image, log = brute.image("login/login.elf"), brute.log_of("login")
        found = {}
        for name, events in (("here", brute.without(log, 2)), ("there", log)):
            with brute.fresh(image, events) as driver:
                driver.goto(3 * SPAN)
                sent = driver.console(0)
                stores, at = set(), 3 * SPAN
                while True:
                    driver.goto(at)
                    step = driver.writer(LENGTH).step
                    if step is None:
                        break
                    stores.add((step, brute.word(driver, step + 1, LENGTH)))
                    at = step
                driver.goto(3 * SPAN)
                found[name] = {(driver.find(0, it), byte) for it, byte in enumerate(sent)} | stores
        differ = sorted({step for step, _ in found["here"] ^ found["there"]} | {log[2].time})
        with laid_out(*LOGIN) as desk:
            hand = Hand(desk)
            hand.ask(edits=[hand.edit("delete", id=2)])
            for position in (0, 40_000, 45_000, 100_000, 3 * SPAN):
                wanted = [it for it in differ if it > position]
                self.assertEqual(hand.ask(cursor=position, jump={"to": "difference"})["jump"], wanted[0] if wanted else None, position)


class Sweeps(unittest.TestCase):
    def test_outcomes_are_those_of_fresh_programs(self) -> None:
        image, log = brute.image("login/login.elf"), brute.log_of("login")
        steps = list(range(30_000, 130_000, 9_999)) + [109_999, 110_000]
        with laid_out(*LOGIN) as desk:
            hand = Hand(desk)
            tried: list[int] = []
            while len(tried) < len(steps):
                found = hand.ask(sweep={"id": 2, "steps": steps[len(tried):]})["sweep"]
                tried += found["tried"]
            wanted = []
            for step in steps:
                with brute.fresh(image, brute.moved(log, 2, step)) as driver:
                    wanted.append(brute.sent(driver, desk.end))
            self.assertEqual([wanted.index(it) for it in wanted], [tried.index(it) for it in tried])
            # From step 110,000 on, that of the last event, the backspace comes after Return.
            self.assertEqual(["Welcome" in found["outcomes"][it] for it in tried[-2:]], [False, True])
            asked = hand.ask(sweep={"id": 2, "values": [8, 0x7A], "wanted": "'Welcome'"})["sweep"]
            self.assertEqual((asked["tried"][:1], asked["outcomes"][0]), ([asked["present"]], "it does not come true"))
            self.assertEqual([(it.time, it.byte) for it in desk._driver.log], [(it.time, it.byte) for it in log])

    def test_sweep_of_another_kind_counts_outcomes_from_the_first(self) -> None:
        """After a sweep of values, one of steps shows only outcomes of steps: in a fresh desk the same ones."""
        values, steps = {"id": 2, "values": [8, 65, 66, 67]}, {"id": 2, "steps": [40_000, 40_001, 40_002]}
        with laid_out(*LOGIN) as desk:
            wanted = Hand(desk).ask(sweep=steps)["sweep"]
        with laid_out(*LOGIN) as desk:
            hand = Hand(desk)
            self.assertGreater(len(hand.ask(sweep=values)["sweep"]["outcomes"]), len(wanted["outcomes"]))
            found = hand.ask(sweep=steps)["sweep"]
            self.assertEqual({**found, "serial": 1}, wanted)
            # A page sees that numbers of outcomes have changed. To keep a past changes none.
            hand.ask(edits=[hand.edit("keep", name="one")])
            self.assertEqual(hand.ask(sweep=steps)["sweep"]["serial"], found["serial"])
            hand.ask(edits=[hand.edit("change", id=1, time=30_001, byte=8)])
            self.assertNotEqual(hand.ask(sweep=steps)["sweep"]["serial"], found["serial"])

    def test_causes_and_shrink(self) -> None:
        with laid_out(*LOGIN) as desk:
            hand = Hand(desk)
            causes = hand.ask(cursor=50_000, causes={"what": "session+32"})["causes"]
            # Up to here came 'x' and two backspaces: each of the three counts by being there.
            self.assertEqual(causes["by_being_there"], [0, 1, 2])
            reply = hand.ask(edits=[hand.edit("shrink", until="console 'Sorry'")])
            self.assertNotIn("problem", reply)
            # An empty line is enough: Return alone.
            self.assertEqual(reply["state"]["events"], 1)
            self.assertEqual(hand.ask(edits=[hand.edit("undo")])["state"]["events"], 10)

    def test_wanted_text_may_have_blanks(self) -> None:
        with laid_out(*LOGIN) as desk:
            hand = Hand(desk)
            for text in "'Welcome, operator.'", '"Welcome, operator."':
                asked = hand.ask(sweep={"id": 2, "values": [8, 0x7A], "wanted": text})["sweep"]
                self.assertEqual((asked["tried"], asked["outcomes"]), ([0, 0], ["it does not come true"]))
            reply = hand.ask(edits=[hand.edit("delete", id=2), hand.edit("shrink", until="'Welcome, operator.'")])
            self.assertNotIn("problem", reply)
            # The password and Return are enough.
            self.assertEqual(bytes(it.byte for it in desk._now.log), b"sesame\r")


class Reasons(unittest.TestCase):
    def test_why(self) -> None:
        """The steps and events that a word, a register and a byte that was sent come from are those of a fresh program with the log as it was
        edited. Events have the names that the page knows, whatever was put in before them."""
        image, log, here = brute.image("login/login.elf"), [Event(900, 0, 0x79), *brute.log_of("login")], 1_500
        names = [70, *range(10)]
        with brute.fresh(image, log) as driver, laid_out(*LOGIN) as desk:
            hand = Hand(desk)
            hand.ask(edits=[hand.edit("add", id=70, time=900, line=0, byte=0x79)])
            driver.goto(here)
            last = driver.sent(0) - 1
            for what, question, control in (("session+32", Word(LENGTH), False), ("$v1", Register("v1", 3), False),
                                            (f"sent 0 {last}", Sent(0, last), False), ("session+32 control to input", Word(LENGTH), True)):
                found = reasons.why(driver, symbols_of(image), question, here, control=control)
                found = found.to_input() if control else found
                shown = hand.ask(cursor=here, why={"what": what})["why"]
                self.assertEqual((shown["steps"], shown["events"]), (len(found.nodes), [names[it] for it in found.events()]))
                rows = [it for it in shown["rows"] if "step" in it]
                if not control:  # else turns of loops are one
                    self.assertEqual([it["step"] for it in rows], sorted(found.nodes, reverse=True))
                for links, wanted in ((shown["from"], found.links), *((it["from"], found.nodes[it["step"]].links) for it in rows)):
                    sources = [it for _, those in links for it in those]
                    self.assertEqual({it["step"] for it in sources if "text" not in it}, {it.source for it in wanted if isinstance(it.source, int)})
                    events = {it.source.number for it in wanted if isinstance(it.source, End) and it.source.origin is Origin.EVENT}
                    self.assertEqual({it["event"] for it in sources if "event" in it}, {names[it] for it in events if it is not None})
            self.assertEqual(shown["events"], [70])
            # What was found before it is stopped is shown.
            glances = iter(range(1 << 30))
            desk._driver.wants_stop = lambda: desk._stop or next(glances) == 60 and desk.interrupt() is None
            shown = hand.ask(cursor=110_000, why={"what": "session+32 control"})["why"]
            self.assertEqual(shown["rows"][-1], {"text": "what comes before was not looked at"})
            self.assertIn(shown["steps"], range(1, 20_000))
            desk._driver.wants_stop = lambda: False
            for what in ("", "nothing", "console", "v1 to output"):
                with self.assertRaises(Problem):
                    hand.ask(cursor=here, why={"what": what})


class Saving(unittest.TestCase):
    def test_files_are_read_back(self) -> None:
        log = brute.log_of("login")
        wanted = brute.without(brute.with_byte(log, 3, 0x53), 0)
        with laid_out(*LOGIN) as desk, tempfile.TemporaryDirectory() as folder:
            hand = Hand(desk)
            self.assertFalse(hand.ask()["state"]["unsaved"])
            hand.ask(edits=[hand.edit("change", id=3, time=log[3].time, byte=0x53, name="set 's' to 'S'"), hand.edit("delete", id=0)])
            self.assertTrue(hand.ask()["state"]["unsaved"])
            files = {kind: Path(folder) / kind for kind in ("log", "session", "image", "text")}
            for kind, file in files.items():
                file.write_bytes(bytes.fromhex(hand.ask(cursor=40_024, save={"kind": kind})["save"]["content"]))
            self.assertEqual(logs.read(files["log"].read_bytes(), "log"), wanted)
            self.assertEqual(logs.make(files["text"].read_text().splitlines(), "text"), wanted)
            with saved.running(Opening((str(files["session"]),))) as driver:
                self.assertEqual((driver.log, driver.position), (wanted, 40_024))
            self.assertIn("# set 's' to 'S'\nset 3 83\n# delete\ndel 0\n", files["session"].read_text().replace("del 3\nadd 50000 0 83", "set 3 83"))
            with laid_out(str(files["session"])) as again:
                self.assertEqual(Hand(again).ask()["state"]["cursor"], 40_024)
                self.assertEqual(again._driver.log, wanted)
            self.assertEqual(loading.image(str(files["image"]), "image").kind, "image")

    def test_edits_are_saved_when_the_page_confirms_that_the_browser_has_them(self) -> None:
        """Not before: the reply may be lost, or the tab closed. What is edited between is not saved."""
        with laid_out(*LOGIN) as desk:
            hand = Hand(desk)
            hand.ask(edits=[hand.edit("delete", id=2)])
            for kind in ("log", "text", "session"):
                number = hand.ask(save={"kind": kind})["save"]["saved"]
                self.assertTrue(hand.ask()["state"]["unsaved"], kind)
                self.assertFalse(hand.ask(saved=number)["state"]["unsaved"], kind)
                hand.ask(edits=[hand.edit("change", id=1, time=5 + number)])
                self.assertTrue(hand.ask(saved=number)["state"]["unsaved"], kind)
            self.assertNotIn("saved", hand.ask(save={"kind": "image"})["save"])
            with self.assertRaises(Problem):
                hand.ask(saved=number + 1)

    def test_no_edit_is_made_after_the_session_that_is_kept_at_the_end(self) -> None:
        with laid_out(*LOGIN) as desk:
            hand = Hand(desk)
            hand.ask(edits=[hand.edit("delete", id=2)])
            self.assertIn("\ndel 2\n", desk.unsaved_session() or "")
            with self.assertRaisesRegex(Problem, "the server has ended: its terminal names the session"):
                hand.ask(edits=[hand.edit("delete", id=1)])
            self.assertEqual(len(desk._now.log), 9)

    def test_save_after_another_program_changed_the_session_names_it(self) -> None:
        with laid_out(*LOGIN) as desk, tempfile.TemporaryDirectory() as folder:
            file = Path(folder, "walk.session").resolve()
            file.write_bytes(bytes.fromhex(Hand(desk).ask(save={"kind": "session"})["save"]["content"]))
            with laid_out(str(file)) as opened:
                self.assertEqual(Hand(opened).ask(save={"kind": "session"})["save"]["changed"], [])
                with open(file, "a") as other:
                    other.write("# mine\n")
                self.assertEqual(Hand(opened).ask(save={"kind": "log"})["save"]["changed"], [str(file)])

    def test_markup_stays_text(self) -> None:
        """The server gives texts of a run as JSON strings, whatever is in them."""
        with laid_out(*LOGIN) as desk, served(desk) as server:
            for number, byte in enumerate(b"<script>alert(1)</script>"):
                posted(server, {"edits": [{"number": number + 1, "do": "add", "id": 100 + number, "time": 120_000 + number, "line": 0, "byte": byte, "gesture": 1}]})
            reply = posted(server, {"view": WHOLE})
            self.assertEqual(reply.headers["Content-Type"], "application/json")
            events = json.loads(reply.content)["now"]["events"]  # type: ignore[attr-defined]
            self.assertIn("<script>", "".join(chr(it[3]) for it in events))


class Left(unittest.TestCase):
    def test_it_ends_with_the_page(self) -> None:
        """A page that is left ends the server, unless it comes again."""
        with laid_out(*LOGIN) as desk, served(desk) as server:
            with mock.patch("bezhakkom.view.server.LEAVE", 3600):
                self.assertEqual(posted(server, name="left").status, 204)
            self.assertIsNotNone(server._leaving)
            self.assertEqual(posted(server, {}).status, 200)
            self.assertIsNone(server._leaving)
        with laid_out(*LOGIN) as desk, served(desk) as server, mock.patch("bezhakkom.view.server.LEAVE", 3600):
            # Two pages. The server ends with the last of them.
            for page in "one", "two":
                posted(server, {"page": page})
            posted(server, {"page": "one"}, name="left")
            self.assertIsNone(server._leaving)
            posted(server, {"page": "two"}, name="left")
            self.assertIsNotNone(server._leaving)
        with laid_out(*LOGIN) as desk:
            server = Server(desk)
            thread = threading.Thread(target=server.serve_forever, args=(0.02,))
            thread.start()
            with mock.patch("bezhakkom.view.server.LEAVE", 0):
                posted(server, name="left")
            thread.join(300)
            self.assertFalse(thread.is_alive())
            server.server_close()


class Line(unittest.TestCase):
    def test_what_is_wrong_is_told(self) -> None:
        for words, reason in (([*LOGIN, "--to", "0"], "from 1 to"), ([*LOGIN, "--to", "x"], "is no number"),
                              (["--words", "nothing", *LOGIN[-1:]], "there is no word nothing"), (["none"], "there is no file none")):
            with self.assertRaises(Problem) as caught, laid_out(*words):
                pass
            self.assertIn(reason, str(caught.exception))

    def test_edits_that_are_not_saved_are_kept_however_the_server_ends(self) -> None:
        """As a session in a file, whose name is said. Where all is saved, nothing is."""
        # `nohup` ignores it, and so does what is started below.
        self.addCleanup(signal.signal, signal.SIGHUP, signal.signal(signal.SIGHUP, signal.SIG_DFL))
        delete = [{"number": 1, "do": "delete", "id": 2, "gesture": 1}]
        for number, edits, reason, status in ((signal.SIGINT, delete, "ended by Ctrl-C", 0), (signal.SIGINT, [], "", 0),
                                              (signal.SIGTERM, delete, "ended by SIGTERM", 143), (signal.SIGHUP, [], "", 129),
                                              (None, delete, "the last page was closed", 0)):
            with self.subTest(number=number, edits=edits):
                self.assertEqual(self.ended(number, edits), (reason, status))

    def ended(self, number: Optional[int], edits: list[dict[str, object]]) -> tuple[str, int]:
        """Makes edits on a page of a server of its own, which ends by a signal or with its page. Returns the reason for which a session was
        kept, which has these edits, and the status."""
        words = [sys.executable, str(ROOT / "front/bezhakkom"), "view", *LOGIN]
        with subprocess.Popen(words, stdin=subprocess.DEVNULL, stdout=subprocess.PIPE, stderr=subprocess.PIPE, text=True) as process:
            assert process.stdout and process.stderr
            address = process.stdout.readline().strip()

            def post(name: str, content: object) -> Any:
                request = urllib.request.Request(address + name, json.dumps(content).encode(),
                                                 {"Content-Type": "application/json", "Origin": address[:address.index("/", 8)]})
                with urllib.request.urlopen(request, timeout=300) as reply:
                    return reply.read()

            self.assertEqual(json.loads(post("ask", {"page": "one", "edits": edits}))["state"]["unsaved"], bool(edits))
            if number is None:
                post("left", {"page": "one"})
            else:
                process.send_signal(number)
            said, status = process.stderr.read(), process.wait(300)
        if not said:
            return "", status
        reason, _, rest = said.removeprefix("bin/wb: ").partition(": what was not saved is in ")
        name, _, rest = rest.partition(",")
        self.assertEqual(rest, " which `bin/wb shell` opens\n")
        with saved.running(Opening((name,))) as driver:
            self.assertEqual(driver.log, brute.without(brute.log_of("login"), 2))
        Path(name).unlink()  # else the next run of the image would offer it
        return reason, status

    def test_wires(self) -> None:
        needs_kinds(self)
        with laid_out(*BUTTON) as desk:
            shown = Hand(desk).ask(view=view(115, 200))["now"]
        # The log is `100 0 1 wire`, `110 2 1 wire`, `120 0 0 wire`.
        self.assertEqual((shown["wires"], shown["levels"], [it[1:] for it in shown["events"]]), ([0, 2], {0: 1, 2: 1}, [[120, 0, 0, 2]]))


if __name__ == "__main__":
    unittest.main()
