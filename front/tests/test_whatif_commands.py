"""The commands that ask what if, in scripts of the shell."""
from __future__ import annotations

import json
import unittest
from typing import Any
from unittest import mock

from bezhakkom.whatif.futures import OUT, STEP, VALUE
from bezhakkom.whatif.shown import runs, spelled
from bezhakkom.log import Event, Kind
from front.tests.outside import InFolder
from front.tests.scripts import shell

LOADER = ("--log", "examples/loader/log", "examples/loader/loader.elf")
LOGIN = ("--log", "examples/login/log", "examples/login/login.elf")
ECHO = ("--log", "examples/echo/log", "examples/echo/boot.s")


def answers(*lines: str, guest: tuple[str, ...] = ECHO) -> list[list[str]]:
    """What the shell says to each of some lines."""
    rest, found = shell("--echo", *guest, lines=lines).stdout, []
    for line in reversed(lines):
        rest, _, answer = rest.rpartition(f"> {line}\n")
        found.append(answer.splitlines())
    return found[::-1]


def said(*lines: str, guest: tuple[str, ...] = ECHO) -> list[str]:
    """What it says to the last of them."""
    return answers(*lines, guest=guest)[-1]


def value(*lines: str, guest: tuple[str, ...] = ECHO) -> Any:
    """The same with --json."""
    return json.loads(*said(*lines[:-1], f"{lines[-1]} --json", guest=guest))


@mock.patch("bezhakkom.whatif.compare.RAM", range(0x20000))  # that is all that these guests use
class Said(unittest.TestCase):
    maxDiff = None

    def test_causes(self) -> None:
        # Bytes 0x41 and 0x42 arrive in steps 70 and 200, and the program sends each back.
        self.assertEqual(said("goto 256", "causes console by set"), [
            "what line 0 sent at step 256: 'AB'",
            "2 of 2 events decide it by value (1 other value tried):",
            "  steps 70 to 200, line 0, 'AB' (events 0 to 1)"])
        self.assertEqual(said("goto 256", "causes sent 0 1 by both values 2"), [
            "byte 1 of line 0 at step 256: 'B'",
            "1 of 2 events decide it by value (2 other values tried):",
            "  step 200, line 0, 'B' (event 1)",
            "2 of 2 events decide it by being there:",
            "  steps 70 to 200, line 0, 'AB' (events 0 to 1)"])
        self.assertEqual(said("goto 100", "causes sp"), [
            "sp at step 100: 0x00000000",
            "0 of 1 event decide it by value (1 other value tried)",
            "0 of 1 event decide it by being there"])

    def test_causes_as_a_value(self) -> None:
        event = {"time": 200, "line": 0, "byte": 0x42, "kind": "byte"}
        self.assertEqual(value("goto 256", "causes sent 0 1 by set"), {
            "position": 256, "answer": 0x42, "place": None, "source": None, "events": 2, "tried": 2, "by_value": [{"event": 1, **event}]})

    def test_try(self) -> None:
        self.assertEqual(said("goto 230", "try 1 'A'..'C' 0x42 del"), [
            "event 1, line 0, 'B' in step 200: 4 pasts, 4 outcomes at step 230",
            "     1: 'A'", "        line 0 sends 'A', in loop",
            "     1: 'B' (as it is)", "        line 0 sends 'B', in loop",
            "     1: 'C'", "        line 0 sends 'C', in loop",
            "     1: taken out", "        nothing is sent, in loop"])
        self.assertEqual(said("goto 256", "try 1 moved 180..190 by 5 until console 'B' show pc")[:2], [
            "event 1, line 0, 'B' in step 200: 3 pasts, 1 outcome at step 256", "     3: steps 180..190 by 5"])

    def test_try_groups_by_what_was_sent_if_something_is_shown_or_sent(self) -> None:
        """The function is part of an outcome without `show` and `until console`, or with `by place`."""
        sent, placed = "        line 0 sends 'B'", "        line 0 sends 'B', in loop"
        for line, shown in (("try 1 'B'", placed), ("try 1 'B' by sent", sent), ("try 1 'B' show 0xa0000100", f"{sent}, 0xa0000100 is 0x00000000"),
                            ("try 1 'B' by place show 0xa0000100", f"{placed}, 0xa0000100 is 0x00000000"),
                            ("try 1 'B' until console 'B'", sent), ("try 1 moved 200..201 by 2 by sent", sent),
                            ("try 1 'B' until word 0xa0000100 == 0x8042", "        nothing is sent, in loop")):
            with self.subTest(line):
                self.assertEqual(said("goto 256", line)[2], shown)
        self.assertEqual([it["in"] for it in value("goto 256", "try 1 'B' by sent")["outcomes"]], [None])
        self.assertEqual(said("goto 256", "try 1 by luck")[0].partition(". usage")[0], "there is no symbol and no register luck")

    def test_try_as_a_value(self) -> None:
        found = value("goto 256", "try 1 'A'..'C' until console 'C'")
        self.assertEqual((found["event"], found["pasts"], found["tried"]), (1, 3, 3))
        self.assertEqual([(it["came_true"], it["values"]) for it in found["outcomes"]], [(False, [65, 66]), (True, [67])])

    def test_when(self) -> None:
        # The byte is stored in step 77, of the turn that begins at step 75 (examples/echo/README.md), and shows from position 78 on.
        self.assertEqual(said("goto 256", "when 0xa0000100 == 0x8041"), [
            "0xa0000100 == 0x8041 holds first at step 78, after step 77, loop+0x8, 179 steps ago: sw r6, 256(r8)"])
        self.assertEqual(said("goto 256", "when 0xa0000100==0x1234"), ["up to step 256 it does not hold that 0xa0000100==0x1234"])
        self.assertEqual(value("goto 256", "when 0xa0000100 > 0x8042 at 250"), {"position": None, "after": None, "reached": 250, "stopped": False})

    def test_source_lines(self) -> None:
        """Those of login.c, as gdb shows them in docs/DEBUGGING.md: the length is changed in line 44, and a byte read in line 33."""
        _, when, when_as_value, _, by_del, by_set, _, _, compare, compare_as_value = answers(
            "goto 50,000", "when session+0x20 == 0xffffffff", "when session+0x20 == 0xffffffff --json",
            "goto 40,024", "causes pc by del", "causes pc by set --json",
            "goto 50,000", "set 2 'a'", "compare", "compare --json", guest=LOGIN)
        self.assertEqual(when, ["session+0x20 == 0xffffffff holds first at step 40,025, after step 40,024, read_line+0x30 (login.c:44), "
                                "9,976 steps ago: sw r3, 32(r2)"])
        after = {"step": 40_024, "pc": 0xBFC0_0258, "place": "read_line+0x30", "source": "login.c:44"}
        self.assertEqual(json.loads(*when_as_value)["after"], after)
        self.assertEqual(by_del[0], "pc at step 40,024: 0xbfc00258 <read_line+0x30> (login.c:44)")
        found = json.loads(*by_set)
        self.assertEqual((found["answer"], found["place"], found["source"]), (0xBFC0_0258, "read_line+0x30", "login.c:44"))
        self.assertRegex(compare[1], r"^registers differ from step 40,0\d\d on, after receive\+0x4 \(login\.c:33\): ")
        after = json.loads(*compare_as_value)["registers"]["after"]
        self.assertEqual((after["pc"], after["source"]), (0xBFC0_0204, "login.c:33"))

    def test_values_have_no_source_line_unless_they_are_code(self) -> None:
        """The PC and a return address have one, and so has a pointer to the begin of a function. The address of an instruction within a
        function, which a word holds by chance, has none, though a line stands there."""
        within, begin = answers("goto 237,845", "causes record+0x18 by set", "goto 158,800", "causes record+0x18 by set", guest=LOADER)[1::2]
        self.assertEqual(within[0], "record+0x18 at step 237,845: 0xbfc004c4 <byte_at+0x6c>")
        self.assertEqual(begin[0], "record+0x18 at step 158,800: 0xbfc004d0 <store_record> (loader.c:100)")
        _, as_value, why = answers("goto 237,845", "causes record+0x18 by set --json", "why record+0x18 steps 1", guest=LOADER)
        self.assertEqual((json.loads(*as_value)["place"], json.loads(*as_value)["source"]), ("byte_at+0x6c", None))
        self.assertRegex(why[0], r"^record\+0x18 at step 237,845: 0xbfc004c4 <byte_at\+0x6c>   from ")
        _, pc, ra, a0, tried = answers("goto 40,024", "causes pc by set", "causes ra by set", "causes a0 by set",
                                       "try 2 'a' at 40,100 show pc session+0x20 ra", guest=LOGIN)
        self.assertRegex(pc[0], r"^pc at step 40,024: 0xbfc00258 <read_line\+0x30> \(login\.c:44\)$")
        self.assertRegex(ra[0], r"^ra at step 40,024: 0x[0-9a-f]{8} <\w+\+0x[0-9a-f]+> \(login\.c:\d+\)$")
        self.assertRegex(a0[0], r"^a0 at step 40,024: 0x[0-9a-f]{8}( <[^>]*>)?$")
        self.assertRegex(tried[-1], r"pc is 0x\w+ <[^>]+> \(login\.c:\d+\), session\+0x20 is 0x0000000\d, ra is 0x\w+ <[^>]+> \(login\.c:\d+\)$")

    def test_compare(self) -> None:
        _, of_none, _, shown, as_value, _, _, of_a_log = answers("goto 256", "compare", "set 1 'C'", "compare", "compare --json", "undo", "del 0",
                                                                 "compare examples/echo/log")
        self.assertEqual(shown[0], "the events differ from step 200 on")
        self.assertRegex(shown[1], r"^registers differ from step 208 on, after loop: load 0x8043 on its way to a2 here, "
                                   r"0x8042 on its way to a2 before$")
        self.assertEqual(shown[2], "line 0: byte 1 is 'C' in step 215 here, 'B' in step 215 before")
        self.assertEqual(shown[-1], "`undo` goes back to before `set 1 'C'`")
        self.assertEqual(of_none, ["there is no edit to compare with; `compare LOG` compares with a log"])
        self.assertEqual(of_a_log[2], "line 0: byte 0 is 'B' in step 215 here, 'A' in step 83 there")
        self.assertEqual(json.loads(*as_value)["sent"], [{"line": 0, "place": 1, "here": [0x43, 215], "there": [0x42, 215]}])

    def test_shrink_is_an_edit(self) -> None:
        _, shrunk, log, compare, _, log_before, as_value = answers(
            "goto 256", "shrink until console 'B' as all-of-it", "log 0 1", "compare all-of-it", "undo", "log",
            "shrink until word 0xa0000100 == 0x8042 --json")
        self.assertEqual(shrunk, ["1 of 2 events are left, and `console 'B'` comes true at step 216:", "  200 0 'B'",
                                  "the log as it was is kept as all-of-it; `undo` brings it back"])
        self.assertEqual(log[0], "1 event, 1 before this position")
        self.assertEqual(compare[0], "the events differ from step 70 on")
        self.assertEqual(log_before[0], "2 events, 2 before this position")
        found = json.loads(*as_value)
        self.assertEqual((found["before"], found["events"], found["stopped"]),
                         (2, [{"time": 200, "line": 0, "byte": 66, "kind": "byte"}], False))

    def test_help(self) -> None:
        self.assertEqual(said("help when"), [
            "when A ..: shows the first step up to here after which the word at A has a value: when count == 3, when count > 8",
            "usage: when ADDRESS OP VALUE [at N] [--json]", "example: when session+0x20 == -1"])

    def test_jobs(self) -> None:
        for line in ("causes session+0x20 values 3", "try 2 all"):
            _, by_two, alone = answers("goto 130,000", f"{line} --jobs 2", line, guest=LOGIN)
            self.assertEqual(by_two, alone)

    def test_all_is_as_before(self) -> None:
        *_, unsaved, position, log = answers("goto 250", "patch 0xa0000200 7", "causes console", "try 0 all", "when 0xa0000100 == 5", "compare",
                                             "unsaved", "pos", "log")
        self.assertEqual(unsaved, ["not saved: the image (save-image FILE)"])
        self.assertEqual(position[0].partition(",")[0], "step 250")
        self.assertEqual(log[1:], ["     0: step 70, line 0, 0x41 'A', 180 steps ago", "     1: step 200, line 0, 0x42 'B', 50 steps ago"])

    def test_ranges_and_runs(self) -> None:
        event = Event(5, 0, 65)
        labels = [(VALUE, it) for it in (3, 4, 48, 49, 50, 255)] + [(OUT, 0)] + [(STEP, it) for it in (10, 12, 14, 20)]
        self.assertEqual(spelled(labels, event), "0x03..0x04, '0'..'2', 0xff, steps 10..14 by 2, step 20, taken out")
        self.assertEqual(spelled([(VALUE, 0)], Event(5, 0, 1, Kind.WIRE)), "level 0")
        log = [Event(1, 0, 65), Event(2, 0, 66), Event(2, 1, 67), Event(3, 0, 1, Kind.WIRE), Event(4, 0, 1, Kind.WIRE),
               Event(5, 0, 68, Kind.FRAMING), Event(6, 0, 69, Kind.FRAMING)]
        self.assertEqual(list(runs(log, range(7))), [
            "steps 1 to 2, line 0, 'AB' (events 0 to 1)", "step 2, line 1, 'C' (event 2)", "step 3, external line 0 gets 1 (event 3)",
            "step 4, external line 0 gets 1 (event 4)", "steps 5 to 6, line 0, 'DE' with framing errors (events 5 to 6)"])
        self.assertEqual(list(runs(log, [0, 6])), ["step 1, line 0, 'A' (event 0)", "step 6, line 0, 'E' with a framing error (event 6)"])


class Saved(InFolder):
    def test_fuzz_saves_what_crashes(self) -> None:
        file = self.folder / "crash.session"
        lines = ("arrive 20000 0 'S11B0018452C20494E2054574F205245434F5244532E205448452045C4\\r' 1000",
                 "arrive 90000 0 'S104000000FB\\r' 1000", "goto 150,000",
                 f"fuzz 15,000 until pc fatal steps 185,000 seed 3 tries 1500 save {file} --json")
        found = json.loads(said(*lines, guest=LOADER[2:])[0])
        self.assertEqual(found["file"], str(file))
        opened = shell(str(file), lines=("pos", "log 0 1"))
        self.assertRegex(opened.stdout, r"^step [\d,]+, fatal \(start\.S:32\): ")
        self.assertIn(f"{len(found['shrunk']['events']):,} events, ", opened.stdout)
        file.write_text("no session")
        shown, why = said(*lines, guest=LOADER[2:])
        self.assertEqual(json.loads(shown), {**found, "file": None})
        self.assertEqual(why, f"{file} is there and is no session. `fuzz .. save {file} force` overwrites it")
        self.assertEqual(file.read_text(), "no session")


if __name__ == "__main__":
    unittest.main()
