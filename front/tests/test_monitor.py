"""The commands of `monitor`, and how a debugger starts and leaves, without gdb."""
from __future__ import annotations

import tempfile
import unittest
from pathlib import Path

from bezhakkom import loading
from front.tests.support import ROOT, needs_erase, needs_kinds, start
from front.tests.wire import COUNTER, ECHO, TYPED, StubTest, Wire

COMMA = "refused: {} is no number: a comma stands before three digits, as in 40,024\n"


class Commands(StubTest):
    def holds(self, wire: Wire, *answers: tuple[str, str]) -> None:
        for line, expected in answers:
            self.assertEqual(wire.command(line), expected, line)

    def test_those_of_the_shell(self) -> None:
        self.holds(self.wire(ECHO, TYPED), (
            "goto 256", "step 256, 0xbfc01014: sll r0, r0, 0   (delay slot)\n"), (
            "writer 0xa0000100", "step 253, 0xbfc01008, 3 steps ago: sw r6, 256(r8)\n"), (
            "del 1", "1 event left\n"), (
            "writer 0x80000104", "step 81, 0xbfc01018, 175 steps ago: sw r0, 260(r8)\n"), (
            "undo", "taken back: del 1\n"), (
            "writer 0x80000104", "step 213, 0xbfc01018, 43 steps ago: sw r0, 260(r8)\n"), (
            "wb console 0 0 8", "console 0 2 4142\n"), ("run 9", "step 9, 0xbfc01000: lw r6, 8(r1)\n"), (
            "starti 0x14", "step 20, 0xbfc01000: lw r6, 8(r1)\n"), ("", ""), ("# a comment", ""))

    def test_numbers_with_commas(self) -> None:
        wire = self.wire(ECHO, TYPED)
        self.holds(wire, ("goto 1,000", "step 1,000, 0xbfc01004: sll r0, r0, 0\n"), ("erase 0 1,00", COMMA.format("1,00")),
                   ("del 0,1", COMMA.format("0,1")), ("wb log 0 1", "log 2\n0 70 0 0x41\n"))
        self.stops(wire, ("vRun;;" + b"1,001".hex(), "T05", 1001))

    def test_addresses_are_virtual_or_physical_with_a_mark(self) -> None:
        # The user program's store is made in step 30, at 0x00500000, which is the physical 0x11000.
        wire = self.wire_on(start(loading.image(str(ROOT / "examples/user-mode/boot.s"))))
        stored = "0x80010008, 1 step ago: sw r9, 0(r8)\n".replace("0x80010008", "0x00400008")
        unmapped = ("refused: 0x00500000 leads nowhere at this position: no translation entry has its page. It leads to memory at "
                    "positions where an entry maps its page 0x00500, mostly in user mode. The word with that physical address "
                    "is at 0x80500000, which is p:0x500000\n")
        wire.command("goto 20")
        self.holds(wire, ("writer 0x500000", unmapped), ("patch 0x500000 1", unmapped))
        wire.command("goto 31")
        self.holds(wire, ("writer 0x500000", f"step 30, {stored}"), ("writer p:0x11000", f"step 30, {stored}"),
                   ("mem p:0x11000 1", "0x80011000 <done+0xfe8>: 0x0000002a  |*...|\n"),
                   ("patch 0x400004 0x3409002b",
                    "the image sets 0x00400004; what steps before this position stored stands over it\n"),
                   ("mem 0x500000 1", "0x00500000: 0x0000002b  |+...|\n"))
        self.assertEqual(wire.driver.patches, [(0x10004, 0x3409002B)])
        self.assertIn("no memory stands at the physical address 0x1fe00000", wire.command("mem p:0x1fe00000"))

    def test_framing_errors_and_external_lines(self) -> None:
        needs_kinds(self)
        wire = self.wire(ECHO, TYPED)
        self.holds(wire, ("ferr 60 3 7", "event 0\n"), ("wire 65 2 1", "event 1\n"), ("set 1 0", "event 1\n"),
                   ("wb log 0 2", "log 4\n0 60 3 0x07 framing\n1 65 2 0x00 wire\n"))
        self.assertIn("refused: a step is", wire.command("wire 65 3 1"))

    def test_a_range_is_erased(self) -> None:
        needs_erase(self)
        wire = self.wire(ECHO, TYPED)
        wire.command("goto 256")
        self.holds(wire, ("erase 70 200", "1 event left\n"), ("wb log 0 8", "log 1\n0 200 0 0x42\n"),
                   ("wb console 0 0 8", "console 0 1 42\n"), ("wb find 0 0", "find 215\n"))

    def test_refusals_say_what_would_be_right(self) -> None:
        wire = self.wire(ECHO, TYPED)
        self.holds(
            wire, ("foo", "refused: there is no command foo; `help` lists them\n"), ("goto", "refused: usage: goto N\n"),
            ("add 1", "refused: usage: add T L B\n"), ("goto x", "refused: there is no symbol and no register x\n"),
            ("mem 0x80000001 1", "refused: 0x80000001 is no multiple of 4; the word that it is in is at 0x80000000\n"),
            ("del 2", "refused: there is no event 2: they are 0 to 1\n"),
            ("find 0 9", "refused: line 0 sent no byte of place 9 before this position\n"),
            ("erase 5 4", "refused: both steps are 0 to 1,099,511,627,775, and the first is not above the second\n"),
            ("quit", "refused: gdb has its own `quit`\n"), ("continue", "refused: gdb has its own `continue`\n"),
            ("goto " + "9" * 5000, f"refused: {'9' * 60}.. is too large: numbers are below 2^64\n"),
            ("undo", "refused: there is no edit to take back\n"),
            ("visit 2 9", "refused: 2 is no multiple of 4; the word that it is in is at 0x0\n"))
        for line, reason in (("mem 0xbfe00000 1", "no memory is"), ("add 5 4 0", "a line is 0 to 3"),
                             ("goto 1099511627776", "a position is 0 to")):
            self.assertRegex(wire.command(line), f"^refused: .*{reason}")

    def test_help_is_of_what_is_there(self) -> None:
        wire = self.wire(ECHO)
        shown = wire.command("help")
        for name in ("goto N", "writer A", "undo", "type [L] 'TEXT' [GAP]", "save-log FILE"):
            self.assertIn(f"\n  {name}", shown)
        for name in ("continue", "break A", "quit"):
            self.assertNotIn(f"\n  {name}", shown)
        self.assertIn("p:0x1000", shown)
        self.assertEqual(wire.command("help goto"), "goto N: goes to position N\nexample: goto 40,024\n")

    def test_what_is_typed_and_expected(self) -> None:
        # Without a byte the last turn of the loop that begins before 300 begins at 295.
        wire = self.wire(ECHO)
        wire.command("goto 300")
        self.holds(wire, ("type 'ab'", "2 bytes for line 0, from step 300 to step 1,300, 1,000 steps apart\n"))
        self.assertEqual(wire.command("next-run expect 'b'"), "")
        self.assertEqual(wire.ask("c"), "T00")
        self.assertTrue(wire.console.startswith(b"ab"), wire.console)
        self.assertEqual(wire.driver.console(0), b"ab")
        self.assertEqual(wire.command("next-run expect 'c'"), "")
        here = wire.position()
        self.stops(wire, ("vCont;c", "T00", here))
        self.assertIn(b"\n[line 0 did not send 'c'", wire.console)
        self.holds(wire, ("undo", "taken back: type 'ab'\n"), ("wb log 0 1", "log 0\n"))

    def test_a_write_of_memory_is_taken_back(self) -> None:
        wire = self.wire(COUNTER)
        self.dialog(wire, ("Mbfc00004,1:02", "OK"))
        self.assertEqual(wire.command("undo"), "taken back: a write of 1 byte at 0xbfc00004\n")
        self.dialog(wire, ("mbfc00004,4", "01004224"))

    def test_what_is_not_saved(self) -> None:
        wire = self.wire([0x24010001], TYPED)
        self.holds(wire, ("unsaved", ""), ("del 0", "1 event left\n"), ("unsaved", "not saved: the log (save-log FILE)\n"))

    def test_the_log_and_the_image_are_saved(self) -> None:
        wire = self.wire([0x24010001], TYPED)
        wire.command("del 0")
        wire.command("patch p:0x1fc00004 7")
        with tempfile.TemporaryDirectory() as folder:
            self.assertEqual(wire.command(f"save-log {folder}/log"), f"1 event saved in {folder}/log\n")
            one_event = bytes([1, 0, 0, 0, 200, 0, 0, 0, 0, 0x42])  # step 200, line 0, 0x42
            self.assertEqual(Path(folder, "log").read_bytes(), b"R3KLOG1\n" + one_event)
            self.assertEqual(wire.command(f"save-image {folder}/rom"), f"8 bytes saved in {folder}/rom\n")
            self.assertEqual(Path(folder, "rom").read_bytes(), bytes([1, 0, 1, 0x24, 7, 0, 0, 0]))
            self.assertIn("can't be written", wire.command(f"save-log {folder}/none/log"))
            # The ROM is no log, and is overwritten only by force.
            rom = Path(folder, "rom").read_bytes()
            self.assertIn("force", wire.command(f"save-log {folder}/rom"))
            self.assertEqual(Path(folder, "rom").read_bytes(), rom)
            self.assertIn("saved in", wire.command(f"save-log {folder}/rom force"))
            self.holds(wire, ("save-log", "refused: usage: save-log FILE [force]\n"), ("unsaved", ""))

    def test_a_run_starts_again_at_a_position(self) -> None:
        wire = self.wire(COUNTER)
        self.dialog(wire, ("!", "OK"), ("vKill;1", "OK"), ("?", "W00"))
        self.stops(wire, ("vRun;;" + b"40".hex(), "T05", 40), ("vRun;", "T05", 0))
        self.refusals(wire, ("vRun;;" + b"x".hex(), "no symbol and no register x"))

    def test_the_debugger_leaves(self) -> None:
        for packet, reply in (b"$D;1#b0", b"+$OK#9a"), (b"$k#6b", b"+"):
            wire = self.wire([0])
            wire.put(packet)
            self.assertEqual(wire.take(len(reply)), reply)
            wire.close()
            self.assertFalse(wire.serves())


if __name__ == "__main__":
    unittest.main()
