"""The stub, packet by packet, without gdb.

The words of the programs were assembled by hand or are those of the worked examples in examples/, and so are the
values."""
from __future__ import annotations

import os
import random
import signal
import tempfile
import unittest
import unittest.mock
from pathlib import Path

from bezhakkom import interrupts, target
from bezhakkom.commands import COMMANDS
from bezhakkom.log import Event
from bezhakkom.stub import ANSWERS
from front.tests.support import needs_erase, rom, start
from front.tests.wire import COUNTER, ECHO, TYPED, StubTest, packed

GARBAGE = 4000  # packets
PC, STATUS = 37, 32  # the numbers that gdb gives registers of a MIPS processor


class Registers(StubTest):
    def test_the_machine_at_reset(self) -> None:
        wire = self.wire([0])
        everything = wire.ask("g")
        self.assertEqual(everything[:8 * 32], "0" * 8 * 32)
        self.assertEqual(everything[8 * PC:8 * PC + 8], "0000c0bf")
        self.assertEqual(everything[8 * STATUS:8 * STATUS + 8], "00004000")
        self.dialog(wire, ("p25", "0000c0bf"), ("p20", "00004000"), ("p26", "00000000"), ("p49", "0400c0bf"),
                    ("pffff", "E01"),
                    ("p", "E01"))

    def test_a_load_waits_in_its_slot(self) -> None:
        # lui r1, 0xa000; lw r2, 256(r1); addu r3, r2, r0; addu r4, r2, r0, with 5 at 0x100
        wire = self.wire([0x3C01A000, 0x8C220100, 0x00401821, 0x00402021])
        wire.driver.patch(0x100, 5)
        wire.command("goto 2")
        self.dialog(wire, ("p2", "00000000"), ("p4b", "02000000"), ("p4c", "05000000"))
        self.stops(wire, ("s", "T05", 3))
        self.dialog(wire, ("p2", "05000000"), ("p3", "00000000"), ("p4b", "00000000"), ("p4c", "00000000"))

    def test_a_branch_marks_its_delay_slot(self) -> None:
        wire = self.wire(COUNTER)
        wire.command("goto 4")
        self.dialog(wire, ("p25", "1000c0bf"), ("p49", "0400c0bf"), ("p4a", "01000000"))

    def test_they_are_not_written(self) -> None:
        wire = self.wire(COUNTER)
        everything = wire.ask("g")
        self.dialog(wire, ("G" + everything, "OK"), ("P25=0000c0bf", "OK"))
        self.refusals(wire, ("P25=0400c0bf", "registers can't be written"),
                      ("G" + "1" * len(everything), "registers can't be written"))
        self.assertEqual(wire.ask("g"), everything)

    def test_the_description_comes_in_pieces(self) -> None:
        wire = self.wire([0])
        whole, more = "", "m"
        while more == "m":
            piece = wire.ask(f"qXfer:features:read:target.xml:{len(whole):x},100")
            more, whole = piece[0], whole + piece[1:]
        for name, number, bits in ("r0", 0, 32), ("status", 32, 32), ("pc", 37, 32), ("position", 72, 64), ("prid", 83, 32):
            self.assertIn(f'<reg name="{name}" bitsize="{bits}"', whole)
            self.assertRegex(whole, f'name="{name}"[^>]* regnum="{number}"')

    def test_the_position_has_64_bits(self) -> None:
        wire = self.wire(COUNTER)
        wire.command("goto 5")
        self.dialog(wire, ("p48", "0500000000000000"))
        self.assertEqual(target.text({"position": (1 << 40) - 1}, 72), b"ffffffffff000000")

    def test_a_run_does_not_begin_elsewhere(self) -> None:
        wire = self.wire(COUNTER)
        self.refusals(wire, ("cbfc00008", "registers can't be written"), ("sbfc00008", "registers can't be written"))


class Memory(StubTest):
    def test_it_is_read_in_all_sizes(self) -> None:
        wire = self.wire([0x03020100, 0x07060504, 0x0B0A0908])
        self.dialog(wire, ("mbfc00001,6", "010203040506"), ("m9fc00003,1", "03"), ("mbfc00000,0", ""))
        self.assertEqual(wire.ask("mbfc3fffc,8"), "00000000", "what stands beyond ROM is left out")

    def test_what_is_no_memory_is_not_read(self) -> None:
        wire = self.wire([0])
        for address in "bfe00000", "a0800000", "0", "c0000000", "ffffffff", "1ffffffff":
            self.dialog(wire, (f"m{address},4", "E01"))

    def test_rom_is_patched(self) -> None:
        wire = self.wire(COUNTER)
        wire.command("goto 3")
        self.dialog(wire, ("p2", "01000000"), ("Mbfc00004,1:02", "OK"), ("p2", "02000000"), ("mbfc00004,4", "02004224"))
        self.assertEqual(wire.driver.patches, [(0x1FC00004, 0x24420002)])
        self.dialog(wire, ("Mbfc00004,1:02", "OK"))
        self.assertEqual(len(wire.driver.patches), 1, "a write of what stands there is no edit")

    def test_ram_is_written_at_position_0_alone(self) -> None:
        wire = self.wire(COUNTER)
        self.dialog(wire, ("Ma0000200,4:01020304", "OK"), ("m80000200,4", "01020304"))
        wire.command("goto 1")
        self.refusals(wire, ("Ma0000200,4:05060708", "RAM can't be written at position 1"))
        self.dialog(wire, ("m80000200,4", "01020304"))

    def test_a_write_is_whole_or_not_at_all(self) -> None:
        wire = self.wire([0])
        self.refusals(wire, ("Ma07ffffc,8:0102030405060708",
                             "0xa0800000 leads to the physical address 0x00800000, where no memory is"))
        self.dialog(wire, ("ma07ffffc,4", "00000000"), ("Xbfc00000,0:", "OK"))


class Load(StubTest):
    """gdb writes a program, and then the PC."""

    def test_the_pc_is_taken_after_a_write_at_reset(self) -> None:
        wire = self.wire(COUNTER)
        self.refusals(wire, ("P25=0400c0bf", "registers can't be written"))
        self.dialog(wire, ("Ma0000200,4:01020304", "OK"), ("P25=00020080", "OK"), ("p25", "0000c0bf"))
        self.refusals(wire, ("P25=00004000", "0x00400000 leads nowhere"), ("P24=00000001", "registers can't be written"))
        self.stops(wire, ("s", "T05", 1), ("bs", "T05", 0))
        self.refusals(wire, ("P25=00020080", "registers can't be written"))

    def test_a_jump_at_reset_leads_to_the_new_entry(self) -> None:
        # lui r26, 0x8001; ori r26, r26, 0; jr r26; sll: the fourth step is the delay slot, and then comes 0x80010000.
        wire = self.wire([0x3C1A8001, 0x375A0000, 0x03400008, 0])
        self.dialog(wire, ("M80020004,4:00000000", "OK"), ("P25=04000280", "OK"))
        wire.command("goto 4")
        self.dialog(wire, ("p25", "04000280"))


class Runs(StubTest):
    def test_steps_go_both_ways(self) -> None:
        wire = self.wire(COUNTER)
        self.stops(wire, ("s", "T05", 1), ("vCont;s:1;c", "T05", 2), ("bs", "T05", 1), ("bs", "T05", 0),
                   ("bs", "T05replaylog:begin;", 0))

    def test_many_steps_back_name_what_is_faster_once(self) -> None:
        wire = self.wire(COUNTER)
        wire.command("goto 2000")
        for _ in range(499):
            wire.ask("bs")
        self.assertEqual(wire.console, b"")
        for _ in range(700):
            wire.ask("bs")
        self.assertEqual(wire.console.count(b"`reverse-next` passes over calls"), 1)
        wire.ask("s")
        for _ in range(499):
            wire.ask("bs")
        self.assertEqual(wire.console.count(b"`reverse-next` passes over calls"), 1)

    def test_a_step_beyond_the_end(self) -> None:
        needs_erase(self)
        wire = self.wire(COUNTER)
        wire.command("wb goto 1099511627775")
        self.assertEqual(wire.ask("s"), "T05replaylog:end;")

    def test_breakpoints_go_both_ways(self) -> None:
        wire = self.wire(ECHO)
        self.dialog(wire, ("Z0,bfc01000,4", "OK"))
        self.stops(wire, ("c", "T05", 9), ("s", "T05", 10), ("vCont;c", "T05", 20), ("bc", "T05", 9), ("bc", "T05replaylog:begin;", 0))
        self.dialog(wire, ("Z1,bfc01004,4", "OK"))
        self.stops(wire, ("c", "T05", 9), ("s", "T05", 10), ("c", "T05", 10), ("s", "T05", 11), ("c", "T05", 20), ("bc", "T05", 10),
                   ("bc", "T05", 9))
        self.dialog(wire, ("z0,bfc01000,4", "OK"))
        self.stops(wire, ("c", "T05", 10), ("s", "T05", 11), ("c", "T05", 21))

    def test_breakpoints_have_conditions(self) -> None:
        # r2 counts the turns of 4 steps, which begin at step 1; its addiu stands at 0xbfc00004. Expressions are `r2 == 3`, and
        # position >= 17, as not position < 17, of which one is enough.
        wire = self.wire(COUNTER)
        three, later = "X7,26000222031327", "Xa,2600482a402211150e27"
        self.dialog(wire, (f"Z0,bfc00004,4;{three}", "OK"))
        self.stops(wire, ("c", "T05", 13), ("bc", "T05replaylog:begin;", 0))
        self.dialog(wire, (f"Z0,bfc00004,4;{three}{later}", "OK"))
        self.stops(wire, ("c", "T05", 13), ("s", "T05", 14), ("c", "T05", 17), ("s", "T05", 18), ("c", "T05", 21), ("bc", "T05", 17),
                   ("bc", "T05", 13))
        self.dialog(wire, ("Z1,bfc00004,4", "OK"))
        self.stops(wire, ("bc", "T05", 9), ("s", "T05", 10), ("c", "T05", 13))
        self.dialog(wire, ("z1,bfc00004,4", "OK"), ("Z0,bfc00004,4", "OK"))
        self.stops(wire, ("bc", "T05", 9))
        self.dialog(wire, ("Z0,bfc00004,4;X5,2601", "E01"), ("Z0,bfc00004,4;Y", "E01"), ("z0,bfc00004,4", "OK"))

    def test_a_condition_without_a_value_stops(self) -> None:
        wire = self.wire(COUNTER)  # 1 / r2, of the first turn
        self.dialog(wire, ("Z0,bfc00004,4;X7,22012600020627", "OK"))
        self.stops(wire, ("c", "T05", 1))

    def test_a_breakpoint_may_stand_at_reset(self) -> None:
        wire = self.wire(COUNTER)
        self.dialog(wire, ("Z0,bfc00000,4", "OK"))
        wire.command("goto 5")
        self.stops(wire, ("bc", "T05", 0), ("bc", "T05replaylog:begin;", 0))

    def test_a_breakpoint_may_stand_in_a_delay_slot(self) -> None:
        # The branch is run in step 3, and each later turn has 4 steps.
        wire = self.wire(COUNTER)
        self.dialog(wire, ("Z0,bfc00010,4", "OK"))
        self.stops(wire, ("c", "T05", 4), ("s", "T05", 5), ("c", "T05", 8), ("bc", "T05", 4))

    def test_watches_stop_where_a_store_changes_their_bytes(self) -> None:
        # The loop stores what RBUF gave into 0x100 in steps 11, 22 ..: 0x8041 in step 77, 0x8042 in 209, and 0 else.
        # gdb takes a watch of a MIPS processor to stop before the store, goes over it without the watch, and compares.
        wire = self.wire(ECHO, TYPED)
        watch, without = ("Z2,a0000100,4", "OK"), ("z2,a0000100,4", "OK")
        stop = "T05watch:a0000100;"
        self.dialog(wire, watch)
        self.stops(wire, ("c", stop, 77), ("c", stop, 77), ("s", stop, 77))
        self.dialog(wire, without)
        self.stops(wire, ("s", "T05", 78))
        self.dialog(wire, watch)
        self.stops(wire, ("c", stop, 88))
        wire.command("goto 89")
        self.stops(wire, ("c", stop, 209))
        wire.command("goto 256")
        self.stops(wire, ("bc", stop, 221), ("bs", stop, 221))
        self.dialog(wire, without)
        self.stops(wire, ("bs", "T05", 220))
        self.dialog(wire, watch)
        self.stops(wire, ("bc", stop, 210))

    def test_a_watch_of_one_byte_is_not_another_ones(self) -> None:
        # Of 0x8041 the second byte is 0x80, and the third 0. The first is 0x41 after step 77, and 0x42 after 209.
        wire = self.wire(ECHO, TYPED)
        self.dialog(wire, ("Z2,a0000102,1", "OK"), ("Z2,80000101,1", "OK"))
        self.stops(wire, ("c", "T05watch:80000101;", 77))
        self.dialog(wire, ("z2,80000101,1", "OK"))
        wire.command("goto 256")
        self.stops(wire, ("bc", "T05replaylog:begin;", 0))

    def test_several_at_once_stop_at_the_nearest(self) -> None:
        # 0x104 is written in steps 81 and 213, both times with 0 over 0; a patch makes the first one a change.
        wire = self.wire(ECHO, TYPED)
        self.dialog(wire, ("Ma0000104,4:01000000", "OK"), ("Z2,a0000104,4", "OK"), ("Z2,a0000100,4", "OK"),
                    ("Z0,bfc01018,4", "OK"))
        self.stops(wire, ("c", "T05watch:a0000100;", 77))
        wire.command("goto 78")
        self.stops(wire, ("c", "T05", 81))
        self.dialog(wire, ("z0,bfc01018,4", "OK"))
        self.stops(wire, ("c", "T05watch:a0000104;", 81))
        self.dialog(wire, ("Z0,bfc01018,4", "OK"))
        wire.command("goto 200")
        self.stops(wire, ("bc", "T05watch:a0000100;", 89))
        wire.command("goto 88")
        self.stops(wire, ("bc", "T05watch:a0000104;", 82))

    def test_what_cannot_be_stopped_at_is_refused(self) -> None:
        wire = self.wire(ECHO)
        self.refusals(wire, ("Z3,a0000100,4", "reads can't be watched"), ("Z4,a0000100,4", "reads can't be watched"),
                      ("Z0,bfc01002,4", "a multiple of 4"),
                      ("Z2,bfe00000,4", "0xbfe00000 leads to the physical address 0x1fe00000, where no memory is"),
                      ("Z2,400000,4", "it can't be watched yet: 0x00400000 leads nowhere at this position: "
                       "no translation entry has its page. "
                       "It leads to memory at positions where an entry maps its page 0x00400, mostly in user mode"),
                      ("Z2,a07ffffe,4", "no memory stands at 0xa0800001"),
                      ("Z2,a0000000,101", "at most 256 bytes"), ("Z2,a0000ffe,4", "all in one page"))
        self.dialog(wire, ("Z0,bfc01000", "E01"), ("Zx,1,1", "E01"), ("z0,bfc01000,4", "OK"), ("z2,400000,4", "OK"))

    def test_a_range_is_stepped_through(self) -> None:
        wire = self.wire(ECHO)
        wire.command("goto 9")
        self.stops(wire, ("vCont;rbfc01000,bfc01014", "T05", 14), ("vCont;rbfc01014,bfc01038:1;c", "T05", 20))
        self.dialog(wire, ("Z0,bfc0100c,4", "OK"))
        self.stops(wire, ("vCont;rbfc01000,bfc01038", "T05", 23), ("vCont;rbfc01000,bfc01038", "T05", 34))

    def test_sign_extended_addresses_mean_their_32_bits(self) -> None:
        """gdb sign-extends addresses of MIPS: the same packets with 64 bits and with 32 have the same replies."""
        wire = self.wire(ECHO)
        wire.command("goto 9")
        self.stops(wire, ("vCont;rffffffffbfc01000,ffffffffbfc01014", "T05", 14))
        self.dialog(wire, ("mffffffffbfc00000,4", wire.ask("mbfc00000,4")), ("Mffffffffbfc00200,1:01", "OK"),
                    ("Z0,ffffffffbfc01018,4", "OK"), ("z0,bfc01018,4", "OK"), ("Z2,ffffffffa0000104,4", "OK"),
                    ("z2,a0000104,4", "OK"), ("Z0,ffffffffbfc01000,4", "OK"))
        self.stops(wire, ("c", "T05", 20))

    def test_continue_hits_a_breakpoint_at_the_position_that_gdb_knows(self) -> None:
        # The loop of 4 steps begins in step 1, at 0xbfc00004. gdb steps off a breakpoint before it continues, unless it means to hit it.
        wire = self.wire(COUNTER)
        self.dialog(wire, ("Z0,bfc00000,4", "OK"), ("Z0,bfc00004,4", "OK"), ("vRun;", "T05"))
        self.stops(wire, ("vCont;c", "T05", 0), ("vCont;c", "T05", 0), ("vCont;s", "T05", 1), ("vCont;c", "T05", 1),
                   ("bc", "T05", 0), ("bc", "T05replaylog:begin;", 0))

    def test_continue_leaves_a_breakpoint_to_which_monitor_moved(self) -> None:
        wire = self.wire(COUNTER)
        self.dialog(wire, ("Z0,bfc00004,4", "OK"), ("vRun;", "T05"))
        wire.command("goto 5")
        self.stops(wire, ("vCont;c", "T05", 9), ("vCont;c", "T05", 9))
        wire.command("patch 0xbfc00100 1")  # the position is the same, in another run
        self.stops(wire, ("vCont;c", "T05", 13))

    def test_continue_judges_the_condition_of_a_breakpoint_at_the_position(self) -> None:
        # r2 == 3 holds at 13, the fourth time that the loop begins.
        wire = self.wire(COUNTER)
        self.dialog(wire, ("Z0,bfc00004,4;X7,26000222031327", "OK"), ("vRun;39", "T05"))
        self.stops(wire, ("vCont;c", "T05", 13), ("vCont;c", "T05", 13))

    def test_what_is_sent_is_shown_once(self) -> None:
        wire = self.wire(ECHO, TYPED)
        self.dialog(wire, ("Z0,bfc01018,4", "OK"))
        self.dialog(wire, ("c", "T05"))
        self.assertEqual(wire.console, b"")
        self.dialog(wire, ("s", "T05"), ("c", "T05"))
        self.assertEqual(wire.console, b"A")
        self.dialog(wire, ("bc", "T05"))
        self.assertEqual(wire.console, b"A")

    def test_the_debugger_ends_a_long_run(self) -> None:
        wire = self.wire(COUNTER)
        wire.put(b"$c#63")
        wire.put(b"\x03")
        self.assertEqual(wire.reply(), b"T02")
        position = wire.position()
        self.assertEqual(position % 65536, 0)
        self.stops(wire, ("s", "T05", position + 1))

    def test_an_interrupt_behind_packets_ends_the_run_and_keeps_them(self) -> None:
        wire = self.wire(COUNTER)
        wire.put(packed(b"c") + packed(b"?") + packed(b"p25") + b"\x03")
        self.assertEqual([wire.reply() for _ in range(3)], [b"T02", b"T05", b"0000c0bf"])
        self.dialog(wire, ("s", "T05"))

    def test_a_debugger_that_closes_or_sends_without_end_ends_the_run(self) -> None:
        for packets, closes in (b"?", True), (b"c", True), (b"?", False):
            wire = self.wire(COUNTER)
            wire.command("idle 0")
            with unittest.mock.patch("bezhakkom.rsp.MOST_WAITING", 3 if not closes else 1000):
                wire.put(packed(b"c") + 3 * packed(packets))
                if closes:
                    wire.close()
                    self.assertFalse(wire.serves())
                else:
                    self.assertEqual([wire.reply() for _ in range(4)], [b"T02", *[b"T05"] * 3])

    def test_ctrl_c_between_two_steps_ends_the_next_one(self) -> None:
        """Also where registers are read before it. One that came long before it, or before a run that was ended, does nothing."""
        wire = self.wire(COUNTER)
        for soon, reply, position in ((3600, "T02", 1), (-1, "T05", 3)):
            with unittest.mock.patch("bezhakkom.rsp.SOON", soon):
                wire.command("goto 0" if soon > 0 else "goto 1")
                self.stops(wire, ("s", "T05", 1 if soon > 0 else 2))
                wire.put(b"\x03")
                self.dialog(wire, ("p25", wire.ask("p25")))
                self.stops(wire, ("s", reply, position), ("?", "T05", position))
        for packet in "vCont;s:1;c", "bs", "c", "bc":
            with unittest.mock.patch("bezhakkom.rsp.SOON", 3600):
                wire.put(b"\x03")
                self.stops(wire, (packet, "T02", 3))
        self.stops(wire, ("s", "T05", 4))

    def test_ctrl_c_in_a_start_ends_it_and_the_run_after_it(self) -> None:
        """The start itself is never refused: gdb would stand in the middle of it."""
        with tempfile.NamedTemporaryFile() as pressed:
            with unittest.mock.patch.dict(os.environ, {interrupts.VARIABLE: pressed.name}):
                wire = self.wire(COUNTER)
            interrupts.note(Path(pressed.name))
            with unittest.mock.patch("bezhakkom.interrupts.SHORT", -1):
                self.dialog(wire, ("vRun;;" + b"20000000000".hex(), "T05"))
            position = wire.position()
            self.assertLess(position, 20_000_000_000)
            self.assertEqual(wire.notes, [f"interrupted; at position {position:,}"])
            self.stops(wire, ("vCont;c", "T02", position), ("vCont;s", "T05", position + 1))

    def test_the_debugger_ends_a_long_search_back(self) -> None:
        wire = self.wire(COUNTER)
        wire.command("goto 3000001")
        self.dialog(wire, ("Z0,bfc00100,4", "OK"))
        wire.put(b"$bc#c5\x03")
        self.assertEqual(wire.reply(), b"T02")
        self.stops(wire, ("s", "T05", 3000002))


class StandsStill(StubTest):
    def test_a_loop_that_nothing_can_leave(self) -> None:
        # addiu r1, r0, 1; beq r0, r0, itself; sll
        wire = self.wire([0x24010001, 0x1000FFFF, 0], [Event(50, 0, 1)])
        self.stops(wire, ("c", "T05replaylog:end;", 1), ("c", "T05replaylog:end;", 1))
        self.assertIn(b"nothing can leave", wire.console)

    def test_a_loop_that_waits_for_a_byte(self) -> None:
        # Each turn of the echo stores 0 over 0. Of the byte of step 200 the last trace is r7, which is 0 again after
        # step 221.
        wire = self.wire(ECHO, TYPED)
        self.stops(wire, ("c", "T05replaylog:end;", 222))
        self.assertTrue(wire.console.startswith(b"AB"))
        self.assertIn(b"the log has no more", wire.console)

    def test_a_byte_that_is_added_is_waited_for(self) -> None:
        wire = self.wire(ECHO, TYPED)
        self.stops(wire, ("c", "T05replaylog:end;", 222))
        wire.command("add 100000 0 0x43")
        self.assertEqual(wire.ask("c"), "T05replaylog:end;")
        self.assertGreater(wire.position(), 100000)
        self.assertIn(b"C", wire.console)


class Hostile(StubTest):
    def test_packets_that_say_nothing(self) -> None:
        wire = self.wire(COUNTER)
        for packet in ("m", "m1", "m,", "mxyz,4", "m-1,4", "mbfc00000,-1", "mbfc00000,4,4", "M", "Mbfc00000,4:0",
                       "Mbfc00000,4:zz",
                       "Mbfc00000,4:00", "X", "Xbfc00000,1:", "Z", "z", "Z9,0,0", "P", "P25", "P25=", "p-1", "vCont;",
                       "vCont;rzz",
                       "vCont;t", "qRcmd,0", "qRcmd,zz", "qXfer:features:read:target.xml:", "vRun;zz;zz", "m0x10,4",
                       "m99999999999999999,4"):
            self.assertEqual(wire.ask(packet), "E01", packet)
        self.assertEqual(wire.position(), 0)

    @unittest.mock.patch("bezhakkom.whatif.compare.RAM", range(0x2000))  # that is all that this program could use
    def test_garbage(self) -> None:
        # The program stands still, so that each run ends at once.
        wire = self.wire([0x1000FFFF, 0])
        source = random.Random(1)
        begins = [begin.decode() for begin in ANSWERS if begin not in (b"D", b"k")]
        # Without those that write files, and those of as many steps as an address is.
        names = [it for it in COMMANDS if not it.startswith(("save", "load", "goto", "step", "back", "visit", "wb", "io", "trace"))]
        numbers = ("0 1 7 0xbfc00000 p:0x0 p:0x1fc00004 -1 1, 1,000 99999999999999999999 pc pos $sp 'a' 'b\\r' ' \" \n \0 \xff ;")
        words = [*names, "goto 1,000", "step 1", "back 1,", "visit 0xbfc00000 9", "wb pos", "io 9", "trace 9", *numbers.split(" ")]
        wire.command("patch p:0x100 7")
        for _ in range(GARBAGE):
            if source.random() < 0.5:
                characters = source.choices("0123456789abcdef,;:=.cs+ \n\x00\x7f", k=source.randrange(12))
                wire.ask(source.choice(begins) + "".join(characters))
            else:
                line = " ".join(source.choices(words, k=source.randrange(5)))
                wire.ask("qRcmd," + (source.choice(["", "", "next-run "]) + line).encode().hex())
        self.assertTrue(wire.serves())
        self.assertEqual([it for it in wire.notes if "a fault of bin/wb itself" in it], [])
        wire.command("wb goto 0")
        self.dialog(wire, ("g", wire.ask("g")))

    def test_a_newline_in_a_command(self) -> None:
        wire = self.wire(ECHO, TYPED)
        for line in ("wb goto 5\ngoto 6", "type '\n' 5\n", "\n", "wb 'a\nb'"):
            wire.command(line)
        self.assertEqual(wire.command("wb 'a\nb'"), "refused: a command is one line\n")
        self.assertEqual(wire.command("wb log 0 1"), "log 3\n0 0 0 0x0a\n")

    def test_a_fault_of_the_stub_costs_nothing(self) -> None:
        wire = self.wire(ECHO, TYPED)
        wire.command("del 1")
        with unittest.mock.patch("bezhakkom.memory.read", side_effect=ZeroDivisionError("here")):
            self.refusals(wire, ("mbfc00000,4", "ZeroDivisionError here; the session goes on"))
        self.assertEqual(wire.command("wb log 0 2"), "log 1\n0 70 0 0x41\n")

    def test_a_program_that_dies_is_started_again_with_all_edits(self) -> None:
        wire = self.wire(ECHO, TYPED)
        wire.command("goto 256")
        wire.command("del 1")
        wire.command("patch p:0x200 7")
        assert wire.driver._program
        process = wire.driver._program._process
        os.kill(process.pid, signal.SIGKILL)
        process.wait()
        self.refusals(wire, ("g", "the program was ended by SIGKILL"))
        self.assertEqual([wire.command(it) for it in ("wb pos", "wb writer 0x104", "mem 0xa0000200 1")],
                         ["pos 256\n", "writer 81\n", "0xa0000200: 0x00000007  |....|\n"])

    def test_the_reads_of_the_program_are_used_up(self) -> None:
        wire = self.wire_on(start(rom(COUNTER), most_reads=40))
        wire.command("patch p:0x1fc00004 0x24420003")
        for position in range(1, 60):
            self.stops(wire, ("s", "T05", position))
        # After 58 steps the addiu of steps 1, 5 .. 57 was made 15 times.
        self.dialog(wire, ("bs", "T05"), ("p2", "2d000000"))


if __name__ == "__main__":
    unittest.main()
