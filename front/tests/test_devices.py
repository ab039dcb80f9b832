"""What the devices hold and who wrote a register, as the shell and the library show it."""
from __future__ import annotations

import json
import random
import unittest

import bezhakkom
from bezhakkom import devices, replies
from bezhakkom.limits import HI, LO
from front.tests import brute, debugger, scripts
from front.tests.support import ROOT, needs_questions

LINES = [
    "serial csr 0x0000c1e8 rbuf 0x00008041 tcr 0x00000002 msr 0x00000000 served 1 time 200",
    "line 0 receiver 1 lost 0 busy 0", "line 1 receiver 0 lost 1 busy 1", "line 2 receiver 0 lost 0 busy 0", "line 3 receiver 0 lost 0 busy 0",
    "silo 2 0x00008041 0x0000e30a",
    "clock interrupt 1 second 5192 period none registers 580059002383073112992012b080" + "00" * 49 + "07",
    "board csr 0x00810081 interrupt 1"]


class Shown(unittest.TestCase):
    maxDiff = None

    def test_a_value(self) -> None:
        found = replies.devices(LINES)
        self.assertEqual(found["serial"], {"csr": 0xC1E8, "rbuf": 0x8041, "tcr": 2, "msr": 0, "served": 1, "time": 200})
        self.assertEqual(found["lines"][1], {"receiver": False, "lost": True, "busy": 1})
        self.assertEqual(found["silo"], [0x8041, 0xE30A])
        clock = found["clock"]
        self.assertEqual((clock["interrupt"], clock["second"], clock["period"], len(clock["registers"]), clock["registers"][4]),
                         (True, 5192, None, 64, 0x23))
        self.assertEqual(found["board"], {"csr": 0x0081_0081, "interrupt": True})

    def test_as_text(self) -> None:
        """Names of bits by hand, from the numbers above."""
        self.assertEqual(list(devices.text(replies.devices(LINES))), [
            "serial part: CSR 0xc1e8 TRDY TIE RDONE RIE MSE MAINT, line 1 waits for a byte to send; TCR 0x0002; MSR 0x0000",
            "  a byte is sent in 200 steps, the last one on line 1",
            "  line 0: receiver on, may not send",
            "  line 1: receiver off, may send, is sending for 1 step more, a byte was lost",
            "  line 2: receiver off, may not send",
            "  line 3: receiver off, may not send",
            "  silo: 2 bytes, RBUF 0x8041 is next",
            "    line 0, 'A'",
            "    line 3, '\\n' OERR FERR",
            "clock: 23:59:58, alarm 83:00:00, day 31, month 12, year 99, weekday 07",
            "  A 0x20, B 0x12 UIE 24/12, C 0xb0 IRQF AF UF, D 0x80 VRT; interrupt on",
            "  the second ends in 5,192 steps, the period never",
            "  memory from register 14 on: " + "00 " * 49 + "07",
            "board: CSR 0x00810081; enabled: external line 0, serial part; up: external line 0, serial part; interrupt on"])

    def test_twelve_hours(self) -> None:
        line = LINES[6].replace("2012b080", "2010b080")
        self.assertIn("alarm 03 PM:00:00", list(devices.text(replies.devices([*LINES[:6], line, LINES[7]])))[9])


class Asked(unittest.TestCase):
    """Of the program. Positions by hand, from the logs and the sources."""

    def setUp(self) -> None:
        needs_questions(self)

    def said(self, *lines: str, files: tuple[str, ...]) -> list[str]:
        return scripts.shell("--echo", *files, lines=lines).stdout.rpartition(f"> {lines[-1]}\n")[2].splitlines()

    def test_a_byte_waits(self) -> None:
        with bezhakkom.boot(ROOT / "examples/echo/boot.s", log=ROOT / "examples/echo/log") as machine:
            # Byte 0x41 arrives in step 70, and step 75 reads RBUF.
            for position, silo in ((70, []), (71, [0x8041]), (75, [0x8041]), (76, [])):
                machine.goto(position)
                self.assertEqual(machine.devices["silo"], silo, position)
            self.assertEqual(machine.devices["serial"]["tcr"], 1)

    def test_in_the_shell(self) -> None:
        files = ("--log", "examples/driver/log", "examples/driver/boot.s")
        shown = self.said("goto 90", "devices", files=files)
        self.assertEqual(shown[0], "serial part: CSR 0x4060 TIE RIE MSE; TCR 0x0000; MSR 0x0000")
        self.assertIn("clock: 23:59:58, alarm 00:00:00, day 31, month 12, year 99, weekday 07", shown)
        self.assertEqual(shown[-1], "board: CSR 0x00800000; enabled: serial part; up: none; interrupt off")
        one, = self.said("goto 90", "devices --json", files=files)
        self.assertEqual(json.loads(one)["serial"]["csr"], 0x4060)
        self.assertEqual(self.said("devices more", files=files), ["usage: devices [--json]"])

    def test_writers(self) -> None:
        """Against a trace of all steps."""
        source = random.Random(5)
        for name, log in (("exceptions/boot.s", None), ("driver/boot.s", "driver")):
            with brute.fresh(brute.image(name), brute.log_of(log) if log else []) as run:
                steps = list(run.traced(0, 400))
                for _ in range(60):
                    position, number = source.randrange(401), source.randrange(34)
                    wanted = [it.step for it in steps[:position] if it.word is not None and (
                        it.write and it.write[0] == number or it.hi_lo and number in {0x11: (HI,), 0x13: (LO,)}.get(it.word & 63, (HI, LO)))]
                    run.goto(position)
                    self.assertEqual(run.register_writer(number), wanted[-1] if wanted else None)

    def test_writers_in_the_shell(self) -> None:
        files = ("examples/exceptions/boot.s",)
        # r19 stays 0, since the third exception is taken in its place; r18 is written in steps 49 and 50.
        self.assertEqual(self.said("goto 60", "writer $s3", files=files), ["no step before this position wrote $s3"])
        self.assertRegex(self.said("goto 51", "writer $s2", files=files)[0], r"^step 50, copy\+0x30, 1 step ago: ori r18, r18, 0xffff$")
        self.assertEqual(self.said("writer $epc", files=files), ["who wrote epc is not noted: that is known of r0 to r31, hi and lo"])
        with bezhakkom.boot(ROOT / files[0]) as machine:
            machine.goto(60)
            self.assertIsNone(machine.writer("$s3"))
            writer = machine.writer("$s2")
            assert writer
            self.assertEqual(writer.number, 50)

    def test_stores(self) -> None:
        with brute.fresh(brute.image("echo/boot.s"), brute.log_of("echo")) as run:
            run.goto(400)
            found = list(run.stores(0x100, 40))
            self.assertEqual(found, [(it.step, it.access.word) for it in reversed(list(run.traced(0, 400)))
                                     if it.access and it.access.kind == "store" and it.access.address == 0x100][:40])
            self.assertEqual((len(list(run.stores(0x100, 3))), run.position), (3, 400))

    def test_in_gdb(self) -> None:
        debugger.needed()
        shown = "\n".join(debugger.batch("exceptions/boot.s", "wb goto 51", "wb writer $s2", "wb writer $r18", "wb devices", "wb devices --json"))
        self.assertEqual(shown.count("step 50, copy+0x30, 1 step ago: ori r18, r18, 0xffff"), 2)
        self.assertIn("serial part: CSR 0x0000; TCR 0x0000; MSR 0x0000", shown)
        self.assertIn('{"serial": {"csr": 0, ', shown)


if __name__ == "__main__":
    unittest.main()
