"""Where a run stands still: against all its states, and in loops whose end is counted by hand."""
from __future__ import annotations

import random
import unittest
from typing import Optional, Sequence

from bezhakkom import ticks, travel
from bezhakkom.driver import Driver
from bezhakkom.expecting import until_sent
from bezhakkom.limits import GREATEST_POSITION
from bezhakkom.log import Event, Kind
from bezhakkom.replies import memory, registers
from bezhakkom.standstill import Quiet, Standstill, quiet, standstill
from bezhakkom.states import followed, registers_at
from front.tests import brute
from front.tests.support import DATA, immediate, needs_kinds, random_rom, rom, start
from bezhakkom.travel import Reason, Stops, Watch

STEPS = 600
LOOKED_AT = 100

# lui r1, 0xbfe0; addiu r2, r0, 0x20; sw r2, 0(r1): the serial part is on
SERIAL_ON = [0x3C01BFE0, 0x24020020, 0xAC220000]
# lw r3, 0(r1); nop; beq r0, r0, back; nop
POLL = [0x8C230000, 0, 0x1000FFFD, 0]
# lw r3, 0(r1); nop; sll r4, r3, 16; bgez r4, back; nop
AWAIT_READY = [0x8C230000, 0, 0x00032400, 0x0481FFFC, 0]
# beq r0, r0, itself; nop
END = [0x1000FFFF, 0]
# lui r29, 0xa000; sw r2, 0(r29); addiu r2, r2, 1; sw r2, 0(r29); addiu r2, r2, -1; beq r0, r0, back; nop
CHANGES = [0x3C1DA000, 0xAFA20000, 0x24420001, 0xAFA20000, 0x2442FFFF, 0x1000FFFB, 0]
# lui r1, 0x40; ori r1, r1, 0x0401; mtc0 r1, c12: devices of the board may interrupt, or after `HEARS_CLOCK` the clock
HEARS_BOARD, HEARS_CLOCK = ([0x3C010040, 0x34210001 | lines, 0x40816000] for lines in (0x400, 0x800))
# lui r8, 0xbfe8; addiu r9, r0, 0x2c; sw r9, 40(r8); addiu r9, r0, 0x46; sw r9, 44(r8): an interrupt each 512 steps
TICKS = [0x3C08BFE8, 0x2409002C, 0xAD090028, 0x24090046, 0xAD09002C]
# lui r26, 0xbfe8; lw r26, 48(r26); mfc0 r26, c14; nop; jr r26; rfe
HANDLER = [0x3C1ABFE8, 0x8F5A0030, 0x401A7000, 0, 0x03400008, 0x42000010]
COUNT, COUNT_IN_MEMORY = [0x277B0001], [0x3C1BA000, 0x8F7A0100, 0, 0x275A0001, 0xAF7A0100, 0]  # r27; the word at 0x100
# lui r8, 0xbfe8; addiu r9, r0, 5; sw r9, 4(r8); addiu r9, r0, 0x26; sw r9, 44(r8): an alarm; lui r29, 0xa000; addiu r2, r0, 7;
# sw r2, 256(r29); beq r0, r0, back; nop
ALARM_LOOP = [0x3C08BFE8, 0x24090005, 0xAD090004, 0x24090026, 0xAD09002C, *HEARS_CLOCK, 0x3C1DA000, 0x24020007, 0xAFA20100, 0x1000FFFE, 0]
ALARM_LOOP += [0] * (0x180 // 4 - len(ALARM_LOOP))
# The serial part is on, and line 0 may send: addiu r2, r0, 1; sw r2, 16(r1); the alarm, in each minute of each hour: addiu r9, r0, 0xc0;
# sw r9, 12(r8); sw r9, 20(r8); and the loop
ALARM_SENDS = [*SERIAL_ON, 0x24020001, 0xAC220010, *ALARM_LOOP[:8], 0x240900C0, 0xAD09000C, 0xAD090014, *END]
ALARM_SENDS += [0] * (0x180 // 4 - len(ALARM_SENDS))
TICKING = [*TICKS, *HEARS_CLOCK, *END]
TICKING += [0] * (0x180 // 4 - len(TICKING))


def devices_rom(source: random.Random) -> list[int]:
    """A loop that stores, loads, asks devices and control registers and takes exceptions at random. Devices may interrupt, and
    the handler goes back to the instruction or to the one after it, or is missing."""
    def one(at: int) -> int:
        register, other, kind = source.randrange(11, 16), source.randrange(11, 16), source.random()
        if kind < 0.35:
            return immediate(0x09, register, other, source.choice((-1, 0, 0, 1)))
        if kind < 0.6:
            return immediate(source.choice((0x2B, 0x23)), 10, register, DATA + 4 * source.randrange(2))
        if kind < 0.68:
            return immediate(0x23, *source.choice(((8, register, 0), (8, register, 8), (9, register, 0), (9, register, 48))))
        if kind < 0.75:
            return source.choice((0x4000_0000, 0x4080_0000)) | register << 16 | source.choice((1, 12, 13, 14)) << 11
        if kind < 0.78:
            return source.choice((0xC, 0xD, 0x4200_0010, 0x4200_0006, 0x4200_0002))
        return immediate(source.choice((4, 5)), register, other, source.randrange(count) - at - 1) if kind < 0.88 else 0

    count = source.randrange(3, 12)
    status = source.choice((0, 0x40_0000, 0x40_0401, 0x40_0801, 0x40_0C01))
    ticks_on = immediate(0x09, 0, 2, source.choice((6, 0x16, 0x46)))
    begin = [0x3C08BFE0, 0x3C09BFE8, 0x3C0AA000, 0x24020020, 0xAD020000, 0x2402002C, 0xAD220028, ticks_on, 0xAD22002C,
             0x3C020000 | status >> 16, 0x34420000 | status & 0xFFFF, 0x40826000]
    program = [*begin, *(one(at) for at in range(count)), immediate(4, 0, 0, -count - 1), 0]
    handlers: list[list[int]] = [[], HANDLER, HANDLER[2:], [0x401A7000, immediate(0x09, 26, 26, 4), 0x03400008, 0x42000010]]
    return program + [0] * (0x180 // 4 - len(program)) + source.choice(handlers)


class Stands(unittest.TestCase):
    def driver(self, words: Sequence[int], log: Sequence[Event] = ()) -> Driver:
        driver = start(rom(words), log)
        self.addCleanup(driver.close)
        return driver

    def stands(self, driver: Driver, position: int) -> Optional[Standstill]:
        driver.goto(position)
        found = standstill(driver, LOOKED_AT)
        self.assertEqual(driver.position, position)
        return found.kind if found else None

    def test_it_is_what_all_states_say(self) -> None:
        source = random.Random(7)
        still = 0
        for _ in range(25):
            driver = self.driver(random_rom(source))
            answers = driver.values([it for position in range(STEPS) for it in (f"goto {position}", "regs",
                                                                                f"mem {DATA} 4")])
            states = [(registers(processor), memory(words)) for processor, words in zip(answers[1::3], answers[2::3])]
            for position in source.sample(range(STEPS - 4 * LOOKED_AT), 5):
                rest = states[position:]
                turn = next((it for it in range(1, LOOKED_AT) if rest[it] == rest[0]), None)
                changes = any(state[1] != rest[0][1] for state in rest)
                self.assertEqual(turn and rest[turn:] == rest[:-turn], turn and True)
                driver.goto(position)
                found = standstill(driver, LOOKED_AT)
                # A turn that changes memory takes more to be seen than its states.
                if found or turn and not changes:
                    self.assertEqual(found, Quiet(GREATEST_POSITION, Standstill.STUCK, turn if changes else None))
                still += bool(found)
        self.assertGreater(still, 5)

    def test_what_is_said_holds(self) -> None:
        """Programs with devices and exceptions: where one is said to stand still, its states come again, near and far."""
        said = set()
        for seed in range(40):
            source = random.Random(seed)
            driver = self.driver(devices_rom(source))
            driver.goto(source.choice((90, 700, 20_000)))
            here, found, second = driver.position, standstill(driver, 600), ticks.period(driver)
            if found:
                said.add(found.kind)
                near = self.states(driver, here, LOOKED_AT)
                turn = found.turn or next(it for it in range(1, LOOKED_AT) if near[it] == near[0])
                for turns in 1, 90, 4000:
                    self.assertEqual(self.states(driver, here + turns * turn, LOOKED_AT), near, seed)
            elif second:
                for seconds in 1, 2, 5:
                    later = self.states(driver, here + seconds * second, LOOKED_AT)
                    self.assertEqual(later, self.states(driver, here, LOOKED_AT), seed)
            driver.close()
        self.assertEqual(said, set(Standstill))

    @staticmethod
    def states(driver: Driver, first: int, count: int) -> list[list[str]]:
        """The processor and the words at DATA, at positions from one on."""
        shown = driver.values([it for at in range(first, first + count) for it in (f"goto {at}", "regs", f"mem {DATA} 2")])
        return [lines for number, lines in enumerate(shown) if number % 3]

    def test_states_that_follow(self) -> None:
        """They are made of what steps do, also around exceptions, and are those that the program shows."""
        guests = [(rom(devices_rom(random.Random(seed))), []) for seed in range(12)]
        guests += [(brute.image(f"{name}/boot.s"), brute.log_of(name) if name == "driver" else [])
                   for name in ("driver", "exceptions", "user-mode", "load-slot")]
        for guest, log in guests:
            with brute.fresh(guest, log) as driver:
                for position in 0, 3, 95, 7_000:
                    state, = registers_at(driver, [position])
                    found = list(followed(driver, position, state, 60))
                    self.assertEqual([step.step for step, _ in found], list(range(position, position + 60)))
                    self.assertEqual([it for _, it in found], registers_at(driver, range(position + 1, position + 61)), guest.name)

    def test_a_line_that_will_never_be_ready(self) -> None:
        # No line may send. The loop's register has its value from position 5 on.
        driver = self.driver([*SERIAL_ON, *POLL])
        self.assertEqual([self.stands(driver, it) for it in (3, 4, 5, 6)],
                         [None, None, Standstill.WAITING, Standstill.WAITING])

    def test_a_line_that_will_be_ready(self) -> None:
        # After the byte of the store of TDR line 0 is busy for 16 steps: then the loop is left for the last one.
        sends = [0x24050001, 0xAC250010, *AWAIT_READY, 0xAC220018, *AWAIT_READY]
        driver = self.driver([*SERIAL_ON, *sends, *END])
        end = 0xBFC0_0000 + 4 * len(SERIAL_ON + sends)
        found = [self.stands(driver, it) for it in range(60)]
        driver.goto(0)
        first = int(driver.ask(f"visit {end} 60")[0].split()[1])
        self.assertEqual(found, [None] * first + [Standstill.STUCK] * (60 - first))

    def test_a_byte_that_is_to_come(self) -> None:
        driver = self.driver([*SERIAL_ON, *POLL], [Event(90, 0, 1)])
        self.assertEqual([self.stands(driver, it) for it in (20, 90, 91)], [None, None, Standstill.WAITING])
        # Up to the byte nothing changes. Of a position shortly before it that is not known.
        driver.goto(20)
        self.assertEqual(quiet(driver, LOOKED_AT), Quiet(90, Standstill.WAITING))
        driver.goto(80)
        self.assertIsNone(quiet(driver, LOOKED_AT))

    def test_a_framing_error_and_an_external_line_that_are_to_come(self) -> None:
        needs_kinds(self)
        driver = self.driver([*SERIAL_ON, *POLL], [Event(90, 0, 1, Kind.FRAMING)])
        self.assertEqual([self.stands(driver, it) for it in (20, 90, 91)], [None, None, Standstill.WAITING])
        # The loop does not see an external line.
        driver = self.driver([*SERIAL_ON, *POLL], [Event(90, 0, 1, Kind.WIRE)])
        self.assertEqual([self.stands(driver, it) for it in (20, 90, 91)], [Standstill.WAITING] * 3)

    def test_a_loop_that_reads_the_clock(self) -> None:
        # lui r1, 0xbfe8; lw r3, 0(r1) ..
        driver = self.driver([0x3C01BFE8, *POLL])
        self.assertIsNone(self.stands(driver, 20))

    def test_a_turn_that_changes_memory_and_sets_it_right(self) -> None:
        driver = self.driver([*CHANGES])
        # The word is 0 at position 1, before any store, and 1 at position 7.
        self.assertEqual([self.stands(driver, it) for it in (1, 2, 3)], [None] + [Standstill.STUCK] * 2)
        self.assertEqual(standstill(driver, LOOKED_AT), Quiet(GREATEST_POSITION, Standstill.STUCK, 6))
        # addiu r2, r2, -2: what is stored is another value in each turn
        counts = [*CHANGES]
        counts[4] -= 1
        self.assertIsNone(self.stands(self.driver(counts), 20))

    def test_stores_that_change_nothing(self) -> None:
        """lui r1, 0xbfc0 or 0xbf00, ROM or where nothing is; sw r0, 0(r1); beq r0, r0, back; nop; and 0xbff0, the board's register."""
        for place, still in ((0xBFC0, Quiet(GREATEST_POSITION, Standstill.STUCK)), (0xBF00, Quiet(GREATEST_POSITION, Standstill.STUCK)), (0xBFF0, None)):
            with self.subTest(hex(place)), brute.fresh(rom([0x3C01_0000 | place, 0xAC20_0000, 0x1000_FFFE, 0]), []) as run:
                run.goto(1)
                self.assertEqual(standstill(run), still)

    def test_faults_in_empty_rom(self) -> None:
        """jr r0, and the fetch at address 0 takes an exception in step 2. The handler's 65,440 words are empty, and after the last
        one the fetch takes one again, in step 65,443: from there on a turn has 65,441 steps."""
        driver = self.driver([8, 0])
        driver.goto(100_000)
        self.assertEqual(standstill(driver, LOOKED_AT), Quiet(GREATEST_POSITION, Standstill.STUCK, 65_441))
        driver.goto(0)
        stop = travel.forward(driver, Stops(), lambda: False)
        self.assertEqual((stop.reason, stop.position, stop.steps), (Reason.STUCK, 65_444, 65_441))

    def test_a_loop_that_an_interrupt_may_leave(self) -> None:
        driver = self.driver([*HEARS_BOARD, *END])
        self.assertEqual(self.stands(driver, 20), Standstill.LISTENING)
        driver.add(1000, 0, 1)
        driver.goto(20)
        self.assertEqual(quiet(driver, LOOKED_AT), Quiet(1000, Standstill.LISTENING))
        needs_kinds(self)
        driver.add(500, 0, 1, Kind.WIRE)
        self.assertEqual(quiet(driver, LOOKED_AT), Quiet(500, Standstill.LISTENING))

    def test_a_loop_that_the_clock_may_leave(self) -> None:
        driver = self.driver([*HEARS_CLOCK, *END])
        self.assertEqual(self.stands(driver, 20), Standstill.ALARM)
        self.assertIsNone(self.stands(self.driver([*TICKS, *HEARS_CLOCK, *END]), 20))
        # A run that began in such a loop goes on, for the alarm, up to where it pauses.
        stop = travel.forward(driver, Stops(idle=100_000), lambda: False)
        self.assertEqual((stop.reason, stop.position, stop.steps), (Reason.ALARM, 100_020, 8192))

    def test_what_an_alarm_stores_is_not_passed_over(self) -> None:
        """In its loop the program stores 7 again and again. Once, when the clock comes to second 5, which is in step 40,959, the handler
        stores 0 over it. Watches stop at that store, and at the next one of the loop."""
        watch = Watch(0xA000_0100, 4, 0x100)
        driver = self.driver([*ALARM_LOOP, 0xAFA00100, *HANDLER])
        words = [memory(lines)[0] for lines in driver.values([it for at in range(40_940, 41_000) for it in (f"goto {at}", "mem 0x100 1")])[1::2]]
        changes = [40_940 + at for at in range(len(words) - 1) if words[at] != words[at + 1]]
        self.assertEqual(len(changes), 2)
        for begin in 100, 20_000:
            driver.goto(begin)
            stop = travel.forward(driver, Stops(watches={watch}), lambda: False)
            self.assertEqual((stop.reason, stop.position), (Reason.WATCH, changes[0]))
        for begin in 45_000, 70_000:
            driver.goto(begin)
            self.assertEqual([travel.backward(driver, Stops(watches={watch}), lambda: False).position for _ in range(3)], [*changes[::-1], 10])

    def test_an_alarm_is_expected(self) -> None:
        """The handler sends an A in second 5 of each minute. Up to a step that is named it is waited for: the fourth comes 185 seconds
        after reset, each of 8,192 steps."""
        driver = self.driver([*ALARM_SENDS, 0x3C1ABFE0, 0x241B0041, 0xAF5B0018, *HANDLER])
        self.assertIsNone(until_sent(driver, 0, 0, b"AAAA", 3_000_000, 0))
        self.assertIn(driver.position, range(1_515_520, 1_515_560))
        silence = until_sent(driver, 0, 4, b"A", 2_000_000, 0)
        self.assertEqual((silence and silence.why, driver.position), ("that was looked for up to step 2,000,000", 2_000_000))
        silence = until_sent(driver, 0, 4, b"B", GREATEST_POSITION, 0)
        self.assertIn("only an alarm of the clock can leave", silence.why if silence else "")

    def test_ticks(self) -> None:
        """A second has 8,192 steps and 16 ticks. Where the handler counts nothing each second is as the one before."""
        driver = self.driver([*TICKING, *HANDLER])
        source = random.Random(9)
        for _ in range(6):
            driver.goto(source.randrange(1000, 30_000))
            self.assertEqual(ticks.period(driver), 8192)
        steps = sorted(source.sample(range(1000, 9000), 300))
        self.assertEqual(registers_at(driver, steps), registers_at(driver, [it + 5 * 8192 for it in steps]))
        driver.goto(0)
        stop = travel.forward(driver, Stops(idle=70_000), lambda: False)
        self.assertEqual((stop.reason, stop.position, stop.steps), (Reason.ALARM, 70_000, 8192))
        for counts in COUNT, COUNT_IN_MEMORY:
            driver = self.driver([*TICKING, *counts, *HANDLER])
            driver.goto(5000)
            self.assertIsNone(ticks.period(driver))
        # The time of the clock is read: lw r26, 0(r26) of seconds in place of the flags' register.
        reads = [*HANDLER]
        reads.insert(2, 0x3C1ABFE8)
        reads.insert(3, 0x8F5A0000)
        driver = self.driver([*TICKING, *reads])
        driver.goto(5000)
        self.assertIsNone(ticks.period(driver))
        # Events that are to come.
        driver = self.driver([*TICKING, *HANDLER], [Event(100_000, 0, 1)])
        driver.goto(5000)
        self.assertIsNone(ticks.period(driver))

    def test_an_end_and_a_pause(self) -> None:
        """The byte of step 90 is none that the program takes, and nothing is sent."""
        driver = self.driver([*TICKING, *COUNT, *HANDLER], [Event(90, 0, 1)])
        stop = travel.forward(driver, Stops(idle=70_000), lambda: False)
        self.assertEqual((stop.reason, stop.position, stop.steps), (Reason.IDLE, 70_091, 70_000))
        stop = travel.forward(driver, Stops(idle=70_000), lambda: False)
        self.assertEqual((stop.reason, stop.position), (Reason.IDLE, 140_091))
        stop = travel.forward(driver, Stops(idle=100, end=140_300), lambda: False)
        self.assertEqual((stop.reason, stop.position), (Reason.LIMIT, 140_300))
        stop = travel.forward(driver, Stops({0xBFC0_0180}, idle=100, end=150_000), lambda: False)
        self.assertEqual(stop.reason, Reason.BREAKPOINT)


if __name__ == "__main__":
    unittest.main()
