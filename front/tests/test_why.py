"""Why something holds what it does: writers against a trace of all steps, events against other bytes in their places, and branches by
hand."""
from __future__ import annotations

import json
import random
import unittest
from pathlib import Path
from tempfile import TemporaryDirectory
from typing import Dict, List, Optional, Sequence, Tuple
from unittest import mock

import bezhakkom
from bezhakkom.driver import Driver
from bezhakkom.log import Event, Kind
from bezhakkom.replies import registers
from bezhakkom.symbols import Symbols, symbols_of
from bezhakkom.whatif import needs
from bezhakkom.whatif.conditions import Holds
from bezhakkom.whatif.pasts import Question, answer, with_byte
from bezhakkom.whatif.questions import At, Register, Sent, Word
from bezhakkom.whatif.when import when
from bezhakkom.whatif.why import End, Link, Origin, Role, Why, why
from front.tests import brute, debugger, scripts
from front.tests.support import ROOT, immediate, rom, start

LOGIN = ("--log", "examples/login/log", "examples/login/login.elf")
LOADER = ("--log", "examples/loader/log", "examples/loader/loader.elf")

ALL = 0xFFFF_FFFF
HI, LO = 32, 33
DATA = 0x100


def asked(driver: Driver, what: Question, position: int, control: bool = False) -> Why:
    return why(driver, Symbols(), what, position, control=control)


def register_of(number: int) -> Register:
    return Register({HI: "hi", LO: "lo"}.get(number, "r"), number if number < HI else None)


class Writers(unittest.TestCase):
    """What stands in a register at a position: the step that wrote it is that of a trace of all steps, in which each value is followed
    from its write to where it lands."""

    STEPS = 3_000

    def check(self, run: Driver) -> None:
        source = random.Random(3)
        holds: Dict[int, Optional[int]] = dict.fromkeys(range(34))
        landed = [dict(holds)]  # at each position, the step that wrote each register
        late: Optional[Tuple[int, int]] = None
        for step in list(run.traced(0, self.STEPS)):
            if late:
                holds[late[0]] = late[1]
            late = None
            if step.write and (step.access and step.access.kind == "load" or step.word is not None and step.word >> 21 == 0x10 << 5):
                late = step.write[0], step.step
            elif step.write:
                holds[step.write[0]] = step.step
            if step.hi_lo and step.word is not None:
                for register in {0x11: (HI,), 0x13: (LO,)}.get(step.word & 63, (HI, LO)):
                    holds[register] = step.step
            landed.append(dict(holds))
        for _ in range(150):
            position, number = source.randrange(1, self.STEPS + 1), source.randrange(1, 34)
            wanted = landed[position][number]
            link, = asked(run, register_of(number), position).links
            self.assertEqual(link.source, End(Origin.REGISTER, number) if wanted is None else wanted, (position, number))

    def test_examples(self) -> None:
        for name, log in (("loader/loader.elf", "loader"), ("driver/boot.s", "driver"), ("exceptions/boot.s", None),
                          ("user-mode/boot.s", None), ("load-slot/boot.s", None)):
            with self.subTest(name), brute.fresh(brute.image(name), brute.log_of(log) if log else []) as run:
                self.check(run)


SERIAL, MEMORY = 1, 8  # registers with the addresses of the serial part and of RAM
POOL = (2, 3, 4, 5, 6, 7, 9, 10, 11, 12)
BYTES = 6  # that arrive and are read into the first registers of the pool


def special(function: int, rs: int, rt: int, rd: int, by: int = 0) -> int:
    return rs << 21 | rt << 16 | rd << 11 | by << 6 | function


def reading() -> List[int]:
    """A program that turns the receiver on, waits, and reads the bytes that arrived."""
    words = [immediate(0x0F, 0, SERIAL, 0xBFE0), immediate(0x0F, 0, MEMORY, 0xA000), immediate(9, 0, 2, 0x1000), immediate(0x2B, SERIAL, 2, 8),
             immediate(9, 0, 2, 0x20), immediate(0x2B, SERIAL, 2, 0), *[0] * 20]
    for number in range(BYTES):
        words += [immediate(0x23, SERIAL, POOL[number], 8), 0]
    return words


def arriving(source: random.Random) -> List[Event]:
    return [Event(10 + at, source.randrange(1), source.randrange(256)) for at in range(BYTES)]


def any_step(source: random.Random) -> List[int]:
    """Instructions that compute, load or store, and none that branches."""
    rs, rt, rd = (source.choice(POOL) for _ in range(3))
    kind, place = source.random(), DATA + source.randrange(16)
    if kind < 0.35:
        function = source.choice((0x21, 0x23, 0x24, 0x25, 0x26, 0x27, 0x2A, 0x2B, 4, 6, 7))
        return [special(function, rs, rt, rd)]
    if kind < 0.45:
        return [special(source.choice((0, 2, 3)), 0, rt, rd, source.randrange(32))]
    if kind < 0.6:
        return [immediate(source.choice((9, 10, 11, 12, 13, 14)), rs, rt, source.randrange(1 << 16))]
    if kind < 0.65:
        return [special(source.choice((0x18, 0x19, 0x1A, 0x1B, 0x11, 0x13)), rs, rt, 0)]
    if kind < 0.7:
        return [special(source.choice((0x10, 0x12)), 0, 0, rd), 0, 0]
    op = source.choice((0x20, 0x21, 0x22, 0x23, 0x24, 0x25, 0x26, 0x28, 0x29, 0x2A, 0x2B, 0x2E))
    place &= {0x21: ~1, 0x25: ~1, 0x29: ~1, 0x23: ~3, 0x2B: ~3}.get(op, ~0)
    return [immediate(op, MEMORY, rt, place)] + [0] * source.randrange(2)


class Arrived(unittest.TestCase):
    """Programs without branches, in which other bytes arrive. With and without: the value is asked for each of them."""

    def changing(self, run: Driver, question: Question, end: int, tries: Sequence[int]) -> List[int]:
        """The events of which another byte changes an answer."""
        log, before, found = list(run.log), answer(run, At(end, (question,))), []
        for index, event in enumerate(log):
            for turned in tries:
                past = with_byte(log, index, event.byte ^ turned)
                run.values(past.there)
                is_other = answer(run, At(end, (question,))) != before
                run.values(past.back)
                if is_other:
                    found.append(index)
                    break
        return found

    def test_what_changes_is_named(self) -> None:
        tries = [1 << bit for bit in range(8)] + [0xFF, 0x5A]
        named_in_all = 0
        for seed in range(20):
            source = random.Random(seed)
            words = reading()
            for _ in range(40):
                words += any_step(source)
            words += [0, 0]
            with self.subTest(seed), brute.fresh(rom(words), arriving(source)) as run:
                end = len(words)
                for question in (Register("r", source.choice(POOL)), Word(DATA + 4 * source.randrange(4)), Register("lo")):
                    named = asked(run, question, end).events()
                    named_in_all += len(named)
                    self.assertLessEqual(set(self.changing(run, question, end, tries)), set(named), (seed, question))
        self.assertGreater(named_in_all, 20)

    def one_use(self, source: random.Random) -> Tuple[List[int], int]:
        """A program in which each value is used once, by what loses no bit of it but those that a mask or a shift takes away; and the
        register with what comes out. Each of its bits is one bit that arrived or several, by `xor`, or is turned. So a byte changes it by
        any value only where it does by one bit."""
        words, live = reading(), list(POOL[:BYTES])
        free = [it for it in POOL if it not in live]
        words += [immediate(12, it, it, 0xFF) for it in live]
        words += [special(0, 0, it, it, source.randrange(25)) for it in live]
        while len(live) > 1:
            one, two = source.sample(live, 2)
            kind, target = source.randrange(6), free[0]
            if kind == 0:
                words.append(special(0x26, one, two, target))
                live.remove(two)
            elif kind == 1:
                words.append(special(source.choice((0, 2)), 0, one, target, source.randrange(8)))
            elif kind == 2:
                words.append(immediate(source.choice((12, 13, 14)), one, target, source.randrange(1 << 16)))
            elif kind == 3:
                words.append(special(0x27, one, 0, target))
            elif kind == 4:
                place = DATA + source.randrange(16)
                words += [immediate(0x2B, MEMORY, one, place & ~3), immediate(0x28, MEMORY, two, place), immediate(0x23, MEMORY, target, place & ~3), 0]
                live.remove(two)
            else:
                place = DATA + 4 * source.randrange(4)
                byte = source.randrange(4)
                words += [immediate(0x2B, MEMORY, one, place), immediate(source.choice((0x22, 0x26)), MEMORY, two, place + byte), 0, 0,
                          special(0x25, two, 0, target)]
                live.remove(two)
            live.remove(one)
            live.append(target)
            free = [it for it in POOL if it not in live]
        return words + [0, 0], live[0]

    def test_what_is_named_changes(self) -> None:
        named_in_all = 0
        for seed in range(20):
            source = random.Random(seed)
            words, number = self.one_use(source)
            with self.subTest(seed), brute.fresh(rom(words), arriving(source)) as run:
                named = asked(run, Register("r", number), len(words)).events()
                named_in_all += len(named)
                self.assertEqual(named, self.changing(run, Register("r", number), len(words), [1 << bit for bit in range(8)]), seed)
        self.assertGreater(named_in_all, 20)
        self.assertLess(named_in_all, 20 * BYTES)


class Isolated(unittest.TestCase):
    """A store to a cache that is isolated from memory is no store into the word: neither to who asks why, nor to who asks when."""

    WORDS = [
        immediate(0x0F, 0, 8, 0x8000), immediate(9, 0, 2, 5),
        immediate(0x2B, 8, 2, DATA),    # 2: 5 is stored
        immediate(0x0F, 0, 3, 1), 0x4083_6000, immediate(9, 0, 4, 7), 0,
        immediate(0x2B, 8, 4, DATA),    # 7: 7 goes to the cache
        immediate(0x23, 8, 6, DATA),    # 8: and comes from there
        0x4080_6000, 0, 0,
        immediate(0x23, 8, 5, DATA),    # 12: 5 is loaded
        0, 0]

    def test_why(self) -> None:
        with brute.fresh(rom(self.WORDS), []) as run:
            self.assertEqual([brute.register(run, 14, number) for number in (5, 6)], [5, 7])
            self.assertEqual([it.source for it in asked(run, Word(DATA), 14).links], [2])
            found = asked(run, Register("r", 5), 14)
            self.assertEqual((found.links[0].source, found.nodes[12].links[0].source), (12, 2))
            self.assertEqual(asked(run, Register("r", 6), 14).nodes[8].links, [Link(Role.VALUE, End(Origin.CACHE))])

    def test_stores_without_effect_are_named_and_are_no_writers(self) -> None:
        """The store to the cache, and one to ROM, from which a load gets 0 as before; and no store after the last one to memory is missed."""
        words = [*self.WORDS[:14], immediate(0x0F, 0, 9, 0xBFC0), immediate(0x2B, 9, 2, 0x200), immediate(0x23, 9, 10, 0x200), 0, 0]
        with brute.fresh(rom(words), []) as run:
            self.assertEqual(list(asked(run, Word(DATA), 14).ineffective), [7])
            self.assertEqual(list(asked(run, Word(DATA), 7).ineffective), [])
            found = asked(run, Word(0x1FC0_0200), 18)
            self.assertEqual((found.links, list(found.ineffective)), ([Link(Role.VALUE, End(Origin.WORD, 0x1FC0_0200))], [15]))
            found = asked(run, Register("r", 10), 18)
            self.assertEqual((found.nodes[16].links, list(found.ineffective)), ([Link(Role.VALUE, End(Origin.WORD, 0x1FC0_0200))], [15]))

    def test_stores_without_effect_in_the_shell(self) -> None:
        with TemporaryDirectory() as folder:
            name = Path(folder, "boot.rom")
            name.write_bytes(b"".join(it.to_bytes(4, "little") for it in self.WORDS))
            shown = scripts.shell("--kind", "rom", str(name), lines=("goto 14", "why 0xa0000100", "why 0xa0000100 --json")).stdout.splitlines()
        self.assertEqual(shown[4:6], ["1 store there changed nothing:",
                                      "  7 0xbfc0001c: sw r4, 256(r8)   stores 0x00000007 into 0x80000100, in the isolated cache"])
        self.assertEqual([(it["step"], it["store"]) for it in json.loads(shown[-1])["ineffective"]],
                         [(7, {"address": DATA, "word": 7, "isolated": True})])

    def test_when(self) -> None:
        for apart in (0, 1 << 40):  # stores are followed back, and steps are traced
            with brute.fresh(rom(self.WORDS), []) as run, mock.patch("bezhakkom.whatif.conditions._APART", apart):
                self.assertEqual([when(run, Holds(DATA, "==", value), 14).position for value in (5, 7)], [3, None])


class Needs(unittest.TestCase):
    """Single instructions, by hand from their definitions."""

    def needs(self, word: int, bits: int, **values: int) -> Dict[int, int]:
        return needs.needs(word, bits, lambda register: values[f"r{register}"])

    def test_bits(self) -> None:
        self.assertEqual(self.needs(immediate(12, 3, 4, 0x00F0), ALL), {3: 0xF0})  # andi
        self.assertEqual(self.needs(immediate(13, 3, 4, 0xFFF0), 0xFF), {3: 0x0F})  # ori
        self.assertEqual(self.needs(special(0, 0, 3, 4, 8), 0xFF), {})  # sll: these bits come from nothing
        self.assertEqual(self.needs(special(0, 0, 3, 4, 8), 0xFF00), {3: 0xFF})
        self.assertEqual(self.needs(special(3, 0, 3, 4, 24), 0x8000_0000), {3: 0x8000_0000})  # sra
        self.assertEqual(self.needs(special(0x21, 3, 5, 4), 0x100), {3: 0x1FF, 5: 0x1FF})  # addu: carries
        self.assertEqual(self.needs(special(0x25, 3, 0, 4), ALL, r3=7, r0=0), {3: ALL})  # or with r0 is a move
        self.assertEqual(self.needs(special(0x24, 3, 5, 4), ALL, r3=0, r5=ALL), {3: ALL})  # and: a 0 decides alone
        self.assertEqual(self.needs(special(0x24, 3, 5, 4), ALL, r3=ALL, r5=0), {5: ALL})
        self.assertEqual(self.needs(special(0x2B, 3, 5, 4), 0xFE), {})  # sltu: they are 0 always
        self.assertEqual(self.needs(immediate(0x0F, 0, 4, 1), ALL), {})  # lui

    def test_bytes(self) -> None:
        lb, lbu, lh, lwl, lwr, sb, swl, swr = 0x20 << 26, 0x24 << 26, 0x21 << 26, 0x22 << 26, 0x26 << 26, 0x28 << 26, 0x2A << 26, 0x2E << 26
        self.assertEqual(needs.loaded(lbu, 2, ALL), (0x00FF_0000, 0))
        self.assertEqual(needs.loaded(lb, 2, 0xFFFF_FF00), (0x0080_0000, 0))
        self.assertEqual(needs.loaded(lh, 2, 1), (0x0001_0000, 0))
        self.assertEqual(needs.loaded(lwl, 1, ALL), (0x0000_FFFF, 0x0000_FFFF))
        self.assertEqual(needs.loaded(lwr, 1, ALL), (0xFFFF_FF00, 0xFF00_0000))
        self.assertEqual((needs.covered(sb, 3), needs.stored(sb, 3, 0xFF00_0000)), (0xFF00_0000, 0xFF))
        self.assertEqual((needs.covered(swl, 1), needs.stored(swl, 1, 0xFFFF)), (0x0000_FFFF, 0xFFFF_0000))
        self.assertEqual((needs.covered(swr, 1), needs.stored(swr, 1, 0xFFFF_FF00)), (0xFFFF_FF00, 0x00FF_FFFF))


class Branches(unittest.TestCase):
    """What decided that a step was run, by hand."""

    def test_a_loop_and_a_call(self) -> None:
        beq, bne = 4, 5
        words = [
            immediate(9, 0, 2, 2),           # 0  addiu r2, r0, 2
            immediate(9, 2, 2, -1),          # 1  loop: addiu r2, r2, -1
            immediate(bne, 2, 0, -2),        # 2  bne r2, r0, loop
            0,                               # 3
            3 << 26 | 0x0FF0_0008,           # 4  jal 8
            immediate(9, 0, 5, 1),           # 5  addiu r5, r0, 1, in its delay slot
            immediate(beq, 0, 0, -1),        # 6  for ever
            0,                               # 7
            immediate(9, 0, 6, 3),           # 8  the function: addiu r6, r0, 3
            special(8, 31, 0, 0),            # 9  jr r31
            immediate(9, 0, 7, 4),           # 10 addiu r7, r0, 4, in its delay slot
        ]
        # Steps 0, 1 to 3 and 4 to 6 are the loop, 7 the call, 9 and 10 the function, 11 the slot of its return.
        with brute.fresh(rom(words), []) as run:
            found = asked(run, Register("r", 7), 12, control=True)
            self.assertEqual(found.links, [Link(Role.VALUE, 11)])
            self.assertEqual({step: [link.source for link in it.links if link.role is Role.CONTROL] for step, it in found.nodes.items()},
                             {11: [7], 7: []})
            found = asked(run, Register("r", 2), 5, control=True)
            self.assertEqual({step: sorted(link.source for link in it.links if isinstance(link.source, int)) for step, it in found.nodes.items()},
                             {4: [1, 2], 2: [1], 1: [0], 0: []})

    def test_an_interrupt(self) -> None:
        with brute.fresh(brute.image("driver/boot.s"), brute.log_of("driver")) as run:
            # The first step of the handler reads Cause, since step 100 took the interrupt.
            found = asked(run, Register("r", 8), 103, control=True)
            self.assertEqual(found.links, [Link(Role.VALUE, 101)])
            self.assertEqual(found.nodes[101].links, [Link(Role.VALUE, End(Origin.CONTROL, 13)), Link(Role.CONTROL, 100)])
            self.assertEqual(found.nodes[100].links, [Link(Role.CONTROL, End(Origin.INTERRUPT))])


class Loader(unittest.TestCase):
    """The loader's pointer, whose lowest byte a checksum overwrote."""

    def test_the_pointer(self) -> None:
        with bezhakkom.boot(ROOT / "examples/loader/loader.elf", log=ROOT / "examples/loader/log") as machine:
            machine.goto(237_825)
            found = machine.why("record+0x18")
            self.assertEqual(found.events(), [115, 116])
            self.assertEqual([(it.byte, it.kind) for it in (machine.log[115], machine.log[116])], [(ord("C"), Kind.BYTE), (ord("4"), Kind.BYTE)])
            # Each is among those that decide it by their value.
            self.assertLessEqual({115, 116}, set(machine.causes("record+0x18", by=["set"]).by_value))
            inputs = found.to_input()
            self.assertEqual(inputs.events(), [115, 116])
            self.assertLess(set(inputs.nodes), set(found.nodes))
            self.assertEqual(machine.position, 237_825)
            self.assertEqual(machine.log, tuple(brute.log_of("loader")))
            self.assertEqual(machine.driver.journal, [])


class Said(unittest.TestCase):
    maxDiff = None

    def said(self, line: str, *before: str, guest: Tuple[str, ...] = LOGIN) -> List[str]:
        return scripts.shell(*guest, "--echo", lines=(*before, line)).stdout.rpartition(f"> {line}\n")[2].splitlines()

    def test_a_chain(self) -> None:
        # The length is cleared at the prompt, counts up at the first byte, and down at both backspaces.
        self.assertEqual(self.said("why session+0x20", "goto 40,025"), [
            "session+0x20 at step 40,025: 0xffffffff   from 40,024",
            "  40,024 read_line+0x30 (login.c:44): sw r3, 32(r2)   stores 0xffffffff into 0x80001020 <session+0x20>   from 40,023",
            "  40,023 read_line+0x2c (login.c:44): addiu r3, r3, -1   v1 = 0xffffffff   from 40,021",
            "  40,021 read_line+0x24 (login.c:44): lw r3, 32(r2)   v1 = 0x00000000; loads 0x00000000 from 0x80001020 <session+0x20>   from 30,024",
            "  30,024 read_line+0x30 (login.c:44): sw r3, 32(r2)   stores 0x00000000 into 0x80001020 <session+0x20>   from 30,023",
            "  30,023 read_line+0x2c (login.c:44): addiu r3, r3, -1   v1 = 0x00000000   from 30,021",
            "  30,021 read_line+0x24 (login.c:44): lw r3, 32(r2)   v1 = 0x00000001; loads 0x00000001 from 0x80001020 <session+0x20>   from 20,031",
            "  20,031 read_line+0x94 (login.c:48): sw r3, 32(r4)   stores 0x00000001 into 0x80001020 <session+0x20>   from 20,030",
            "  20,030 read_line+0x90 (login.c:48): addiu r3, r3, 1   v1 = 0x00000001   from 20,021",
            "  20,021 read_line+0x6c (login.c:46): lw r3, 32(r3)   v1 = 0x00000000; loads 0x00000000 from 0x80001020 <session+0x20>   from 372",
            "  372 read_line+0x10 (login.c:41): sw r0, 32(r2)   stores 0x00000000 into 0x80001020 <session+0x20>",
            "10 steps, no event"])

    def test_ends(self) -> None:
        self.assertEqual(self.said("why v0 at 20,008")[-2:], ["1 step, 1 event:", "  step 20,000, line 0, 'x' (event 0)"])
        self.assertEqual(self.said("why hi at 1000"), ["hi at step 1,000: 0x00000000   from reset", "0 steps, no event"])
        self.assertEqual(self.said("why start at 0"), ["start at step 0: 0x3c1d8001   from the image at 0xbfc00000 <start>", "0 steps, no event"])

    def test_turns_of_a_loop(self) -> None:
        # 22 instructions with a loop of four turns, and 10 more, stand before the loop that counts, whose turns take 3 steps.
        self.assertEqual(self.said("why r16 at 95", guest=("--log", "examples/driver/log", "examples/driver/boot.s")), [
            "r16 at step 95: 0x00000015   from 92", "  92 loop: addiu r16, r16, 1   s0 = 0x00000015   from 89",
            "  the same instruction 20 times more, back to step 32", "21 steps, no event"])

    def test_a_long_chain(self) -> None:
        shown = self.said("why session+0x20 control to input steps 2", "goto 40,025")
        self.assertRegex(shown[3], r"^  and [\d,]+ earlier steps: `steps N` shows more, and --json has all$")
        self.assertEqual(shown[-2].split(", ")[-1], "3 events:")
        self.assertEqual(shown[-1], r"  steps 20,000 to 40,000, line 0, 'x\b\b' (events 0 to 2)")

    def test_as_a_value(self) -> None:
        one, = self.said("why v1 at 40,024 --json")
        found = json.loads(one)
        self.assertEqual((found["what"], found["position"], found["value"], found["from"]), ("v1", 40_024, ALL, [{"as": "value", "step": 40_023}]))
        step = found["steps"][0]
        self.assertEqual((step["step"], step["place"], step["source"], step["register"], step["value"], step["bits"], step["from"]),
                         (40_023, "read_line+0x2c", "login.c:44", 3, ALL, ALL, [{"as": "value", "step": 40_021}]))
        self.assertEqual((found["events"], found["stopped"]), ([], False))

    def test_refusals(self) -> None:
        usage = "usage: why WHAT [control] [address] [to input] [at N] [steps N] [--json]; WHAT is a register, an address of a word, or `sent L K`"
        for line, wanted in (
                ("why", "usage: why WHAT .."),
                ("why at 5", f"what is asked for is missing. {usage}"),
                ("why console", "`why` takes a register, a word, or one byte that a line sent"),
                ("why nothing", "there is no symbol and no register nothing"),
                ("why epc", "who wrote epc is not noted: that is known of r0 to r31, hi and lo"),
                ("why session+1", "0x80001001 is no multiple of 4; the word that it is in is at 0x80001000"),
                ("why v0 blah", f"blah means nothing here. {usage}"),
                ("why v0 to", f"a word is missing after `to`. {usage}"),
                ("why v0 to output", f"`to` is followed by `input`. {usage}"),
                ("why v0 steps 0", "how many steps are shown is 1 or more"),
                ("why sent 0 99 at 100", "refused: line 0 sent no byte of place 99 before this position"),
                ("why sent 4 0", "there is no line 4; they are 0 to 3"),
                ("why sent 0", f"a line and a place stand after `sent`. {usage}"),
                ("why v0 at 1,099,511,627,776", "a position is 0 to 1,099,511,627,775")):
            self.assertEqual(self.said(line), [wanted], line)

    def test_in_gdb(self) -> None:
        debugger.needed()
        shown = debugger.batch("login/login.elf", "wb goto 40025", "wb why &session.length", "wb why $v1 at 40024 steps 1", "wb causes &session.length",
                               "wb when &session.length == 1", log="login/log")
        self.assertIn("10 steps, no event", shown)
        self.assertIn("session+0x20 at step 40,025: 0xffffffff", shown)
        self.assertIn("0x80001020 == 1 holds first at step 20,032, after step 20,031, read_line+0x94 (login.c:48), 19,994 steps ago: sw r3, 32(r4)", shown)
        self.assertIn("v1 at step 40,024: 0xffffffff   from 40,023", shown)


if __name__ == "__main__":
    unittest.main()
