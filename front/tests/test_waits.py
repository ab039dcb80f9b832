"""Loops that wait, over many spans, against the plain workbench."""
from __future__ import annotations

import random
import unittest

from bezhakkom.image import Image
from bezhakkom.log import Event, Kind
from front.tests import brute
from front.tests.support import start

GUESTS, END = 16, 300_000
HEAD = """\
        .unit {unit}
        lui r20, 0xbfe0                 # the serial part
        lui r21, 0xbfe8                 # the clock
        lui r22, {words}                # words, in kseg0 or kseg1
        lui r29, 0x8000
        ori r29, r29, 0x4000            # the stack
        addiu r8, r0, 0x1000
        sw r8, 8(r20)                   # LPR: the receiver of line 0
        addiu r8, r0, 0x0060
        sw r8, 0(r20)                   # CSR: RIE and MSE
        lui r8, {board}
        lui r9, 0xbff0
        sw r8, 0(r9)                    # the board's CSR
        addiu r8, r0, {clock}
        sw r8, 44(r21)                  # B of the clock
        lui r8, 0x0040
        ori r8, r8, {enabled}
        mtc0 r8, c12
loop:
{body}
        j loop
        {slot}
"""
# The general vector: a byte is counted and stored, and so is an update of the clock.
HANDLER = """\
        .org 0x1fc00180
        lw r24, 0(r20)
        lw r25, 48(r21)
        andi r24, r24, 0x0080
        beq r24, r0, leave
        sw r25, 0x3c(r22)
        lw r24, 8(r20)
        lw r25, 0x38(r22)
        sw r24, 0x34(r22)
        addiu r25, r25, 1
        sw r25, 0x38(r22)
leave:
        mfc0 r26, c14
        sll r0, r0, 0
        jr r26
        rfe
"""
POLL = """\
        lw r8, 0(r20)
        sll r0, r0, 0
        andi r8, r8, 0x0080
        beq r8, r0, none{number}
        sll r0, r0, 0
        lw r8, 8(r20)
        sll r0, r0, 0
        sw r8, 0x30(r22)
none{number}:"""
CALL = """\
        jal f{function}
        sll r0, r0, 0"""
FUNCTION = """\
        .org {place:#x}
f{number}:
        addiu r29, r29, -8
        sw r31, 4(r29)
{body}
        lw r31, 4(r29)
        addiu r29, r29, 8
        jr r31
        {slot}
"""


def source(of: random.Random) -> str:
    """A loop that mostly repeats its state after some turns, and in every fourth guest never does."""
    functions, polls = of.randrange(4), 0
    simple = ["xori r9, r9, 1", "lw r10, 4(r22)", "sw r9, 8(r22)", "sw r10, 4(r22)", "sb r9, 13(r22)", "sll r0, r0, 0", "mfc0 r13, c12",
              "mtc0 r13, c12", "addiu r11, r11, 1\n        andi r11, r11, 3\n        sw r11, 16(r22)"]

    def body(calls: list[int], count: int) -> str:
        nonlocal polls
        lines = [f"        {it}" for it in of.choices(simple, k=count)] + [CALL.format(function=it) for it in calls]
        if not of.randrange(3):
            lines.append(POLL.format(number=polls))
            polls += 1
        of.shuffle(lines)
        return "\n".join(lines)

    whole = body([of.randrange(functions) for _ in range(of.randrange(3))] if functions else [], of.randrange(1, 7))
    if not of.randrange(4):
        whole += "\n        addiu r12, r12, 1\n        sw r12, 20(r22)"
    text = HEAD.format(unit=of.choice((1, 5, 40, 1000)), words=of.choice(("0x8000", "0xa000")), board=of.choice(("0x0080", "0")),
                       clock=of.choice(("0x0012", "0x0002")), enabled=of.choice(("0x0c01", "0x0801", "0x0c00")), body=whole,
                       slot=of.choice(simple[:5]))
    for number in range(functions):
        place = 0x1FC0_1000 + 0x1000 * number + 4 * of.randrange(64)
        text += FUNCTION.format(place=place, number=number, body=body([], of.randrange(4)), slot=of.choice(simple[:5]))
    return text + HANDLER


def script(of: random.Random) -> list[str]:
    lines = []
    for _ in range(12):
        lines += [f"goto {of.choice((of.randrange(END), 65_536 * of.randrange(1, 5), 65_536 * of.randrange(1, 5) + of.randrange(9)))}",
                  *of.sample(["regs", "cp0", "mem 0 16", "mem 0x3ff0 8", f"writer {4 * of.randrange(16)}", f"writer {0x3FE0 + 4 * of.randrange(8)}",
                              *(f"regwriter {of.choice((8, 9, 10, 11, 12, 13, 29, 31))}" for _ in range(3)),
                              f"trace {of.randrange(1, 20)}", f"visit {0xBFC0_0000 + 4 * of.randrange(40):#x} 90000"], k=5)]
        if not of.randrange(3):
            lines.append(of.choice([f"add {of.randrange(END)} 0 {of.randrange(256)}", "del 0", f"set 1 {of.randrange(256)}",
                                    f"move 1 {of.randrange(END)}"]))
    return lines


class Waits(unittest.TestCase):
    def test_guests(self) -> None:
        for seed in range(GUESTS):
            of = random.Random(seed)
            guest = Image("waits.s", "source", source(of).encode())
            log = sorted((Event(of.randrange(END), 0, of.randrange(256), Kind.BYTE) for _ in range(4)), key=lambda it: it.time)
            lines = script(of)
            with self.subTest(seed=seed):
                driver = start(guest, log)
                try:
                    shown = [line for reply in driver.ask_all(lines) for line in reply]
                finally:
                    driver.close()
                self.assertEqual(shown, brute.plain(self, guest, log, lines))


if __name__ == "__main__":
    unittest.main()
