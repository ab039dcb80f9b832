#!/usr/bin/env python3
"""Plays the stored sessions on the shipped program and compares the replies.

    .ci/sessions.py

The sessions are those of examples/, docs/USING.md and bench/stored, the dialogues of .ci/dialogues, and four long ones of this file: one
far along a run, two with long logs, and one with calls from page to page. It also starts the program with command lines and inputs that it
refuses, and for help. Prints each reply, fault or status that differs. The status is 1 if one does.
"""
import hashlib
import re
import struct
import subprocess
import sys
from pathlib import Path

sys.dont_write_bytecode = True
from dialogues import dialogues, first_difference

ROOT = Path(__file__).resolve().parent.parent
PROGRAM = ROOT / "crates/r3kwb/out/r3kwb"


def booted(image):
    """The kind of an image, and its bytes."""
    return {".img": "image", ".s": "source"}.get(image.suffix, "rom"), image.read_bytes()


def read(*files):
    """What files have; none has nothing."""
    return (it.read_bytes() if it.exists() else b"" for it in files)


def typed(page):
    """The sessions of a page, each an indented block that starts bin/wb."""
    for block in re.findall(r"(?m)^    \$ bin/wb (?:--log (\S+) )?(\S+)\n((?:    .*\n)*)", page):
        lines = [it[4:] for it in block[2].splitlines()]
        script = "".join(it[2:] + "\n" for it in lines if it.startswith("> "))
        replies = "".join(it + "\n" for it in lines if not it.startswith("> "))
        log = (ROOT / block[0]).read_bytes() if block[0] else b""
        yield *booted(ROOT / block[1]), log, script.encode(), replies.encode()


# Waits in a loop of two steps, from step 12 on. Where external line 0 rises, in step 4,294,967,296, the first whose number takes more
# than 32 bits, the interrupt is taken. The handler's three steps follow: it sets r6, stores it and sends it. Then it waits again.
WAITS = b"""\
        lui r1, 0xbff0                  # the board's CSR: external line 0 may interrupt
        lui r2, 0x0001
        sw r2, 0(r1)
        lui r3, 0xbfe0                  # the serial part: the scanner is on, and line 0 may send
        addiu r4, r0, 1
        sw r4, 16(r3)
        addiu r4, r0, 0x20
        sw r4, 0(r3)
        lui r8, 0xa000
        lui r2, 0x0040
        ori r2, r2, 0x0401
        mtc0 r2, c12                    # Status: BEV, the board's interrupt line, IEc
wait:
        j wait
        sll r0, r0, 0
        .org 0x1fc00180
        addiu r6, r0, 0x41
        sw r6, 0x100(r8)
        sw r6, 24(r3)                   # TDR
hold:
        j hold
        sll r0, r0, 0
"""

FAR = [
    ("wire 4294967296 0 1", "event 0"),
    ("goto 4294967400", "pos 4294967400"),
    ("writer 0x100", "writer 4294967298"),
    ("regwriter 6", "regwriter 4294967297"),
    ("find 0 0", "find 4294967299"),
    ("console 0 0 8", "console 0 1 41"),
    ("mem 0x100 1", "0x00000100 0x00000041"),
    # Numbers that take more than 32 bits are no reason to run out of memory.
    ("reg 6", "r6 0x00000041"),
    ("where 0xbfc0018c", "where 0x1fc0018c uncached"),
    ("console 0 4294967296 8", "console 0 1 none"),
    ("find 0 4294967296", "error 8 NotFound"),
    ("finds 0 4294967296 64", "finds 0"),
    ("finds 0 0 64", "finds 1\n0 4294967299"),
    ("stores 0x100 32", "stores 1\n4294967298 0x00000041"),
    ("pcs 1 2", "pcs 2\n4294967400 0xbfc0018c\n4294967401 0xbfc00190"),
    ("trace 1", "4294967400 pc 0xbfc0018c word 0x0bf00063"),
    ("jumps 1 1", "jumps 1 4294967401\n4294967400 pc 0xbfc0018c word 0x0bf00063 to 0xbfc0018c"),
    ("add 4294967401 0 0x41", "event 1"),
    ("ferr 4294967402 0 0x41", "event 2"),
    ("wire 4294967403 1 1", "event 3"),
    ("del 1", "log 3"),
    ("erase 4294967401 4294967404", "log 1"),
    ("goto 4294967299", "pos 4294967299"),
    ("find 0 0", "error 8 NotFound"),
    ("mem 0x100 1", "0x00000100 0x00000041"),
    ("back 1", "pos 4294967298"),
    ("writer 0x100", "writer never"),
    ("mem 0x100 1", "0x00000100 0x00000000"),
    ("visit 0xbfc0018c 2", "pos 4294967300"),
]


# Calls a function of two pages a thousand times by four names: page 2, and page 514, whose decoded words take its place, through kseg0 and
# through kseg1. So steps 9 to 22,008. Then r2 grows by 7 in page 2. User mode comes to that page, which is an address error, and kernel mode
# with the cache isolated, which keeps what is stored from RAM.
PAGES = b"""\
        .org 0x00002000                 # page 2
        addiu r2, r2, 1
        jr r31
        addiu r5, r5, 1
        .org 0x00202000                 # page 514
        addiu r2, r2, 1
        jr r31
        addiu r5, r5, 1

        .org 0x1fc00000
        lui r16, 0x8000
        ori r16, r16, 0x2000            # page 2 in kseg0
        lui r17, 0xa020
        ori r17, r17, 0x2000            # page 514 in kseg1
        lui r18, 0x8020
        ori r18, r18, 0x2000            # page 514 in kseg0
        lui r19, 0xa000
        ori r19, r19, 0x2000            # page 2 in kseg1
        addiu r20, r0, 999
turn:
        jalr r31, r16
        sll r0, r0, 0
        jalr r31, r17
        sll r0, r0, 0
        jalr r31, r18
        sll r0, r0, 0
        jalr r31, r19
        sll r0, r0, 0
        bne r20, r0, turn
        addiu r20, r20, -1
        lui r12, 0x2442
        ori r12, r12, 7                 # addiu r2, r2, 7
        sw r12, 0(r19)
        jalr r31, r16
        sll r0, r0, 0
        jalr r31, r18
        sll r0, r0, 0
        lui r30, 0xbfc0
        ori r30, r30, 0x0200
        mfc0 r14, c12
        sll r0, r0, 0
        ori r14, r14, 8                 # the mode before is user mode
        mtc0 r14, c12
        jr r16
        rfe
        .org 0x1fc00180
        mfc0 r26, c13                   # Cause
        addiu r24, r24, 1
        jr r30
        sll r0, r0, 0
        .org 0x1fc00200
        lui r14, 0x0041                 # the cache is isolated
        mtc0 r14, c12
        sll r0, r0, 0
        sll r0, r0, 0
        sw r24, 64(r18)
        jalr r31, r16
        sll r0, r0, 0
        lui r14, 0x0040                 # and not any more
        mtc0 r14, c12
        sll r0, r0, 0
        sll r0, r0, 0
        jalr r31, r16
        sll r0, r0, 0
hold:
        j hold
        sll r0, r0, 0
"""

CALLED = [
    ("goto 60000", "pos 60000"),
    ("reg 2", f"r2 0x{4000 + 7 + 1 + 7 + 7:08x}"),
    ("reg 5", f"r5 0x{4004:08x}"),
    ("reg 24", "r24 0x00000001"),
    ("reg 26", "r26 0x00000010"),
    ("mem 0x2000 1", "0x00002000 0x24420007"),
    ("mem 0x202040 1", "0x00202040 0x00000000"),
    ("writer 0x2000", "writer 22011"),
    ("patch 0x2000 0x24420002", "ok"),
    ("reg 2", f"r2 0x{2 * 2000 + 2000 + 7 + 1 + 7 + 7:08x}"),
    ("reg 5", f"r5 0x{4004:08x}"),
    ("goto 22011", "pos 22011"),
    ("reg 2", f"r2 0x{2 * 2000 + 2000:08x}"),
    ("mem 0x2000 1", "0x00002000 0x24420002"),
]


# To the echo program comes byte N, the low byte of N, in step 1000 + 100 N, on line 0. A turn of its loop takes 11 steps, and one begins
# with step 9. A turn reads the byte that came up to its first step, and sends it 8 steps later.
BYTES = 5000


def comes(number):
    return 1000 + 100 * number


def goes(number):
    return 9 + -(-(comes(number) - 9) // 11) * 11 + 8


LONG_LOG = b"R3KLOG1\n" + struct.pack("<I", BYTES) + b"".join(struct.pack("<IBB", comes(it), 0, it % 256) for it in range(BYTES))

# The last event is deleted and comes back with another byte; one in the middle gets another byte, another time, and others are erased.
LONG = [
    ("log 4095 3", "log 5000\n4095 410500 0 0xff\n4096 410600 0 0x00\n4097 410700 0 0x01"),
    ("goto 600000", "pos 600000"),
    ("console 0 0 256", "console 0 5000 " + bytes(range(256)).hex()),
    ("console 0 4094 5", "console 0 5000 feff000102"),
    ("console 0 4998 5", "console 0 5000 8687"),
    *((f"find 0 {it}", f"find {goes(it)}") for it in (0, 4095, 4096, 4097, 4999)),
    ("find 0 5000", "error 8 NotFound"),
    ("del 4999", "log 4999"),
    ("console 0 4998 5", "console 0 4999 86"),
    ("add 500900 0 0x5a", "event 4999"),
    ("console 0 4998 5", "console 0 5000 865a"),
    ("set 4096 0xee", "event 4096"),
    ("console 0 4095 3", "console 0 5000 ffee01"),
    ("move 4097 550000", "event 4999"),
    ("console 0 4096 2", "console 0 5000 ee02"),
    ("console 0 4998 2", "console 0 5000 5a01"),
    ("erase 1100 500900", "log 3"),
    ("log 0 4", "log 3\n0 1000 0 0x00\n1 500900 0 0x5a\n2 550000 0 0x01"),
    ("console 0 0 8", "console 0 3 005a01"),
]


# A loop of two steps, to which 70,000 bytes come that nobody receives, each 2 steps after the one before: more events than 16 bits count.
LOOP = b"hold:\n        j hold\n        sll r0, r0, 0\n"
MANY_EVENTS = b"R3KLOG1\n" + struct.pack("<I", 70000) + b"".join(struct.pack("<IBB", 2 * it, 0, it % 256) for it in range(70000))
MANY = [
    ("log 65536 1", "log 70000\n65536 131072 0 0x00"),
    ("goto 1000", "pos 1000"),
    ("reg 0", "r0 0x00000000"),
    ("mem 0 1", "0x00000000 0x00000000"),
    ("writer 0", "writer never"),
    ("console 0 0 1", "console 0 0 none"),
    ("trace 1", "1000 pc 0xbfc00000 word 0x0bf00000"),
    ("jumps 1 1", "jumps 1 1001\n1000 pc 0xbfc00000 word 0x0bf00000 to 0xbfc00000"),
    ("add 200000 0 1", "event 70000"),
    ("ferr 200001 0 1", "event 70001"),
    ("wire 200002 0 1", "event 70002"),
    ("set 65536 7", "event 65536"),
    ("move 65536 200003", "event 70002"),
    ("patch 0x100 5", "ok"),
    ("mem 0x100 1", "0x00000100 0x00000005"),
    ("erase 0 131072", "log 4467"),
]


def script_and_replies(lines):
    """The script and the replies of lines with theirs."""
    return tuple("".join(it + "\n" for it in those).encode() for those in zip(*lines))


def sessions():
    """The sessions by where they stand: of each the kind of its image, the image, the log, the script and the replies."""
    for image in sorted(ROOT.glob("examples/*/boot.s")):
        yield image.parent.name, [(*booted(image), *read(*map(image.with_name, ("log", "script", "expected"))))]
    yield "docs/USING.md", typed((ROOT / "docs/USING.md").read_text())
    stored = sorted(ROOT.glob("bench/stored/*.img"))
    yield "bench/stored", [(*booted(it), *read(*map(it.with_suffix, (".log", ".script", ".expected")))) for it in stored]
    yield "far along a run", [("source", WAITS, b"", *script_and_replies(FAR))]
    yield "calls from page to page", [("source", PAGES, b"", *script_and_replies(CALLED))]
    yield "a log of many events", [("source", LOOP, MANY_EVENTS, *script_and_replies(MANY))]
    yield "a long log", [(*booted(ROOT / "examples/echo/boot.s"), LONG_LOG, *script_and_replies(LONG))]


# An image of 32 bytes that sets no word.
EMPTY = b"R3KIMG1\n\x10\0\0\0\x01\0\0\0\0\0\0\0\0\0\x01\x01\x01\0\x20\x06\0\0\0\0"

# Words, the input, the status, what standard output is, and what stands in standard error.
LINES = [
    (["--kind", "image", "--size", "32"], EMPTY, 0, b"", b""),
    (["--kind", "image", "--size", "32"], EMPTY + b"pos\n", 0, b"pos 0\n", b""),
    (["--kind", "image", "--size", "31"], EMPTY[:31], 1, b"", b"r3kwb: error 9 BadImage Short\n"),
    (["--kind", "image", "--size", "33"], EMPTY + b"\0", 1, b"", b"r3kwb: error 9 BadImage Extra\n"),
    (["--kind", "image", "--size", "40"], EMPTY, 3, b"", b"r3kwb: error 11 ReadFault\n"),
    (["--log", "19"], b"R3KLOG1\n\x01\0\0\0\x46\0\0\0\0\x41", 3, b"", b"r3kwb: error 11 ReadFault\n"),
    # Scripts: no line, blank lines and comments, a last line without its end, carriage returns, what follows `quit`, 256 blanks, and a
    # line of 257 bytes.
    ([], b"", 0, b"", b""),
    ([], b"\n\n# a comment\n \t\n", 0, b"", b""),
    ([], b"pos", 0, b"pos 0\n", b""),
    ([], b"goto 0x10\r\npos\r", 0, b"pos 16\npos 16\n", b""),
    ([], b"pos\nquit\npos\n", 0, b"pos 0\n", b""),
    ([], b"goto 3\nquit", 0, b"pos 3\n", b""),
    ([], b" " * 256, 0, b"", b""),
    ([], b"x" * 257, 0, b"error 2 Syntax\n", b""),
    (["--kind", "source", "--size", "9"], b"j nowhere", 1, b"", b"r3kwb: error 13 BadSource 1 Label\n"),
    (["--log", "17"], b"R3KLOG1\n\x01\0\0\0\x46\0\0\0\0", 1, b"", b"r3kwb: error 10 BadLog Short\n"),
    (["--log", "23"], b"R3KLOG2\n\x01\0\0\0\x46\0\0\0\0\0\0\0\x03\0\x41", 1, b"", b"r3kwb: error 10 BadLog Kind\n"),
    # 2,048 pages of RAM: the last word of it, and the word after it, which is neither RAM nor ROM.
    ([], b"mem 0x7ffffc 1\nmem 0x800000 1\n", 0, b"0x007ffffc 0x00000000\nerror 6 NotMemory\n", b""),
    (["--size", "67108865"], b"pos\n", 2, b"", b"--size is a number from 0 to 67108864"),
    (["--log", "67108865"], b"pos\n", 2, b"", b"--log is a number from 0 to 67108864"),
    ([b"\xff"], b"pos\n", 2, b"", b"the words are not all UTF-8 text"),
    *(
        (["--help"], b"pos\n", 0, part, b"")
        for part in (
            b"Usage: r3kwb [OPTIONS]",
            b"Standard input is the bytes of the kind, then those of the log (0 bytes are the empty log), and then a",
            b"--log <N>",
            b"How many bytes of it that takes, 0 to 67108864 [default: 0]",
            b"How many bytes after them the log takes, 0 to 67108864 [default: 0]",
            b"Statuses: 0 good, also for this help; 1 a bad image, source or log",
            b"docs/USING.md",
        )
    ),
]


def about():
    """What bin/r3kwb.txt says of the program that is shipped: its checksum, that of its sources, and the toolchain."""
    file = ROOT / "bin/r3kwb.txt"
    return dict(it.partition(" ")[::2] for it in (file.read_text().splitlines() if file.exists() else []))


def run(kind, boot, log, script):
    """Runs the program on an image of a kind, a log and a script."""
    words = ["--kind", kind, "--size", str(len(boot)), "--log", str(len(log))]
    return subprocess.run([ROOT / "bin/r3kwb", *words], input=boot + log + script, capture_output=True)


def played():
    """Yields what is wrong with the replies of the program."""
    for name, those in sessions():
        for number, (kind, boot, log, script, replies) in enumerate(those, 1):
            ran = run(kind, boot, log, script)
            if (ran.returncode, ran.stdout, ran.stderr) != (0, replies, b""):
                one, other = first_difference(ran.stdout, replies)
                yield f"session {number} of {name}: status {ran.returncode}, {one!r} for {other!r} {ran.stderr.decode(errors='replace')}"


def spoken():
    """Yields what is wrong with the replies to the dialogues, and with the faults of those that end with one."""
    for dialogue in dialogues():
        if dialogue.machine == "small":
            continue
        status, errors = 0, ""
        if dialogue.fault:
            status, errors = 3 if dialogue.fault.startswith(("11", "12")) else 1, f"r3kwb: error {dialogue.fault}\n"
        ran = run(dialogue.kind, dialogue.boot, dialogue.log, dialogue.script or b"pos\n")
        if (ran.returncode, ran.stdout, ran.stderr) != (status, dialogue.replies, errors.encode()):
            one, other = first_difference(ran.stdout, dialogue.replies)
            yield f"{dialogue.name}: status {ran.returncode}, {one!r} for {other!r} {ran.stderr.decode(errors='replace')}"


def started():
    """What is wrong with how the program ends by its words and its input."""
    for words, given, status, output, errors in LINES:
        ran = subprocess.run([ROOT / "bin/r3kwb", *words], input=given, capture_output=True)
        same = ran.stdout == output or words == ["--help"] and output in ran.stdout
        if not same or ran.returncode != status or errors not in ran.stderr or bool(errors) != bool(ran.stderr):
            yield f"r3kwb {words}: status {ran.returncode}, {ran.stdout[:200]!r}, {ran.stderr[:200]!r}"


def main():
    wrong = [*played(), *spoken(), *started()]
    if hashlib.sha256(PROGRAM.read_bytes()).hexdigest() != about().get("program"):
        wrong.append(f"{PROGRAM.relative_to(ROOT)} is not the program that is shipped")
    for it in wrong:
        print(f".ci/sessions.py: {it}", file=sys.stderr)
    return 1 if wrong else 0


if __name__ == "__main__":
    sys.exit(main())
