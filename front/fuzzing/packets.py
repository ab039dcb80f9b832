"""Random packets for the stub. However they look, each debugger's connection ends soon after it has closed, the next one is served, all that
the stub sends is well-formed, and the program stays in step."""
from __future__ import annotations

import random
import re
import socket
import threading
import time
from contextlib import closing
from typing import List, Sequence

from bezhakkom.replies import number_of
from bezhakkom.rsp import PACKET_BYTES, Link, frame
from bezhakkom.session import Session
from bezhakkom.stub import ANSWERS, Stub
from bezhakkom.symbols import symbols_of
from front.tests.support import rom, start
from front.tests.wire import COUNTER

LONGEST = 60  # seconds of a connection
CONNECTIONS = 100  # of one run
ADDRESSES = ("bfc00000", "bfc00004", "ffffffffbfc00008", "a0000100", "80000102", "a07ffffc", "0", "bfe00000", "c0000000", "1", "99999999999999999", "")
SIZES = ("0", "1", "4", "8", "100", "2000", "ffffffff", "-1", "")
# Lines of `monitor` that go to no far position, show no large part of memory, and write no file.
LINES = ("add", "del", "set", "move", "erase", "ferr", "wire", "patch", "regs", "reg", "cp0", "tlb", "where", "console", "find", "writer",
         "stores", "log", "devices", "undo", "unsaved", "print", "symbols", "stops", "gdb", "pos", "break", "idle", "help", "wb", "elf-file",
         "session-stops", "leaves", "next-run until", "next-run expect", "until", "type", "nothing", "'")
WORDS = ("0", "1", "5", "7", "40", "p:0x100", "p:0x1fc00004", "0xbfc00004", "-1", "1,000", "1,", "9" * 30, "pc", "$sp", "'a'", "'b\\r'", "'", '"', "none", "\0",
         "\n", "\x1b[2J", "\u2028", "x" * 3000)
# `$exception` is at least 0; the last of the registers is 5; an expression that never ends; no expression.
CONDITIONS = (b"26000222031327", b"260025220513", b"210000", b"", b"zz", b"ff" * 300)


def run(seconds: float, seed: int) -> int:
    """Tries connections for some seconds, and returns how many."""
    end, count = time.monotonic() + seconds, 0
    while not count or time.monotonic() < end:
        with closing(start(rom(COUNTER))) as driver:
            session = Session(driver, symbols_of(driver.image))
            for count in range(count + 1, count + 1 + CONNECTIONS):
                pieces = _pieces(random.Random(f"{seed} {count}"))
                try:
                    _check(session, pieces)
                except Exception as error:
                    raise AssertionError(f"packets: case {count} of seed {seed}: {type(error).__name__} {error}: {pieces!r}") from error
                if time.monotonic() >= end:
                    break
    return count


def _check(session: Session, pieces: Sequence[bytes]) -> None:
    """Serves a debugger that sends some pieces, and closes then."""
    driver = session.driver
    driver.goto(0)
    session.idle = 0  # so that a run ends only if the debugger interrupts it or has closed
    notes: List[str] = []
    faults: List[BaseException] = []
    ours, theirs = socket.socketpair()
    with ours, theirs:
        def serve() -> None:
            try:
                Stub(session, Link(theirs.fileno(), theirs.fileno()), tell=notes.append).serve()
            except BaseException as error:
                faults.append(error)
            theirs.shutdown(socket.SHUT_RDWR)

        thread = threading.Thread(target=serve, daemon=True)
        thread.start()
        ours.settimeout(LONGEST)
        shown = bytearray()
        try:
            for piece in pieces:
                ours.sendall(piece)
            ours.shutdown(socket.SHUT_WR)
            while piece := ours.recv(1 << 16):
                shown += piece
        except socket.timeout:
            raise AssertionError(f"no next debugger is served after {LONGEST} seconds") from None
        except (BrokenPipeError, ConnectionResetError):
            pass  # the stub has ended, as a packet wanted
        thread.join(LONGEST)
    assert not faults, f"the stub ends with {faults[0]!r}"
    assert not any("a fault of" in it for it in notes), notes
    _check_replies(bytes(shown))
    assert driver.value("pos") == [f"pos {driver.position}"]
    assert driver.value("log 0 1")[0] == f"log {len(driver.log)}"


def _check_replies(shown: bytes) -> None:
    """Fails if what the stub has sent is anything else than acknowledgements and packets with the right checksums."""
    at = 0
    while at < len(shown):
        found = re.compile(rb"[+-]|\$([^$#]*)#([0-9a-f]{2})").match(shown, at)
        assert found, f"the stub sends {shown[at:at + 100]!r}"
        assert found[1] is None or sum(found[1]) % 256 == int(found[2], 16), f"the checksum of {found[0]!r} is another one"
        at = found.end()


def _pieces(source: random.Random) -> List[bytes]:
    """What a debugger sends: packets, some of them damaged, and other bytes between them, in pieces of random sizes."""
    raw = b""
    for _ in range(source.choice((1, 2, 3, 5, 9))):
        packet = frame(_payload(source))
        way = source.random()
        if way < 0.1:
            at = source.randrange(len(packet))
            packet = packet[:at] + source.choice((b"", b"$", b"#", b"}", b"\x03", bytes((source.randrange(256),)))) + packet[at + source.randrange(2):]
        elif way < 0.2:
            packet += source.choice((b"\x03", b"-", b"+", b"-\x03", b"\x00\xff", b"$", b"#00", b"}"))
        raw += packet
    pieces = []
    while raw:
        count = source.choice((1, 7, 100, len(raw)))
        pieces.append(raw[:count])
        raw = raw[count:]
    return pieces if len(pieces) < 50 else [b"".join(pieces)]


def _payload(source: random.Random) -> bytes:
    """A payload: of a good form, or a beginning with anything after it."""
    way, address, size = source.randrange(10), source.choice(ADDRESSES), source.choice(SIZES)
    if way == 0:
        return source.choice(list(ANSWERS)) + bytes(source.choices(b"0123456789abcdef,;:=.cs+-X \n\x00\x7f\xff", k=source.randrange(12)))
    if way == 1:
        line = " ".join([source.choice(LINES), *source.choices(WORDS, k=source.randrange(4))])
        return b"qRcmd," + line.encode("utf-8", "surrogateescape").hex().encode()
    if way == 2:
        return f"{source.choice('Zz')}{source.randrange(6)},{address},{size}".encode() + b"".join(
            b";X%x,%s" % (len(code) // 2, code) for code in source.choices(CONDITIONS, k=source.randrange(3)))
    if way == 3:
        content = source.randbytes(number_of(f"0x{size}") or 0) if len(size) < 4 and size.isalnum() else b""
        return f"X{address},{size}:".encode() + content if source.random() < 0.5 else f"M{address},{size}:{content.hex()}".encode()
    if way == 4:
        return f"m{address},{size}".encode()
    if way == 5:
        number = source.choice(("0", "25", "48", "54", "55", "ffff", ""))
        return source.choice((f"p{number}", f"P{number}=00000000", "g", "G" + "0" * source.choice((8, 640)))).encode()
    if way == 6:
        return b"vRun;%s;%s" % (source.choice((b"", b"zz", b"61")), source.choice((b"", b"40", b"1,000", b"main", b"x")).hex().encode())
    if way == 7:
        return source.choice((b"QStartNoAckMode", b"qSupported:multiprocess+", b"qXfer:features:read:target.xml:0,%x" % source.randrange(1 << 17), b"?", b"!",
                              b"A" * source.choice((PACKET_BYTES, PACKET_BYTES + 1, 3 * PACKET_BYTES)), b"D;1", b"k"))
    return source.choice((b"c", b"s", b"bs", b"bc", b"vCont;c", b"vCont;s:1;c", b"vCont;r%s,%s" % (address.encode(), size.encode()), b"vCont?"))
