"""The debugger's end of a stub, for tests: packets go in as gdb would send them, and replies come out."""
from __future__ import annotations

import socket
import threading
import unittest
from typing import Optional, Sequence

from bezhakkom.driver import Driver
from bezhakkom.log import Event
from bezhakkom.rsp import Link
from bezhakkom.session import Session
from bezhakkom.stub import Stub
from bezhakkom.symbols import symbols_of
from front.tests.support import rom, start

TIMEOUT = 30

# lui r1, 0xa000; addiu r2, r2, 1; sw r2, 0x100(r1); beq r0, r0, back to the addiu; sll r0, r0, 0
COUNTER = [0x3C01A000, 0x24420001, 0xAC220100, 0x1000FFFD, 0x00000000]

# The echo of examples/echo, from its first word on; it continues at its 1025th.
ECHO_START = [0x3C01BFE0, 0x3C08A000, 0x24041000, 0xAC240008, 0x24050001, 0xAC250010, 0x24050020, 0x0BF00400,
              0xAC250000]
ECHO_LOOP = [0x8C260008, 0, 0xAD060100, 0x00063C00, 0x04E10004, 0, 0xAD000104, 0x0BF0040C, 0xAC260018, 0, 0, 0,
             0x0BF00400, 0]
ECHO = [*ECHO_START, *[0] * (0x400 - len(ECHO_START)), *ECHO_LOOP]
TYPED = [Event(70, 0, 0x41), Event(200, 0, 0x42)]


def packed(payload: bytes) -> bytes:
    """A packet as gdb sends it, of a payload without characters that are escaped."""
    return b"$%s#%02x" % (payload, sum(payload) % 256)


class Wire:
    """A stub on a driver, in a thread of its own."""

    def __init__(self, driver: Driver, *, exceptions_whole: bool = False) -> None:
        self.driver = driver
        self.notes: list[str] = []  # the reasons for errors
        self.console = b""  # what was shown while the program ran
        self._ours, self._theirs = socket.socketpair()
        self._ours.settimeout(TIMEOUT)
        self._unread = b""
        session = Session(driver, symbols_of(driver.image), saved_log=list(driver.log))
        stub = Stub(session, Link(self._theirs.fileno(), self._theirs.fileno()), exceptions_whole=exceptions_whole,
                    tell=self.notes.append)
        self._thread = threading.Thread(target=self._serve, args=(stub,), daemon=True)
        self._thread.start()

    def _serve(self, stub: Stub) -> None:
        try:
            stub.serve()
        finally:
            self._theirs.shutdown(socket.SHUT_WR)

    def close(self) -> None:
        """Closes the debugger's end, as gdb does when it ends, and waits for the stub."""
        if self._ours.fileno() < 0:
            return
        self._ours.shutdown(socket.SHUT_WR)
        self._thread.join(TIMEOUT)
        self.driver.close()
        self._ours.close()
        self._theirs.close()

    def serves(self) -> bool:
        return self._thread.is_alive()

    def put(self, raw: bytes) -> None:
        self._ours.sendall(raw)

    def take(self, count: int) -> bytes:
        """The next bytes, whatever they are."""
        while len(self._unread) < count:
            piece = self._ours.recv(4096)
            if not piece:
                break
            self._unread += piece
        taken, self._unread = self._unread[:count], self._unread[count:]
        return taken

    def reply(self) -> Optional[bytes]:
        """The payload of the next packet that is no console text, or None at the end."""
        while True:
            while (byte := self.take(1)) == b"+":
                pass
            if byte != b"$":
                return None
            payload = b""
            while (byte := self.take(1)) != b"#":
                payload += byte
            self.take(2)
            self.put(b"+")
            if not (payload.startswith(b"O") and payload != b"OK"):
                return payload
            self.console += bytes.fromhex(payload[1:].decode())

    def ask(self, payload: str) -> str:
        """The reply to a packet."""
        self.put(packed(payload.encode()))
        reply = self.reply()
        assert reply is not None, f"no reply to {payload}"
        return reply.decode("latin-1")

    def command(self, line: str) -> str:
        """What `monitor LINE` shows."""
        kept, self.console = self.console, b""
        reply = self.ask("qRcmd," + line.encode().hex())
        shown, self.console = self.console, kept
        return shown.decode() if reply == "OK" else reply

    def position(self) -> int:
        return int(self.command("wb pos").split()[1])


class StubTest(unittest.TestCase):
    def wire(self, words: Sequence[int], log: Sequence[Event] = (), **options: bool) -> Wire:
        return self.wire_on(start(rom(words), log), **options)

    def wire_on(self, driver: Driver, **options: bool) -> Wire:
        wire = Wire(driver, **options)
        self.addCleanup(wire.close)
        return wire

    def dialog(self, wire: Wire, *exchanges: tuple[str, str]) -> None:
        for packet, expected in exchanges:
            self.assertEqual(wire.ask(packet), expected, packet)

    def refusals(self, wire: Wire, *refusals: tuple[str, str]) -> None:
        """Packets that are refused, each with words of the reason."""
        for packet, reason in refusals:
            self.dialog(wire, (packet, "E01"))
            self.assertIn(reason, wire.notes.pop(), packet)

    def stops(self, wire: Wire, *stops: tuple[str, str, int]) -> None:
        """Packets that move, each with its reply and the position after it."""
        for packet, expected, position in stops:
            self.assertEqual((wire.ask(packet), wire.position()), (expected, position), packet)
