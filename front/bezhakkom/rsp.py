"""Packets of gdb's remote serial protocol, over two file descriptors.

A packet is `$payload#checksum`, where `}` stands before a byte that is sent with bit 5 flipped. Each side acknowledges
with `+`, or asks for the packet again with `-`, until both agree to do without. The byte 0x03 outside a packet asks a
running program to stop.
"""

from __future__ import annotations

import os
import select
import time
from collections import deque

INTERRUPT = b"\x03"
AGAIN = b"-"
# gdb sends 0x03 only while it waits for a stop, so one that comes between two packets has crossed the report of a stop. Where that was
# one of many steps that gdb makes for one line (`stepi 1000`), the next one follows within milliseconds, and ends at once. Where it was the
# last of them the line is over, as the key wanted. What a person types next comes after this many seconds, and runs.
SOON = 0.5
PACKET_BYTES = 0x4000  # the longest payload that is taken
READ_BYTES = 0x10000
MOST_WAITING = 1000  # packets that are kept while the program runs
ESCAPED = b"#$}*"


def checksum(raw: bytes) -> int:
    return sum(raw) & 0xFF


def escape(payload: bytes) -> bytes:
    raw = bytearray()
    for byte in payload:
        if byte in ESCAPED:
            raw += bytes((ord("}"), byte ^ 0x20))
        else:
            raw.append(byte)
    return bytes(raw)


def unescape(raw: bytes) -> bytes:
    payload = bytearray()
    flip = 0
    for byte in raw:
        if byte == ord("}") and not flip:
            flip = 0x20
        else:
            payload.append(byte ^ flip)
            flip = 0
    return bytes(payload)


def frame(payload: bytes) -> bytes:
    raw = escape(payload)
    return b"$" + raw + b"#" + b"%02x" % checksum(raw)


class Link:
    """One end of the protocol. Garbage between packets is passed over. A packet with a wrong checksum is asked for
    again, or without acknowledgements comes as an empty one, which no command is; so does one that is too long."""

    def __init__(self, source: int, sink: int) -> None:
        self.acknowledging = True
        self._source = source
        self._sink = sink
        # What was read and not yet taken: packets, each as it was sent between `$` and the end of its checksum, and AGAIN and INTERRUPT.
        self._waiting: deque[bytes] = deque()
        self._begun: bytearray | None = None  # a packet of which the rest is to come
        self._digits = 0  # of its checksum that are to come
        self._closed = False
        self._crossed: float | None = None  # when 0x03 came between two packets
        self._last = b""  # what was sent last, in case the other side asks for it again

    def receive(self) -> bytes | None:
        """The next packet's payload, or None where the other side has closed."""
        while True:
            while not self._waiting:
                if self._closed:
                    return None
                self._fill()
            item = self._waiting.popleft()
            if item == INTERRUPT:
                self._crossed = time.monotonic()
            elif item != AGAIN:
                raw = self._checked(item)
                if raw is not None:
                    return unescape(raw)
            elif self.acknowledging:
                self._write(self._last)

    def send(self, payload: bytes) -> None:
        self._last = frame(payload)
        self._write(self._last)

    def interrupted(self) -> bool:
        """Returns whether the run is to end: gdb has sent 0x03, also behind packets, which are kept, or has closed the connection, or sends
        packets without end."""
        crossed, self._crossed = self._crossed, None
        if crossed is not None and time.monotonic() < crossed + SOON:
            return True
        while not self._closed and len(self._waiting) < MOST_WAITING and select.select([self._source], [], [], 0)[0]:
            self._fill()
        if INTERRUPT in self._waiting:
            self._waiting.remove(INTERRUPT)
            return True
        return self._closed or len(self._waiting) >= MOST_WAITING

    def _checked(self, packet: bytes) -> bytes | None:
        """The payload as it was sent, or None where it has to come again."""
        raw, digits = packet[:-3], packet[-2:]
        too_long = len(raw) > PACKET_BYTES
        good = too_long or digits.lower() == b"%02x" % checksum(raw)
        if self.acknowledging:
            self._write(b"+" if good else b"-")
            if not good:
                return None
        return raw if good and not too_long else b""

    def _fill(self) -> None:
        """Waits for the next piece of what the other side sends, and sorts its bytes."""
        try:
            piece = os.read(self._source, READ_BYTES)
        except ConnectionError:
            piece = b""
        self._closed = not piece
        for byte in piece:
            self._sort(byte)

    def _sort(self, byte: int) -> None:
        packet = self._begun
        if packet is not None and self._digits:
            packet.append(byte)
            self._digits -= 1
            if not self._digits:
                self._waiting.append(bytes(packet))
                self._begun = None
        elif byte == ord("$"):
            self._begun = bytearray()
        elif packet is None:
            if byte in AGAIN + INTERRUPT:
                self._waiting.append(bytes((byte,)))
        elif byte == ord("#"):
            packet.append(byte)
            self._digits = 2
        elif len(packet) <= PACKET_BYTES:
            packet.append(byte)

    def _write(self, data: bytes) -> None:
        while data:
            data = data[os.write(self._sink, data):]
