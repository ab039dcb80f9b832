"""A link: one connection on which texts go both ways, as RFC 6455 has it. A question over it and its answer take a tenth of the time
that a request of HTTP takes in a browser."""
from __future__ import annotations

import base64
import hashlib
from typing import BinaryIO, Optional

from ..errors import Problem

_KEY = "258EAFA5-E914-47DA-95CA-C5AB0DC85B11"
_CONTINUED, _TEXT, _CLOSE, _PING, _PONG = 0, 1, 8, 9, 10
_LAST = 0x80  # of the parts of a text
_MASKED = 0x80


def accepted(key: str) -> str:
    """What a server says to the key of who wants a link."""
    return base64.b64encode(hashlib.sha1((key + _KEY).encode()).digest()).decode()


class Link:
    """The server's end. `most` are the bytes of a text."""

    def __init__(self, incoming: BinaryIO, outgoing: BinaryIO, most: int) -> None:
        self._in = incoming
        self._out = outgoing
        self._most = most

    def receive(self) -> Optional[bytes]:
        """The next text, or None where the link ends. What is no link of a browser raises Problem."""
        text: Optional[bytes] = None  # as far as it came
        while True:
            first, second = self._read(2)
            kind, size = first & ~_LAST, second & ~_MASKED
            if size > 125:
                size = int.from_bytes(self._read(2 if size == 126 else 8), "big")
            if not second & _MASKED or len(text or b"") + size > self._most:
                raise Problem("that is no text of a page")
            part = _unmasked(self._read(4), self._read(size))
            if kind == _CLOSE:
                return None
            if kind == _PING:
                self._put(_PONG, part)
            elif kind == (_TEXT if text is None else _CONTINUED):
                text = (text or b"") + part
                if first & _LAST:
                    return text
            elif kind != _PONG:
                raise Problem("that is no text of a page")

    def send(self, text: bytes) -> None:
        self._put(_TEXT, text)

    def _read(self, size: int) -> bytes:
        content = self._in.read(size)
        if len(content) < size:
            raise ConnectionError
        return content

    def _put(self, kind: int, content: bytes) -> None:
        size = len(content)
        shown = bytes([size]) if size < 126 else b"\x7e" + size.to_bytes(2, "big") if size < 1 << 16 else b"\x7f" + size.to_bytes(8, "big")
        self._out.write(bytes([_LAST | kind]) + shown + content)
        self._out.flush()


def _unmasked(mask: bytes, content: bytes) -> bytes:
    size = len(content)
    masks = (mask * (size // 4 + 1))[:size]
    return (int.from_bytes(content, "big") ^ int.from_bytes(masks, "big")).to_bytes(size, "big")
