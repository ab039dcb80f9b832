"""The link of the page: who gets one, what is asked over it, and what ends it. The frames are those of RFC 6455, made here by hand."""
from __future__ import annotations

import json
import socket
import unittest
from contextlib import contextmanager
from typing import Any, BinaryIO, Iterator, Optional

from bezhakkom.view.link import accepted
from bezhakkom.view.server import LINK, MOST_BYTES, Server
from front.tests.viewed import LOGIN, laid_out, posted, served

MASK = b"\x01\x02\xfe\xff"
KEY = "dGhlIHNhbXBsZSBub25jZQ=="  # the sample of RFC 6455, 1.3
TEXT, MORE, CLOSE, PING, PONG, LAST = 1, 0, 8, 9, 10, 0x80


def frame(first: int, content: bytes, mask: Optional[bytes] = MASK, size: Optional[int] = None) -> bytes:
    length = len(content) if size is None else size
    is_masked = LAST if mask else 0
    shown = bytes([first, is_masked | length]) if length < 126 else bytes([first, is_masked | 126]) + length.to_bytes(2, "big") \
        if length < 1 << 16 else bytes([first, is_masked | 127]) + length.to_bytes(8, "big")
    return shown + (mask + bytes(it ^ mask[at % 4] for at, it in enumerate(content)) if mask else content)


def received(file: BinaryIO) -> Optional[tuple[int, bytes]]:
    """A frame of the server: its first byte and its content."""
    head = file.read(2)
    if len(head) < 2:
        return None
    size = head[1] if head[1] < 126 else int.from_bytes(file.read(2 if head[1] == 126 else 8), "big")
    return head[0], file.read(size)


class Links(unittest.TestCase):
    @contextmanager
    def link(self, server: Server) -> Iterator[Any]:
        with socket.create_connection(server.server_address[:2], 60) as connection, connection.makefile("rwb") as file:
            file.write(f"GET /{server.token}/{LINK} HTTP/1.1\r\nHost: {server.host}\r\nOrigin: {server.origin}\r\nUpgrade: websocket\r\n"
                       f"Connection: Upgrade\r\nSec-WebSocket-Key: {KEY}\r\nSec-WebSocket-Version: 13\r\n\r\n".encode())
            file.flush()
            head = b"".join(iter(file.readline, b"\r\n")).decode()
            self.assertTrue(head.startswith("HTTP/1.1 101 "), head)
            self.assertIn("Sec-WebSocket-Accept: s3pPLMBiTxaQ9kYGzzhZRbK+xOo=\r\n", head)
            yield file

    def asked(self, file: Any, *frames: bytes) -> Optional[tuple[int, bytes]]:
        file.write(b"".join(frames))
        file.flush()
        return received(file)

    def test_key(self) -> None:
        self.assertEqual(accepted(KEY), "s3pPLMBiTxaQ9kYGzzhZRbK+xOo=")

    def test_answers(self) -> None:
        """They are those of requests: of a text in one frame, of one in parts, and of a long one."""
        ask = {"view": {"begin": 0, "end": 131_072, "columns": 900}, "cursor": 40_024}
        with laid_out(*LOGIN) as desk, served(desk) as server:
            wanted = json.loads(posted(server, ask).content)  # type: ignore[attr-defined]
            text = json.dumps(ask).encode()
            padded = text + b" " * 100_000
            with self.link(server) as file:
                for frames in ([frame(TEXT | LAST, text)], [frame(TEXT, b""), frame(PING | LAST, b""), frame(MORE, text[:7]), frame(MORE | LAST, text[7:])],
                               [frame(PONG | LAST, b"x"), frame(TEXT | LAST, padded)]):
                    found = self.asked(file, *frames)
                    if found == (PONG | LAST, b""):
                        found = received(file)
                    assert found
                    self.assertEqual(found[0], TEXT | LAST)
                    shown = json.loads(found[1])
                    self.assertEqual((shown["now"], shown["cursor"]), (wanted["now"], wanted["cursor"]))
                self.assertEqual(self.asked(file, frame(PING | LAST, b"there?")), (PONG | LAST, b"there?"))
                self.assertEqual(json.loads((self.asked(file, frame(TEXT | LAST, b'{"view": 5}')) or (0, b""))[1]), {"problem": "`view` is no object"})
                self.assertIsNone(self.asked(file, frame(CLOSE | LAST, b"")))

    def test_what_ends_it(self) -> None:
        """What is no text of a page ends the link, and the desk stays."""
        with laid_out(*LOGIN) as desk, served(desk) as server:
            for name, content in (("not masked", frame(TEXT | LAST, b"{}", None)), ("bytes", frame(2 | LAST, b"{}")), ("no JSON", frame(TEXT | LAST, b"{")),
                                  ("a list", frame(TEXT | LAST, b"[]")), ("no UTF-8", frame(TEXT | LAST, b"\xff")), ("deep", frame(TEXT | LAST, b"[" * 100_000)),
                                  ("a part of nothing", frame(MORE | LAST, b"{}")), ("a text amid another", frame(TEXT, b"{") + frame(TEXT | LAST, b"}")),
                                  ("reserved", frame(0x40 | TEXT | LAST, b"{}")), ("too long", frame(TEXT | LAST, b"", size=MOST_BYTES + 1)),
                                  ("far too long", frame(TEXT | LAST, b"", size=(1 << 64) - 1)),
                                  ("too long in parts", frame(TEXT, b" " * MOST_BYTES) + frame(MORE | LAST, b" "))):
                with self.subTest(name), self.link(server) as file:
                    try:
                        self.assertIsNone(self.asked(file, content))
                    except ConnectionError:
                        pass  # it was closed before all was read
            self.assertEqual(posted(server, {}).status, 200)

    def test_refusals(self) -> None:
        with laid_out(*LOGIN) as desk, served(desk) as server:
            wanted = {"name": LINK, "method": "GET", "Origin": server.origin, "Upgrade": "websocket", "Connection": "Upgrade", "Sec_WebSocket_Key": KEY,
                      "Sec_WebSocket_Version": "13"}
            for changed in ({"token": "x"}, {"Origin": None}, {"Origin": "null"}, {"Origin": "http://example.org"}, {"Host": "example.org"},
                            {"Host": server.host.replace("127.0.0.1", "localhost")}, {"Sec_Fetch_Site": "cross-site"}, {"Sec_Fetch_Site": "none"},
                            {"Upgrade": None}, {"Upgrade": "h2c"}, {"Sec_WebSocket_Key": None}, {"Sec_WebSocket_Version": "8"}):
                with self.subTest(changed):
                    reply = posted(server, **{**wanted, **changed})  # type: ignore[arg-type]
                    self.assertEqual((reply.status, reply.content), (404, b""))  # type: ignore[attr-defined]


if __name__ == "__main__":
    unittest.main()
