"""Fuzzes the server of the page: hostile and garbled messages over requests and over the link, requests of other origins, half messages,
and many connections. After each case the server answers, what was refused has changed nothing, and page, desk and program have one log."""
from __future__ import annotations

import json
import random
import socket
import time
from contextlib import ExitStack, suppress
from typing import Any, Callable, List, Optional, Tuple
from unittest import mock

from bezhakkom.log import Event
from bezhakkom.view.desk import Desk
from bezhakkom.view.server import LINK, MOST_BYTES, Server
from front.tests.viewed import LOGIN, laid_out, served

TOGETHER = 100  # cases of one server
END = 131_072
PATIENCE = 0.25  # seconds after which an answer is stopped, as by the button of the page
LIMIT = 60.0  # seconds in which the server answers then, on a slow machine too
WHOLE = 1 << 24  # bytes, of which no reply has as many
CROWD, MOST_OPEN = 40, 20  # connections that are made at a time, and half messages that stay open
KEY = "dGhlIHNhbXBsZSBub25jZQ=="

# Replacements for a value in a message.
HOSTILE = [None, True, False, -1, 0, 1, 2, 7, 255, 256, 65_536, 1 << 31, 1 << 32, (1 << 40) - 1, 1 << 40, (1 << 53) - 1, 1 << 53, 1 << 64, 10 ** 400,
           1.5, -0.0, 1e308, float("nan"), float("inf"), "", " ", "0", "x", "x" * 201, "\0", "\n", "\u2028", "\ud800", "\u0663", "é", "../x",
           "'", '"', "'a b'", "$v0", "pc", "session+32", "console", "sent 0 5", "sent 9 9", "word session+32 == 3", "[session+32] == [session]",
           "[[[[", "(" * 150, "1_0", "-5", "0x" + "f" * 100, "constructor", "__class__", [], [[]], [None] * 70, {}, {"": {}}, {"do": "add"}]


def run(seconds: float, seed: int) -> int:
    """Plays cases that a seed chooses. Returns how many."""
    end, count = time.monotonic() + seconds, 0
    while time.monotonic() < end:
        with laid_out("--to", str(END), *LOGIN) as desk, served(desk) as server, \
                mock.patch("socketserver.BaseServer.handle_error") as faults, ExitStack() as opened:
            cases = Cases(desk, server, faults, opened)
            for _ in range(TOGETHER):
                if time.monotonic() > end:
                    break
                cases.play(random.Random(f"{seed} {count}"), count)
                count += 1
    return count


class Cases:
    """Plays cases at one server."""

    def __init__(self, desk: Desk, server: Server, faults: mock.Mock, opened: ExitStack) -> None:
        self._desk, self._server, self._faults, self._opened = desk, server, faults, opened
        self._open = 0  # half messages whose connections are open
        self._edits = 0
        self._played: List[str] = []

    def play(self, source: random.Random, number: int) -> None:
        """Plays a case and checks the server."""
        kind = source.choices((self._message, self._over_link, self._foreign, self._garbage, self._frames, self._half, self._crowd),
                              (50, 20, 10, 8, 8, 4, 1))[0]
        self._played = []
        try:
            kind(source)
            self._check()
        except (AssertionError, OSError, ValueError) as error:
            raise AssertionError(f"case {number}, {kind.__name__[1:]}: {error}; {' '.join(self._played)[:3_000]}") from error

    # Cases

    def _message(self, source: random.Random) -> None:
        self._judged(message(source, self._numbered), lambda content: self._posted(content))

    def _over_link(self, source: random.Random) -> None:
        """Messages over one link. One that is no JSON ends it."""
        with self._link() as link:
            for _ in range(source.randrange(1, 4)):
                self._judged(message(source, self._numbered), lambda content: self._sent(link, content))

    def _foreign(self, source: random.Random) -> None:
        """A request that is not of the page itself. Its content would delete an event."""
        server = self._server
        content = json.dumps({"edits": [self._numbered({"do": "delete", "id": self._desk._now.ids[0] if self._desk._now.ids else 0})]}).encode()
        lines = {"Host": server.host, "Origin": server.origin, "Content-Type": "application/json", "Content-Length": str(len(content)),
                 "Sec-Fetch-Site": "same-origin"}
        method, path = "POST", f"/{server.token}/ask"
        way = source.randrange(8)
        if way == 0:
            path = source.choice([f"/{server.token[:-1]}/ask", "//ask", f"/{server.token}/{server.token}/ask", f"/{server.token.swapcase()}/ask", "/ask",
                                  f"/%2e/{server.token}/ask", f"/{server.token}/ask%00", f"/{server.token}/../{server.token}/ask", "/é/ask"])
        elif way == 1:
            lines["Origin"] = source.choice(["null", "http://example.org", server.origin + "0", server.origin.replace("http", "https"), f"{server.origin}/",
                                             "http://localhost" + server.origin[16:], f"{server.origin}, {server.origin}", "", "\u212b"])
        elif way == 2:
            lines["Host"] = source.choice(["localhost", "example.org", server.host + "0", "127.0.0.1", "", f"x@{server.host}", f"{server.host}."])
        elif way == 3:
            lines["Sec-Fetch-Site"] = source.choice(["cross-site", "same-site", "none", "", "same-origin, cross-site"])
        elif way == 4:
            lines["Content-Type"] = source.choice(["text/plain", "application/json;", "application/x-www-form-urlencoded", "", "APPLICATION/JSON"])
        elif way == 5:
            lines["Content-Length"] = source.choice(["", "-1", "+1", "0x10", "1e3", str(MOST_BYTES + 1), "9" * 30, "\u0663", f"{len(content)}, 1"])
        elif way == 6:
            del lines[source.choice(["Host", "Origin", "Content-Type", "Content-Length"])]
        else:
            method = source.choice(["PUT", "DELETE", "OPTIONS", "HEAD", "TRACE", "CONNECT", "post", "GET", ""])
        head = f"{method} {path} HTTP/1.1\r\n" + "".join(f"{name}: {value}\r\n" for name, value in lines.items()) + "\r\n"
        self._nothing_done(head.encode("utf-8", "surrogateescape") + content)

    def _garbage(self, source: random.Random) -> None:
        """Bytes that are no request, or a request with wrong bytes in it."""
        text = f"GET /{'x' * len(self._server.token)}/ HTTP/1.1\r\nHost: {self._server.host}\r\nA: b\r\n\r\n".encode()
        if source.randrange(3):
            text = garbled(source, text * source.choice([1, 1, 200]))
        else:
            text = source.randbytes(source.randrange(2_000)) + source.choice([b"", b"\r\n\r\n", b"\n" * 200])
        self._nothing_done(text)

    def _frames(self, source: random.Random) -> None:
        """Frames that RFC 6455 does not have, and such as come in parts."""
        content = text_of(message(source, self._numbered))
        link = self._link()
        with link:
            sent = b""
            for _ in range(source.randrange(1, 4)):
                first = source.choice([0x81, 0x81, 0x01, 0x00, 0x80, 0x82, 0x88, 0x89, 0x8A, 0xC1, 0x83, source.randrange(256)])
                size = source.choice([None, None, None, 0, 1, MOST_BYTES, MOST_BYTES + 1, (1 << 63), (1 << 64) - 1])
                sent += frame(first, content, size, bool(source.randrange(8)))
            self._played.append(repr(sent[:300]))
            try:
                link.sendall(garbled(source, sent) if source.randrange(2) else sent)
                with suppress(OSError):
                    link.shutdown(socket.SHUT_WR)
                self._received(link)
            except ConnectionError:
                pass

    def _half(self, source: random.Random) -> None:
        """A part of a message, whose connection stays open, or is closed or broken off."""
        content = text_of(message(source, self._numbered))
        head = (f"POST /{self._server.token}/ask HTTP/1.1\r\nHost: {self._server.host}\r\nOrigin: {self._server.origin}\r\n"
                f"Content-Type: application/json\r\nContent-Length: {len(content)}\r\n\r\n").encode()
        whole = source.choice([head + content, frame(0x81, content)])
        connection = self._connected() if whole.startswith(b"POST") else self._link()
        connection.sendall(whole[:source.randrange(len(whole))])
        if source.randrange(3) or self._open >= MOST_OPEN:
            if source.randrange(2):
                connection.setsockopt(socket.SOL_SOCKET, socket.SO_LINGER, b"\1\0\0\0\0\0\0\0")  # it is broken off
            connection.close()
        else:
            self._open += 1
            self._opened.enter_context(connection)

    def _crowd(self, source: random.Random) -> None:
        """Many connections, of which some ask. All are answered."""
        with ExitStack() as opened:
            crowd = [opened.enter_context(self._connected()) for _ in range(CROWD)]
            for it in crowd:
                if source.randrange(2):
                    it.sendall(self._request(b"{}"))
                    assert self._received(it, True).startswith(b"HTTP/1.1 200 "), "one of many was refused"

    # What holds

    def _judged(self, asked: Any, send: Callable[[bytes], Optional[bytes]]) -> None:
        """Sends a message. Its reply is a problem in words or an answer, and edits of which each was refused have changed nothing."""
        before, content = self._state(), text_of(asked)
        self._played.append(content.decode())
        reply = send(content)
        if reply is None:
            return
        found = json.loads(reply)
        problem = found.get("problem", "")
        assert isinstance(problem, str) and "a fault of" not in problem, problem
        assert problem or "state" in found, "neither a problem nor an answer"
        edits = asked.get("edits") if isinstance(asked, dict) else None
        if isinstance(edits, list) and edits and len(found.get("refused", [])) == len(edits):
            assert self._state() == before, f"refused, and yet it changed: {problem}"

    def _state(self) -> Tuple[List[Event], List[int], int, int, Any]:
        desk = self._desk
        return list(desk._now.log), list(desk._now.ids), len(desk._done), len(desk._undone), desk._ghost and list(desk._ghost.log)

    def _nothing_done(self, content: bytes) -> None:
        """What is sent is refused without a word, and changes nothing."""
        before = self._state()
        self._played.append(repr(content[:600]))
        with self._connected() as connection:
            try:
                connection.sendall(content)
                with suppress(OSError):  # it may have closed already
                    connection.shutdown(socket.SHUT_WR)
                reply = self._received(connection)
            except ConnectionError:  # it refused before all of it was sent
                reply = b""
        assert not reply or reply[:9] == b"HTTP/1.1 " and reply[9:10] in (b"4", b"5") and reply.endswith(b"\r\n\r\n"), reply[:300]
        assert self._state() == before, "it changed the desk"

    def _check(self) -> None:
        """The server answers, and has one log with its program."""
        reply = json.loads(self._posted(json.dumps({"number": 77, "end": END, "words": [{"name": "session+32"}], "view": {
            "begin": 0, "end": END, "columns": 900}, "edits": [self._numbered({"do": "against"})]}).encode(), False) or b"")
        assert reply.get("number") == 77 and "problem" not in reply, reply.get("problem", reply)
        desk = self._desk
        log = desk._now.log
        assert log == sorted(log, key=lambda it: it.time) and len(set(desk._now.ids)) == len(log), "the log has no order"
        assert desk._driver.log == log, "the program has another log"
        assert reply["state"]["events"] == len(log), "the page has another log"
        assert not self._faults.called, f"a connection failed: {self._faults.call_args}"

    # Sending

    def _numbered(self, edit: dict[str, Any]) -> dict[str, Any]:
        self._edits += 1
        return {"number": self._edits, "gesture": self._edits, **edit}

    def _connected(self) -> socket.socket:
        return socket.create_connection(self._server.server_address[:2], LIMIT)

    def _request(self, content: bytes, name: str = "ask") -> bytes:
        return (f"POST /{self._server.token}/{name} HTTP/1.1\r\nHost: {self._server.host}\r\nOrigin: {self._server.origin}\r\nConnection: close\r\n"
                f"Content-Type: application/json\r\nContent-Length: {len(content)}\r\n\r\n").encode() + content

    def _posted(self, content: bytes, is_stopped: bool = True) -> Optional[bytes]:
        """The content of a reply, or None if the server refuses what is no message at all."""
        with self._connected() as connection:
            connection.sendall(self._request(content))
            head, _, reply = self._received(connection, is_stopped=is_stopped).partition(b"\r\n\r\n")
        status = head[9:12]
        assert status in (b"200", b"400"), head
        return reply if status == b"200" else None

    def _sent(self, link: socket.socket, content: bytes) -> Optional[bytes]:
        """The content of a reply over a link, or None if that ends."""
        try:
            link.sendall(frame(0x81, content))
            head = self._received(link, True, 2)
            size = head[1] if len(head) == 2 else 0
            if size > 125:
                size = int.from_bytes(self._received(link, True, 2 if size == 126 else 8), "big")
            return self._received(link, True, size) if head else None
        except ConnectionError:
            return None

    def _link(self) -> socket.socket:
        link = self._connected()
        link.sendall(f"GET /{self._server.token}/{LINK} HTTP/1.1\r\nHost: {self._server.host}\r\nOrigin: {self._server.origin}\r\nUpgrade: websocket\r\n"
                     f"Connection: Upgrade\r\nSec-WebSocket-Key: {KEY}\r\nSec-WebSocket-Version: 13\r\n\r\n".encode())
        head = b""
        while not head.endswith(b"\r\n\r\n"):
            head += self._received(link, True, 1)
        assert head.startswith(b"HTTP/1.1 101 "), head
        return link

    def _received(self, connection: socket.socket, is_part: bool = False, size: int = WHOLE, is_stopped: bool = True) -> bytes:
        """What comes: so many bytes or the first ones that come, or all up to the end. What takes long is stopped, as the page's button does."""
        connection.settimeout(PATIENCE)
        found, limit = b"", time.monotonic() + LIMIT
        while len(found) < size:
            try:
                piece = connection.recv(min(1 << 16, size - len(found)))
            except socket.timeout:
                assert time.monotonic() < limit, f"no answer in {LIMIT:.0f} seconds" + ", though it was to stop" * is_stopped
                if is_stopped:
                    with self._connected() as other:
                        other.sendall(self._request(b"{}", "stop"))
                        other.recv(1 << 16)
                continue
            found += piece
            if not piece or is_part and size == WHOLE:
                break
        return found


# Messages

def message(source: random.Random, numbered: Callable[[dict[str, Any]], dict[str, Any]]) -> Any:
    """A message of the page in which some values are hostile."""
    made: dict[str, Any] = {"page": source.choice(["", "one", "two"]), "number": source.randrange(1_000), "cursor": source.randrange(END)}
    for name, make in (("edits", lambda: [numbered(edit(source)) for _ in range(source.randrange(1, 4))]), ("view", lambda: view(source)),
                       ("jump", lambda: jump(source)), ("sweep", lambda: sweep(source)), ("words", lambda: [{"name": "session+32"}, {"name": "0x80001000"}]),
                       ("causes", lambda: {"what": what(source)}), ("why", lambda: {"what": what(source)}),
                       ("save", lambda: {"kind": source.choice(["log", "text", "session", "image"])}),
                       ("end", lambda: source.choice([END, 2 * END, 0, 1 << 22, (1 << 40) - 1])), ("held", lambda: [0, 1, 99]),
                       ("saved", lambda: source.randrange(3))):
        if not source.randrange({"edits": 2, "view": 2, "end": 12}.get(name, 6)):
            made[name] = make()
    for name in "ghost", "live", "rest":
        made[name] = bool(source.randrange(2))
    for _ in range(source.choice([0, 0, 1, 1, 1, 2, 5])):
        made = hostile(source, made)
    return made


def edit(source: random.Random) -> dict[str, Any]:
    do = source.choice(["add", "add", "change", "change", "delete", "undo", "redo", "keep", "against", "back", "cancel", "shrink"])
    made: dict[str, Any] = {"do": do, "name": source.choice(["one", "two", ""])}
    if do in ("add", "change", "delete"):
        made.update(id=source.choice([source.randrange(12), source.randrange(1 << 53)]), time=source.randrange(2 * END), byte=source.randrange(256))
    if do == "add":
        kind = source.randrange(3)
        made.update(kind=kind, line=source.randrange(3), byte=made["byte"] % (2 if kind == 2 else 256))
    if do == "shrink":
        made["until"] = source.choice(["'login'", "console 'Sorry'", "word session+32 == 3", "'never'"])
    return made


def view(source: random.Random) -> dict[str, Any]:
    begin = source.randrange(END)
    return {"begin": begin, "end": source.choice([begin + 1, begin + 400, END, 2 * END]), "columns": source.choice([16, 900, 8_192]),
            "samples": source.choice([4, 12, 96])}


def jump(source: random.Random) -> dict[str, Any]:
    to = source.choice(["store", "send", "visit", "event", "line", "byte", "difference"])
    return {"to": to, "forward": bool(source.randrange(2)), "line": source.randrange(4), "word": source.choice([None, 0, 1]), "wire": bool(source.randrange(2)),
            "address": source.choice([0x8000_1020, 0xBFC0_0000, 0, 0xFFFF_FFFF]), "place": source.choice([0, 3, 9_999]),
            "function": source.choice(["receive", "bfc00000", "zz"])}


def sweep(source: random.Random) -> dict[str, Any]:
    return {"id": source.randrange(12), "begin": source.choice([None, 0, END]), "at": source.choice([None, END]), "without": bool(source.randrange(2)),
            "wanted": source.choice(["", "as now", "'Welcome'", "word session+32 == 3"]),
            source.choice(["steps", "values"]): [source.randrange(2) for _ in range(source.randrange(4))]}


def what(source: random.Random) -> str:
    return source.choice(["session+32", "$v0", "sent 0 5", "console", "v1 control address to input", "nothing"])


def hostile(source: random.Random, value: Any) -> Any:
    """A value with one of its parts replaced, taken out or nested."""
    if isinstance(value, (dict, list)) and value and source.randrange(8):
        made = value.copy()
        key = source.choice(list(made) if isinstance(made, dict) else range(len(made)))
        if not source.randrange(8):
            del made[key]
        else:
            made[key] = hostile(source, made[key])
        return made
    if not source.randrange(20):
        for _ in range(source.choice([1, 50, 900, 20_000])):
            value = [value]
        return value
    return source.choice(HOSTILE)


def text_of(value: Any) -> bytes:
    """The text of a message. What is nested too deep for Python's writer is nested by hand."""
    try:
        return json.dumps(value).encode()
    except (RecursionError, ValueError):
        return b"[" * 20_000


def garbled(source: random.Random, content: bytes) -> bytes:
    """Bytes of which some are flipped, cut off, doubled or moved."""
    for _ in range(source.choice([1, 1, 2, 6])):
        at, end = sorted(source.randrange(len(content) + 1) for _ in range(2))
        content = source.choice([content[:at], content[:at] + source.randbytes(1 + at % 5) + content[at + 1:], content[:at] + content[end:],
                                 content[:end] + content[at:], content[at:end] + content[:at] + content[end:]])
    return content


def frame(first: int, content: bytes, size: Optional[int] = None, is_masked: bool = True) -> bytes:
    """A frame of RFC 6455, perhaps with another size than it has."""
    count = len(content) if size is None else size
    mask = 0x80 if is_masked else 0
    shown = bytes([first, mask | count]) if count < 126 else bytes([first, mask | 126]) + count.to_bytes(2, "big") if count < 1 << 16 \
        else bytes([first, mask | 127]) + count.to_bytes(8, "big")
    return shown + (b"\0\0\0\0" if is_masked else b"") + content
