"""The server of the page: on this machine alone, for who knows its token, and for its own page."""
from __future__ import annotations

import hmac
import json
import secrets
import sys
import threading
from http.server import BaseHTTPRequestHandler, ThreadingHTTPServer
from pathlib import Path
from typing import Any, Optional

from ..errors import Problem, Unexpected
from .desk import Desk
from .fields import Fields
from .link import Link, accepted

HOST = "127.0.0.1"
MOST_BYTES = 1 << 20  # of a request
PATIENCE = 120  # seconds for which a connection may be silent
LEAVE = 4.0  # seconds after which the server ends that the page has left

PAGE = Path(__file__).resolve().parent / "page"
KINDS = {"html": "text/html; charset=utf-8", "js": "text/javascript; charset=utf-8", "css": "text/css; charset=utf-8"}
FILES = {it.name: KINDS[it.suffix[1:]] for it in sorted(PAGE.iterdir()) if it.suffix[1:] in KINDS}
FIRST = "page.html"
ASK, STOP, LEFT = "ask", "stop", "left"  # what is posted
LINK = "link"  # over which is asked too

HEADERS = {
    "Cache-Control": "no-store",
    "Content-Security-Policy": "default-src 'none'; script-src 'self'; style-src 'self'; connect-src 'self' ws://{host}; img-src 'self' data:; "
                               "base-uri 'none'; form-action 'none'; frame-ancestors 'none'",
    "Cross-Origin-Opener-Policy": "same-origin",
    "Cross-Origin-Resource-Policy": "same-origin",
    "Referrer-Policy": "no-referrer",
    "X-Content-Type-Options": "nosniff",
    "X-Frame-Options": "DENY",
}


class Server(ThreadingHTTPServer):
    """Serves one desk. `address` is where its page is."""

    daemon_threads = True

    def __init__(self, desk: Desk, port: int = 0, token: Optional[str] = None) -> None:
        self.desk = desk
        self.token = token or secrets.token_urlsafe(24)
        try:
            super().__init__((HOST, port), _Handler)
        except OSError as error:
            raise Problem(f"port {port} can't be opened: {error.strerror}") from None
        self.host = f"{HOST}:{self.server_address[1]}"
        self.origin = f"http://{self.host}"
        self.address = f"{self.origin}/{self.token}/"
        self._pages: set[str] = set()  # that have asked, and are not closed
        self._leaving: Optional[threading.Timer] = None

    def came(self, page: Optional[str] = None) -> None:
        """A page is there, perhaps again."""
        if page is not None:
            self._pages.add(page)
        if self._leaving:
            self._leaving.cancel()
            self._leaving = None

    def left(self, page: str) -> None:
        """A page was closed or is loaded anew. The server ends with the last one."""
        self._pages.discard(page)
        self.came()
        if self._pages:
            return
        self._leaving = threading.Timer(LEAVE, self.shutdown)
        self._leaving.daemon = True
        self._leaving.start()

    def handle_error(self, request: Any, client_address: Any) -> None:
        """A connection that broke is no fault."""
        if not isinstance(sys.exc_info()[1], (ConnectionError, TimeoutError)):
            super().handle_error(request, client_address)


class _Handler(BaseHTTPRequestHandler):
    protocol_version = "HTTP/1.1"
    server_version = "bezhakkom"
    sys_version = ""
    disable_nagle_algorithm = True
    wbufsize = 1 << 16
    timeout = PATIENCE
    server: Server

    def log_message(self, *words: Any) -> None:
        pass

    def do_GET(self) -> None:
        name = self._name()
        if name == LINK and self._is_own(("same-origin",), True) and self._wants_link():
            self._answer_over_link()
        elif name is None or not self._is_own(("same-origin", "none"), False):
            self._refuse(404)
        elif (name or FIRST) in FILES:
            self.server.came()
            self._send(200, FILES[name or FIRST], (PAGE / (name or FIRST)).read_bytes())
        else:
            self._refuse(404)

    def do_POST(self) -> None:
        name = self._name()
        if name not in (ASK, STOP, LEFT):
            return self._refuse(404)
        if not self._is_own(("same-origin",), True) or self.headers.get_all("Content-Type") != ["application/json"]:
            return self._refuse(403)
        size = (self.headers.get_all("Content-Length") or [""])
        if len(size) != 1 or not size[0].isascii() or not size[0].isdigit() or "Transfer-Encoding" in self.headers:
            return self._refuse(411)
        if len(size[0]) > 9 or int(size[0]) > MOST_BYTES:
            return self._refuse(413)
        content = self.rfile.read(int(size[0]))
        if len(content) < int(size[0]):
            return self._refuse(400)
        if name == STOP:
            self.server.desk.interrupt()
            return self._send(204, "text/plain", b"")
        try:
            ask = self._read(content)
        except Problem:
            return self._refuse(400)
        if name == LEFT:
            self.server.left(ask.text("page", ""))
            return self._send(204, "text/plain", b"")
        self._send(200, "application/json", self._answer(ask))

    def _read(self, content: bytes) -> Fields:
        try:
            ask = Fields(json.loads(content))
        except (ValueError, RecursionError):
            raise Problem("that is no JSON") from None
        ask.text("page", "")
        return ask

    def _answer(self, ask: Fields) -> bytes:
        self.server.came(ask.text("page", ""))
        return json.dumps(self._answered(ask), separators=(",", ":")).encode()

    def _answered(self, ask: Fields) -> Any:
        try:
            return self.server.desk.answer(ask)
        except Problem as problem:
            return {"problem": str(problem)}
        except Exception as error:
            return {"problem": str(Unexpected(error))}

    def _wants_link(self) -> bool:
        return (self.headers.get_all("Upgrade") == ["websocket"] and self.headers.get_all("Sec-WebSocket-Version") == ["13"]
                and len(self.headers.get_all("Sec-WebSocket-Key") or []) == 1)

    def _answer_over_link(self) -> None:
        """Answers what is asked until the page ends the link."""
        self.close_connection = True
        self.send_response(101)
        for name, value in {"Upgrade": "websocket", "Connection": "Upgrade", "Sec-WebSocket-Accept": accepted(self.headers["Sec-WebSocket-Key"])}.items():
            self.send_header(name, value)
        self.end_headers()
        self.wfile.flush()
        self.connection.settimeout(None)  # a page may be silent for long
        link = Link(self.rfile, self.wfile, MOST_BYTES)
        try:
            while (content := link.receive()) is not None:
                link.send(self._answer(self._read(content)))
        except (Problem, ConnectionError):
            pass  # what is no question ends the link

    def _name(self) -> Optional[str]:
        """The part of the path after the token, or None where the token is another one."""
        slash, token, *rest = self.path.split("/") if self.path.count("/") == 2 else ("", "", "")
        if slash or not hmac.compare_digest(token.encode("utf-8", "replace"), self.server.token.encode()):
            return None
        return rest[0]

    def _is_own(self, sites: tuple[str, ...], origin_wanted: bool) -> bool:
        """Whether a request is of this machine's user and of the page itself, as its headers say."""
        origins = self.headers.get_all("Origin") or []
        fetched = self.headers.get_all("Sec-Fetch-Site") or []
        return (self.headers.get_all("Host") == [self.server.host]
                and (origins == [self.server.origin] or not origins and not origin_wanted)
                and (not fetched or len(fetched) == 1 and fetched[0] in sites))

    def _refuse(self, status: int) -> None:
        self.close_connection = True
        self._send(status, "text/plain; charset=utf-8", b"")

    def _send(self, status: int, kind: str, content: bytes) -> None:
        self.send_response(status)
        for name, value in HEADERS.items():
            self.send_header(name, value.format(host=self.server.host))
        if status != 204:
            self.send_header("Content-Type", kind)
            self.send_header("Content-Length", str(len(content)))
        if self.close_connection:
            self.send_header("Connection", "close")
        self.end_headers()
        if status != 204:
            self.wfile.write(content)

    def send_error(self, code: int, message: Optional[str] = None, explain: Optional[str] = None) -> None:
        """What is no request at all is refused in the same way."""
        self._refuse(code)
