"""A port at which the stub takes debuggers, one at a time."""
from __future__ import annotations

import ipaddress
import os
import re
import socket
from typing import Callable, Iterator

from .errors import Problem

LOOPBACK = "127.0.0.1"


def debuggers(where: str, say: Callable[[str], None]) -> Iterator[socket.socket]:
    """The connections of debuggers, one after the other. While one is there the port is closed, so another one is refused."""
    host, port = _address(where)
    while True:
        with _open(host, port) as listener:
            port = listener.getsockname()[1]
            say(f"waits for a debugger at {_shown(host, port)}; Ctrl-C ends this")
            connection, other = listener.accept()
        with connection:
            connection.setsockopt(socket.IPPROTO_TCP, socket.TCP_NODELAY, 1)
            say(f"a debugger is there, from {_shown(*other[:2])}")
            yield connection
        say("the debugger has left; edits and position stay")


def _address(where: str) -> tuple[str, int]:
    """The host and the port of `HOST:PORT`, `:PORT` or `PORT`."""
    match = re.fullmatch(r"(?:(?P<host>[^:\[\]]*|\[[0-9a-fA-F:.]+\]):)?(?P<port>\d{1,5})", where, re.ASCII)
    if not match or int(match["port"]) > 0xFFFF:
        raise Problem(f"--listen wants HOST:PORT, or a port of this machine alone, and not {where}")
    return (match["host"] or LOOPBACK).strip("[]"), int(match["port"])


def _open(host: str, port: int) -> socket.socket:
    try:
        family, _, _, _, address = socket.getaddrinfo(host, port, type=socket.SOCK_STREAM)[0]
        return socket.create_server(address[:2], family=family, backlog=1)
    except OSError as error:
        # The text of create_server says the address once more.
        reason = error.strerror if isinstance(error, socket.gaierror) or error.errno is None else os.strerror(error.errno)
        raise Problem(f"{_shown(host, port)} can't be listened at: {reason}") from None


def is_loopback(where: str) -> bool:
    """Whether an address can be reached from this machine alone."""
    host, _ = _address(where)
    try:
        return ipaddress.ip_address(host).is_loopback
    except ValueError:
        return host == "localhost"


def _shown(host: str, port: int) -> str:
    return f"[{host}]:{port}" if ":" in host else f"{host}:{port}"
