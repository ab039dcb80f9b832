"""The version, and what is shipped and started, by checksums."""
from __future__ import annotations

import hashlib

from . import program

VERSION = "1.0"  # that of pyproject.toml


def about() -> str:
    """Returns the version, the checksums of the shipped program and of its sources, and the toolchain; and the program that is started if
    that is another one."""
    shipped, started = program.SHIPPED.read_text(), program.itself()
    text = f"Bezhakkom {VERSION}\n{shipped}"
    if started.is_file():
        checksum = hashlib.sha256(started.read_bytes()).hexdigest()
        if f"program {checksum}" not in shipped.splitlines():
            text += f"started {checksum} {started}\n"
    return text
