"""Files are read whole, and only if they are plain files: a pipe or a device may have no end, or never answer."""
from __future__ import annotations

import os
import stat
from typing import BinaryIO

from .errors import Problem

# The most bytes that the program takes for an image or a log.
MOST_BYTES = 67_108_864


def content_of(name: str, most: int = MOST_BYTES) -> bytes:
    """Returns the content of a file, or raises a Problem that says why that can't be read."""
    descriptor = _opened(name)
    with open(descriptor, "rb") as file:
        try:
            return read(file, name, most)
        except OSError as error:
            raise _unreadable(name, error) from None


def beginning_of(name: str, size: int) -> bytes:
    """Returns the first bytes of a file, or none of one that can't be read."""
    try:
        descriptor = _opened(name)
    except Problem:
        return b""
    with open(descriptor, "rb") as file:
        try:
            return file.read(size)
        except OSError:
            return b""


def read(file: BinaryIO, name: str, most: int = MOST_BYTES) -> bytes:
    """Returns all that is left of an open file, which is called `name` in a Problem: of more than `most` bytes no more are read."""
    content = file.read(most + 1)
    if len(content) > most:
        raise Problem(f"{name} has more than {most:,} bytes")
    return content


def present_folder() -> str:
    """Returns the present folder. That may have been deleted, and then no name leads anywhere but one from `/`."""
    try:
        return os.getcwd()
    except OSError:
        return "/"


def check(name: str) -> None:
    """Raises a Problem if a file can't be read."""
    os.close(_opened(name))


def _opened(name: str) -> int:
    try:
        # Does not wait for a pipe's other end, which would be before it is known that this is one.
        descriptor = os.open(name, os.O_RDONLY | os.O_NONBLOCK | os.O_CLOEXEC)
    except OSError as error:
        raise _unreadable(name, error) from None
    except ValueError:
        raise Problem(f"{name} can't be the name of a file") from None
    if not stat.S_ISREG(os.fstat(descriptor).st_mode):
        os.close(descriptor)
        raise Problem(f"{name} is no file that can be read")
    return descriptor


def _unreadable(name: str, error: OSError) -> Problem:
    if isinstance(error, (FileNotFoundError, NotADirectoryError)):
        return Problem(f"there is no file {name}")
    return Problem(f"{name} is no file that can be read: {error.strerror}")
