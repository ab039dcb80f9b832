"""Files that the user names: images and logs."""
from __future__ import annotations

import os
import re
import sys
from argparse import Namespace
from contextlib import contextmanager, suppress
from dataclasses import dataclass, fields, replace
from typing import Any, Callable, Iterator, Optional, Sequence

from . import board, elf
from . import log as logs
from .arguments import Parser
from .board import Constants
from .driver import Driver
from .errors import Ended, Problem
from .image import HOW_TO_LINK, KINDS, Image, SymbolFile, is_gnu_source, kind_of
from .image import MAGIC as IMAGE_MAGIC
from .installed import NAME
from .limits import ROM
from .printable import printable
from .program import build
from .progress import TerminalProgress
from .reading import content_of

@dataclass(frozen=True)
class Opening:
    """What is booted, and how: files, and options as they were typed."""

    files: tuple[str, ...]
    log: Optional[str] = None
    kind: Optional[str] = None
    symbols: tuple[str, ...] = ()
    unit: Optional[str] = None
    byte_time: Optional[str] = None
    clock: Optional[str] = None
    sources: tuple[str, ...] = ()

    @classmethod
    def of(cls, line: Namespace, *files: str) -> Opening:
        """What an argument line opens."""
        options: dict[str, Any] = {it.name: getattr(line, it.name, None) for it in fields(cls)}
        options.update(files=files, symbols=tuple(options["symbols"] or ()), sources=tuple(options["sources"] or ()))
        return cls(**options)

    def constants(self) -> Constants:
        return board.constants_of(self.unit, self.byte_time, self.clock)

    def options(self) -> list[tuple[str, str]]:
        """The options that were given, but for the log."""
        values = [(name, getattr(self, _field_of(name))) for name in OPTIONS]
        return [(name, it) for name, value in values if value for it in (value if isinstance(value, tuple) else (value,))]

    def completed(self, options: Sequence[tuple[str, str]]) -> Opening:
        """This with options besides, where it does not have them."""
        given = {name for name, _ in self.options()}
        made: dict[str, Any] = {_field_of(name): value for name, value in options if name not in given and name not in SEVERAL}
        for it in SEVERAL:
            if it not in given:
                made[_field_of(it)] = tuple(value for name, value in options if name == it)
        return replace(self, **made)


# The options of an Opening that a session has, and those of them that may come several times.
SYMBOLS, SOURCES = "--symbols", "--sources"
SEVERAL = (SYMBOLS, SOURCES)
OPTIONS = ("--kind", *SEVERAL, "--unit", "--byte-time", "--clock")


def _field_of(option: str) -> str:
    return option[2:].replace("-", "_")


def add_options(parser: Parser) -> None:
    """Puts the options of each front end that boots an image into its parser."""
    parser.add_argument("--log", metavar="FILE", help="what happens at the serial and external lines")
    parser.add_argument("--kind", metavar="KIND", help="what the image is, where it can't be seen: elf, image, rom or source")
    parser.add_argument("--symbols", metavar="FILE", action="append",
                        help="an ELF that has symbols of the image; may come several times. FILE@N adds N to their addresses")
    parser.add_argument("--sources", metavar="DIR", action="append",
                        help="a folder with the sources of the image's ELFs; may come several times")
    board.add_options(parser)


def say(message: str) -> None:
    """Writes a note for the user to standard error, or nothing where that can't be written."""
    with suppress(OSError):
        for line in message.split("\n"):
            print(f"{NAME}: {printable(line)}", file=sys.stderr, flush=True)


def image(name: str, kind: Optional[str] = None, tell: Callable[[str], None] = say) -> Image:
    """The image in a file. Its kind is given, or else seen from its bytes and its name. `tell` takes notes for the user."""
    content = content_of(name)
    if kind not in (None, *KINDS):
        raise Problem(f"{kind} is no kind of image; there are {', '.join(KINDS)}")
    kind = kind or kind_of(name, content)
    if kind == "rom" and len(content) > len(ROM):
        raise Problem(f"{name} has {len(content):,} bytes and is taken as a raw ROM, which has at most {len(ROM):,}. Code in RAM is booted as an "
                      f"ELF, or as bytes at an address: {NAME} image boot.elf {name}@0x80010000 system.img", 1)
    if kind != "elf":
        return Image(name, kind, content)
    made, notes = elf.image_of(content, name)
    for note in notes:
        tell(note)
    return made


def booted(opening: Opening, tell: Callable[[str], None] = say) -> Image:
    """The image that is booted of a single file."""
    made = image(opening.files[0], opening.kind, tell)
    added = tuple(map(symbol_file, opening.symbols))
    return with_sources(replace(opening.constants().put_on(made), elves=made.elves + added), opening.sources)


def with_sources(image: Image, folders: Sequence[str]) -> Image:
    """An image whose sources may also be in some folders."""
    for folder in folders:
        if not os.path.isdir(folder):
            raise Problem(f"--sources {folder}: there is no such folder")
    return replace(image, elves=tuple(replace(file, sources=tuple(folders)) for file in image.elves))


def symbol_file(text: str) -> SymbolFile:
    """The ELF that is named, with the number after `@`."""
    name, offset = name_and_number(text)
    file = SymbolFile(name, content_of(name), offset or 0)
    list(elf.symbols(file))  # a file that is none is refused here
    return file


def name_and_number(text: str) -> tuple[str, Optional[int]]:
    """A name of a file, and the number that stands after it and an `@`. A file may also have this in its name."""
    match = re.fullmatch(r"(.+)@(0x[0-9a-fA-F]{1,16}|[0-9][0-9,]{0,20})", text, re.DOTALL)
    if not match or os.path.exists(text):
        return text, None
    number = int(match[2].replace(",", ""), 0)
    if number >= 1 << 32:
        raise Problem(f"{text}: {match[2]} is no address: they are below 0x100000000")
    return match[1], number


def start(made: Image, log: Optional[str], report: Optional[TerminalProgress] = None) -> Driver:
    """A driver on an image, with the log in a file."""
    content = content_of(log) if log is not None else b""
    events = logs.read(content, str(log))
    build()
    try:
        return Driver.start(made, events, report=report)
    except Ended as ended:
        first, *more = str(ended).split("\n")
        raise Problem(first, ended.status, [*more, *what_is_wrong(made, log, content)]) from None


@contextmanager
def running(opening: Opening, report: Optional[TerminalProgress] = None) -> Iterator[Driver]:
    """A driver on what is booted. It is closed at the end."""
    driver = start(booted(opening), opening.log, report)
    try:
        yield driver
    finally:
        driver.close()


def what_is_wrong(image: Image, log: Optional[str], log_content: bytes) -> Iterator[str]:
    """What is said of an image or a log that the program refused."""
    yield f"that is {image.name}, taken as kind {image.kind}" + (f", with the log {log}" if log is not None else "")
    if image.kind == "source" and is_gnu_source(image.content):
        yield f"it looks like source for GNU as. {HOW_TO_LINK}"
    if log_content.startswith(IMAGE_MAGIC):
        yield f"{log} is an image, no log"
    elif log_content and not logs.is_log(log_content):
        yield f"{log} is no log; one is made of text by: {NAME} log make TEXT OUT"
