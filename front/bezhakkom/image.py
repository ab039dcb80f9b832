"""Boot images as files: what kind of image a file is."""
from __future__ import annotations

import re
from dataclasses import dataclass

from .errors import Problem
from .installed import NAME
from .log import is_log
from .saving import Form

MAGIC = b"R3KIMG1\n"
ELF_MAGIC = b"\x7fELF"
SESSION_MAGIC = b"bezhakkom session "
KINDS = ("rom", "image", "source", "elf")

IMAGE, RAW_ROM = Form("image", (MAGIC,)), Form("raw ROM")

# What text does not have.
_NO_TEXT = re.compile(rb"[^\t\n\r\f\x20-\x7e\x80-\xff]")

# What GNU as understands and the source of this project does not have.
_GNU = re.compile(rb"^\s*(?:\.(?:text|data|bss|section|globa?l|set|align|p2align|ent|asciiz?|asciz|space|byte|half|equ|include)\b"
                  rb"|#\s*include\b|\w+\s+.*\$\w+)", re.MULTILINE)


@dataclass(frozen=True)
class SymbolFile:
    """An ELF that has symbols of an image, what is added to their addresses, and folders in which its sources may be."""

    name: str
    content: bytes
    offset: int = 0
    sources: tuple[str, ...] = ()


@dataclass(frozen=True)
class Image:
    """A boot image as the program takes it: of kind rom, image or source. Its symbols are those of ELFs: of the one that it was made
    of, which is the first, and of others."""

    name: str
    kind: str
    content: bytes
    elves: tuple[SymbolFile, ...] = ()


def kind_of(name: str, content: bytes) -> str:
    """The kind of an image: by its first bytes, or by the end of its name. Any other file is refused, with what to do instead."""
    if content.startswith(ELF_MAGIC):
        return "elf"
    if content.startswith(MAGIC):
        return "image"
    if content.startswith(SESSION_MAGIC):
        raise Problem(f"{name} is a session: {NAME} shell {name}")
    if is_log(content):
        raise Problem(f"{name} is a log, no image: {NAME} --log {name} IMAGE")
    if not content:
        raise Problem(f"{name} is empty; a ROM of zeros alone is booted with --kind rom")
    if name.endswith(".S"):
        raise Problem(f"{name} is source for a C preprocessor and GNU as. {HOW_TO_LINK}")
    if name.endswith(".img"):
        return "image"
    if name.endswith(".s"):
        return "source"
    if b"\n" in content and not _NO_TEXT.search(content):
        raise Problem(f"{name} is text, and no image; --kind source boots a source whose name does not end in .s, and --kind rom any bytes")
    return "rom"


HOW_TO_LINK = ("Make an ELF of it, and boot that: mipsel-linux-gnu-gcc -march=r3000 -mfp32 -mno-abicalls -fno-pic -nostdlib "
               "-static -Wl,-Ttext=0xbfc00000 -Wl,-e,0xbfc00000 -o boot.elf FILE")


def is_gnu_source(content: bytes) -> bool:
    """Whether a source has what GNU as understands and the source of this project does not have."""
    return bool(_GNU.search(content))
