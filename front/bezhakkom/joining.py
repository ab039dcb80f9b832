"""Several files as one image: ELFs, images, and bytes at addresses."""
from __future__ import annotations

from typing import Callable, Sequence

from . import board, elf, loading
from .initial import Boot
from .errors import Problem
from .image import Image, SymbolFile
from .limits import RAM, ROM
from .loading import Opening
from .reading import content_of


def image_of(opening: Opening, tell: Callable[[str], None] = loading.say) -> Image:
    """The image that several files make. It has the symbols of all ELFs. `tell` takes notes for the user."""
    if opening.kind is not None:
        raise Problem("--kind is for a single file")
    boots, entry, notes, elves = [], None, [], []
    for name in opening.files:
        content = content_of(loading.name_and_number(name)[0])
        if loading.name_and_number(name)[1] is None and content.startswith(elf.ELF_MAGIC):
            read = elf.read(content, name)
            boot, more = elf.placed(read, name)
            notes += more
            entry = entry or (read.entry, name)
            elves.append(SymbolFile(name, content))
        else:
            boot = _boot(name)
        boots.append((name, boot))
    whole = board.joined(boots)
    if entry:
        notes += elf.begin(whole, *entry)
    for note in notes:
        tell(note)
    elves += map(loading.symbol_file, opening.symbols)
    made = Image(" ".join(opening.files), "image", whole.write(), tuple(elves))
    return loading.with_sources(opening.constants().put_on(made), opening.sources)


def is_one(files: Sequence[str]) -> bool:
    """Whether files are a single one that is booted as it is, and not put at an address."""
    return len(files) == 1 and loading.name_and_number(files[0])[1] is None


def _boot(text: str) -> Boot:
    """What a file sets that is no ELF: an image, or bytes at an address."""
    name, address = loading.name_and_number(text)
    if address is None:
        driver = loading.start(loading.image(name), None)
        try:
            return driver.boot()
        finally:
            driver.close()
    content, boot = content_of(name), Boot()
    start = elf.physical_of(address)
    if address % 4:
        raise Problem(f"{text}: {address:#010x} is no multiple of 4")
    why = elf.outside(start, len(content))
    if why:
        raise Problem(f"{text} has {len(content):,} bytes at {address:#010x}, {why}")
    if content:
        boot.put(start, content + bytes(-len(content) % 4))
    return boot
