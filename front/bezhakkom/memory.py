"""Memory by virtual addresses, as a debugger sees it at the position: read in any pieces, and changed by patches of
the image."""
from __future__ import annotations

from typing import Iterator

from . import places, replies
from .driver import Driver
from .errors import Problem
from .limits import RAM, ROM, WORDS

PAGE = 4096


def read(driver: Driver, address: int, count: int) -> bytes:
    """The bytes from a virtual address on, up to the first gap in memory. Devices are not read, since that would change
    them."""
    content = bytearray()
    for virtual, size in pieces(address, count):
        place = driver.physical(virtual)
        if place is None or not (place in RAM or place in ROM):
            break
        content += at(driver, place, size)
    return bytes(content)


def at(driver: Driver, place: int, size: int) -> bytes:
    """The bytes at a physical address, all in memory."""
    first = place & ~3
    words = driver.words(first, (place + size - first + 3) // 4)
    return b"".join(word.to_bytes(4, "little") for word in words)[place - first:place - first + size]


def at_both(driver: Driver, place: int, size: int, step: int) -> "tuple[bytes, bytes]":
    """Returns the bytes at a physical address, all in memory, before and after a step. They are read in one turn."""
    first = place & ~3
    end = place + size
    commands = [f"mem {at} {min(WORDS, (end - at + 3) // 4)}" for at in range(first, end, 4 * WORDS)]
    lines = driver.answers([(position, it) for position in (step, step + 1) for it in commands])
    found = [b"".join(word.to_bytes(4, "little") for reply in half for word in replies.memory(reply))[place - first:end - first]
             for half in (lines[:len(commands)], lines[len(commands):])]
    return found[0], found[1]


def write(driver: Driver, address: int, content: bytes) -> None:
    """Changes memory by patches of the image: ROM at any position, and RAM at position 0, where it holds what the
    image sets."""
    words: dict[int, int] = {}
    done = 0
    for virtual, size in pieces(address, len(content)):
        place = _writable(driver, virtual)
        words |= _patched(driver, place, content[done:done + size])
        done += size
    driver.values([f"patch {word} {value}" for word, value in words.items()])


def _writable(driver: Driver, virtual: int) -> int:
    """The physical address of a place that can be changed, or a refusal."""
    place = places.physical(driver, virtual)
    if place in RAM and driver.position:
        raise Problem(f"RAM can't be written at position {driver.position:,}: it follows from the image and the log, "
                      "which can be edited. At position 0 a write changes the image, as "
                      f"`patch 0x{virtual & ~3:08x} WORD` does anywhere")
    return place


def _patched(driver: Driver, place: int, content: bytes) -> dict[int, int]:
    """The words that differ once the bytes stand at a physical address."""
    first, end = place & ~3, (place + len(content) + 3) & ~3
    before = at(driver, first, end - first)
    after = before[:place - first] + content + before[place - first + len(content):]
    offsets = range(0, end - first, 4)
    return {first + it: int.from_bytes(after[it:it + 4],
                                       "little") for it in offsets if after[it:it + 4] != before[it:it + 4]}


def pieces(address: int, count: int) -> Iterator[tuple[int, int]]:
    """A range of virtual addresses, divided where pages end: each piece's first address and its size."""
    while count > 0 and address < 1 << 32:
        size = min(count, PAGE - address % PAGE)
        yield address, size
        address, count = address + size, count - size
