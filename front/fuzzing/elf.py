"""Damaged ELFs, with line tables of each version and names of a stranger: each is read, or refused in one line, within its time."""
from __future__ import annotations

import resource
import time
from pathlib import Path

from bezhakkom import elf as elves
from bezhakkom.errors import Problem
from bezhakkom.symbols import symbols_of
from front.fuzzing.cases import cases, check_shown, damaged, tried

EXAMPLES = Path(__file__).resolve().parents[2] / "examples"
FILES = ("login/login.elf", "loader/loader.elf", "linux/guest.elf", "linux/prom.elf")
SECONDS, MEGABYTES = 2.0, 200.0  # of a file with a megabyte
SHOWN = 40  # names and addresses that are asked for


def run(seconds: float, seed: int) -> int:
    contents = [(EXAMPLES / name).read_bytes() for name in FILES]
    for number, source in cases(seconds, seed):
        content = damaged(source, source.choice(contents))
        if source.random() < 0.5:  # the tables are at the end, and the header tells where
            head = damaged(source, content[:52])
            content = head[:52] + content[52:]
        tried("elf", number, seed, lambda: content, lambda: _read(content))
    return number


def _read(content: bytes) -> None:
    begun, before = time.process_time(), resource.getrusage(resource.RUSAGE_SELF).ru_maxrss
    try:
        image, notes = elves.image_of(content, "x.elf")
        for note in notes:
            check_shown(note)
            assert "\n" not in note
        symbols = symbols_of(image)
        names = symbols.names()
        for name in names[:SHOWN]:
            check_shown(symbols.address_and_name(symbols.address(name) or 0))
            check_shown(symbols.line(symbols.address(name) or 0))
        for place in range(SHOWN):
            check_shown(symbols.line(0xBFC0_0000 + 64 * place))
        for name in "receive", "main":
            symbols.inlined.named(name)
        for file in "login.c", "loader.c", "a/b.c":
            try:
                symbols.addresses_of_line(file, 44)
            except Problem as problem:
                check_shown(str(problem))
    except Problem as problem:
        check_shown(str(problem))
        assert "\n" not in str(problem), problem
    share = max(len(content) / (1 << 20), 0.25)
    used, grown = time.process_time() - begun, (resource.getrusage(resource.RUSAGE_SELF).ru_maxrss - before) / 1024
    assert used < SECONDS * share and grown < MEGABYTES * share, f"it takes {used:.1f} s and {grown:.0f} MB"
