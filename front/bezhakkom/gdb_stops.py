"""Translates stops of the shell to gdb and back: a session has the stops of each front end, and those that both can have. Decides which
stops of a session gdb makes without a question."""
from __future__ import annotations

import re
from typing import Iterator, Optional

from . import memory, target
from .expressions import REGISTERS

MOST_WATCHED = 256  # bytes of a watch of gdb's

_TYPES = {1: "char *", 2: "short *", 4: "int *"}
_BREAK = re.compile(r"break \*(0x[0-9a-f]{1,8})")
_WATCH = re.compile(r"watch \*\((?:(char|short|int) \*|char \(\*\)\[(\d{1,4})\])\) (0x[0-9a-f]{1,8})")
_SIZES = {"char": 1, "short": 2, "int": 4}


def lines(address: int, size: Optional[int]) -> Iterator[str]:
    """gdb's lines for a breakpoint, or a watch of a size: one for each piece of a page, of as many bytes as gdb can watch."""
    if size is None:
        yield f"break *{address:#010x}"
        return
    for virtual, count in memory.pieces(address, size):
        for at in range(virtual, virtual + count, MOST_WATCHED):
            part = min(virtual + count - at, MOST_WATCHED)
            yield f"watch *({_TYPES.get(part) or f'char (*)[{part}]'}) {at:#010x}"


def parts(text: str) -> Optional[tuple[int, Optional[int]]]:
    """The address and the size of a stop whose line is of this form: the shell can have it too."""
    found = _BREAK.fullmatch(text)
    if found:
        return int(found[1], 16), None
    found = _WATCH.fullmatch(text)
    return (int(found[3], 16), _SIZES[found[1]] if found[1] else int(found[2])) if found else None


# What means the same with any macros: names that gdb looks up, and conditions of numbers, registers and operators, none of which assigns.
_PLACE = re.compile(r"\*0x[0-9a-fA-F]+|(?:[\w./][\w./+-]*:)?[A-Za-z_][\w.]*|[\w./][\w./+-]*:[0-9]+")
_CONDITION = re.compile(r"(?:0x[0-9a-fA-F]+(?!\w)|[0-9]+(?!\w)|\$(?:%s)(?!\w)|[=!<>]=|<(?!<=)|>(?!>=)|[-+*/%%&|^~()! ])+"
                        % "|".join((*target.NAMES, *REGISTERS)))


def is_plain(line: str) -> bool:
    """Returns whether gdb may make a stop of a session without a question. Other lines are text that gdb evaluates with the macros of the
    session's ELF, so that they could run commands of its author."""
    found = re.fullmatch(r"(?:disabled )?(t?h?break|watch) (.*?)(?: if (.*))?", line)
    if not found or found[3] is not None and not _CONDITION.fullmatch(found[3]):
        return False
    return parts(f"watch {found[2]}") is not None if found[1] == "watch" else _PLACE.fullmatch(found[2]) is not None
