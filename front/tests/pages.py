"""Transcripts on pages: sessions as a terminal shows them, in indented blocks."""
from __future__ import annotations

import re
from typing import Sequence

from front.tests import debugger

PROMPT = r"\(\d[\d,]*\) "
LAST = "<no more>"  # after the last prompt


def transcript(page: str, section: str) -> list[str]:
    """The lines of the indented blocks of a page's section, which are one session."""
    return seen("\n".join(re.findall(r"(?m)^    (.*)$", page.split(f"## {section}\n")[1].split("\n## ")[0])))


def seen(text: str) -> list[str]:
    """What a terminal shows of a text, without blank lines."""
    lines = []
    for line in text.replace(f"{debugger.ROOT}/", "").replace("\r\n", "\n").split("\n"):
        cells: list[str] = []
        at = 0
        for character in line:
            if character == "\b":
                at = max(at - 1, 0)
            else:
                cells[at:at + 1] = [character]
                at += 1
        lines.append("".join(cells).rstrip())
    return [line for line in lines if line]


def commands_of(lines: Sequence[str]) -> list[str]:
    """The commands of gdb in a transcript."""
    return [match[1] for line in lines if (match := re.match(PROMPT + "(.*)", line))]


def with_commands(shown: str, commands: list[str]) -> list[str]:
    """A session of gdb as it is seen where it is typed: each command stands after its prompt, and what comes before
    the first is left out."""
    begin = re.search(f"(?m)^{PROMPT}", shown)
    assert begin, shown
    rest = iter(commands)
    typed = re.sub(PROMPT, lambda prompt: f"{prompt[0]}{next(rest, LAST)}\n", shown[begin.start():])
    return seen(re.split(f"(?m)^{PROMPT}{LAST}$", typed)[0])
