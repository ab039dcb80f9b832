#!/usr/bin/env python3
"""Plays the dialogues of .ci/dialogues on a small machine: the program `refusals`, which was proved with 16 pages of RAM and spans of
64 steps, so that edits and queries cross many span boundaries. `.ci/sessions.py` plays them on the shipped program.

    .ci/dialogues.py

Needs `refusals`, which `rt ci` builds. Prints each reply that differs. The status is 1 if one does.

A file of dialogues has parts, each below a line `[NAME]`. Lines with `#` are comments. A part has these lines:

    source: LINE; LINE ..   the boot image as assembler source; N*LINE repeats a line
    source echo             the program in echo.s
    rom HEX                 a raw ROM; N * HEX repeats its bytes; without bytes it is empty
    image HEX               a boot image in its own format
    log HEX                 a log; without this line it is empty
    machine large           the replies hold only with 2,048 pages of RAM (the shipped program)
    machine small           the replies hold only with 16 pages
    COMMAND => REPLY        a command and the first line of its reply; further lines of the reply follow
    zeros from rN           the lines of a reply that show registers N to 31 as 0
    fault NUMBER ..         in place of commands: the fault with which the program ends
"""
import re
import subprocess
import sys
from dataclasses import dataclass
from pathlib import Path

ROOT = Path(__file__).resolve().parent.parent
FOLDER = ROOT / ".ci/dialogues"
SMALL = ROOT / "crates/refusals/out/refusals"
ZEROS = " 0x00000000" * 4


@dataclass
class Dialogue:
    name: str
    machine: str = ""  # "large" or "small"; "" for both
    kind: str = ""
    boot: bytes = b""
    log: bytes = b""
    script: bytes = b""
    replies: bytes = b""
    fault: str = ""

    def read(self, line):
        """Takes one line of the part."""
        word, _, rest = line.partition(" ")
        command, arrow, reply = line.partition(" => ")
        if arrow:
            self.script += command.encode() + b"\n"
            self.replies += reply.encode() + b"\n"
        elif self.script and line.startswith("zeros from r"):
            self.replies += "".join(f"r{number}{ZEROS}\n" for number in range(int(line[12:]), 32, 4)).encode()
        elif self.script:
            self.replies += line.encode() + b"\n"
        elif word == "source:":
            self.kind, self.boot = "source", source(rest)
        elif line == "source echo":
            self.kind, self.boot = "source", (FOLDER / "echo.s").read_bytes()
        elif word in ("rom", "image"):
            count, star, digits = rest.rpartition(" * ")
            self.kind, self.boot = word, bytes.fromhex(digits) * (int(count) if star else 1)
        elif word == "log":
            self.log = bytes.fromhex(rest)
        elif word == "machine" and rest in ("large", "small"):
            self.machine = rest
        elif word == "fault":
            self.fault = rest
        else:
            raise ValueError(f"{self.name}: {line}")

    def small_boot(self):
        """The boot image as source or in its own format, which are what `refusals` takes."""
        if self.kind != "rom":
            return self.boot
        words = (self.boot[at:at + 4] for at in range(0, len(self.boot), 4))
        return "".join(f".word 0x{int.from_bytes(word, 'little'):08x}\n" for word in words).encode()


def source(text):
    """The lines of a source that is written in one line."""
    lines = []
    for part in text.split("; "):
        count, star, line = part.partition("*")
        lines += [line] * int(count) if star else [part]
    return "".join(line + "\n" for line in lines).encode()


def dialogues():
    """Yields the dialogues of all files."""
    for file in sorted(FOLDER.glob("*.txt")):
        for part in re.split(r"(?m)^\[", file.read_text())[1:]:
            name, _, rest = part.partition("]\n")
            dialogue = Dialogue(f"{file.stem}/{name}")
            for line in rest.splitlines():
                if line and not line.startswith("#"):
                    dialogue.read(line)
            yield dialogue


def small_replies(dialogue):
    """Returns the replies of the small machine."""
    boot = dialogue.small_boot()
    given = b"script %d %d\n" % (len(boot), len(dialogue.log)) + boot + dialogue.log + dialogue.script
    ran = subprocess.run([SMALL], input=given, capture_output=True, timeout=60)
    # Each line is shown with its reply and what the session then holds; the first one, which is empty, before any is played.
    _, _, *lines = re.split(rb"(?m)^> ", ran.stdout)
    return b"".join(line.partition(b"\n")[2].partition(b"holds\n")[0] for line in lines)


def first_difference(found, wanted):
    """Returns the first lines of two texts that differ."""
    lines = zip([*found.splitlines(), b""], [*wanted.splitlines(), b""])
    return next(((one, other) for one, other in lines if one != other), (b"", b""))


def main():
    wrong = 0
    for dialogue in dialogues():
        if dialogue.machine == "large" or dialogue.fault:
            continue
        found = small_replies(dialogue)
        if found != dialogue.replies:
            one, other = first_difference(found, dialogue.replies)
            print(f".ci/dialogues.py: {dialogue.name}: {one!r} for {other!r}", file=sys.stderr)
            wrong += 1
    return 1 if wrong else 0


if __name__ == "__main__":
    sys.exit(main())
