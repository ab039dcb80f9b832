"""`bin/wb IMAGE [SCRIPT]`: an image, a log and a script to the program, and its replies to standard output."""
from __future__ import annotations

import json
import os
import subprocess
import threading
from argparse import Namespace
from contextlib import closing
from typing import IO, Optional, Sequence

from . import loading, program, protocol, replies
from .arguments import Parser
from .driver import Driver
from .image import Image
from .installed import NAME
from .loading import say
from .progress import on_terminal
from .reading import check, content_of

DESCRIPTION = f"""\
Boots an image and answers the commands of a script, or without one those that are typed. An IMAGE is an ELF, an image
of this project, a raw ROM, or this project's source (.s).

Other front ends, each with its own --help:

  {NAME} shell IMAGE        a debugger with history, symbols, breakpoints and watches both ways
  {NAME} gdb ELF            gdb, forwards and backwards through the run
  {NAME} stub IMAGE         gdb's remote protocol on standard input and output
  {NAME} console IMAGE      a terminal on a serial line
  {NAME} view IMAGE         a page on which the past is dragged
  {NAME} plot --to N IMAGE  a picture of a run
  {NAME} log show FILE      a log as text, and `log make` back
  {NAME} image ELF .. OUT   ELFs and other files as one image or a raw ROM
"""

EPILOG = f"""\
Examples:

  {NAME} examples/load-slot/boot.s examples/load-slot/script
  {NAME} --log examples/echo/log examples/echo/boot.s
  echo 'regs' | {NAME} --json kernel.elf
  {NAME} shell --log examples/driver/log examples/driver/boot.s

The commands of a script, such as goto, regs, mem, writer and patch, are on the page docs/USING.md.
"""

STRICT_STATUS = 5


def parser() -> Parser:
    made = Parser("", "[OPTIONS] IMAGE [SCRIPT]", DESCRIPTION, EPILOG)
    made.add_argument("image", metavar="IMAGE", help="what the machine starts from")
    made.add_argument("script", metavar="SCRIPT", nargs="?", help="a file of commands")
    loading.add_options(made)
    made.add_argument("--strict", action="store_true", help=f"end with status {STRICT_STATUS} at the first command that is refused")
    made.add_argument("--echo", action="store_true", help="show each command before its reply")
    made.add_argument("--json", action="store_true", help="one JSON object a reply")
    return made


def main(arguments: Sequence[str]) -> int:
    line = parser().read(arguments)
    opening = loading.Opening.of(line, line.image)
    image, log = loading.booted(opening), opening.log
    log_content = content_of(log) if log is not None else b""
    script = line.script
    if script is not None:
        check(script)
    # The program is built first, so that no typed line waits for that.
    program.build()
    with open(script, "rb") if script is not None else open(0, "rb", closefd=False) as commands:
        os.read(commands.fileno(), 0)  # fails at once where nothing can be read
        if line.strict or line.echo or line.json:
            with closing(loading.start(image, log, on_terminal())) as driver:
                return _by_replies(driver, commands, line)
        return _whole(image, log, log_content, commands)


# As the program answers

def _whole(image: Image, log: Optional[str], log_content: bytes, script: IO[bytes]) -> int:
    """Hands all to the program, whose replies go out by themselves."""
    words = program.words(image.kind, len(image.content), len(log_content))
    process = subprocess.Popen(words, stdin=subprocess.PIPE)
    assert process.stdin
    # A thread that still waits for a typed line ends with this process.
    feeder = threading.Thread(target=_feed, args=(process.stdin, image.content + log_content, script.fileno()), daemon=True)
    feeder.start()
    status = process.wait()
    if status == 1:
        for message in loading.what_is_wrong(image, log, log_content):
            say(message)
    return status if status >= 0 else 128 - status


def _feed(pipe: IO[bytes], head: bytes, script: int) -> None:
    """Writes the beginning of the input, and then the script as it comes."""
    try:
        pipe.write(head)
        pipe.flush()
        while content := os.read(script, 1 << 16):
            pipe.write(content)
            pipe.flush()
        pipe.close()
    except OSError:
        pass  # the program has ended, and has said why


# Reply by reply

def _by_replies(driver: Driver, script: IO[bytes], line: Namespace) -> int:
    for number, raw in enumerate(iter(script.readline, b""), 1):
        command = raw.decode("utf-8", "surrogateescape").rstrip("\n").removesuffix("\r")
        if replies.words_of(command) == ("quit",):
            break
        lines = driver.ask(command)
        _show(command, lines, line)
        if line.strict and lines and replies.is_refusal(lines[0]):
            say(f"line {number}: {command}: {lines[0]}")
            return STRICT_STATUS
    return 0


def _show(command: str, lines: list[str], line: Namespace) -> None:
    if line.json:
        if lines:
            print(json.dumps(_object(command, lines)), flush=True)
        return
    if line.echo and command.strip():
        print(f"> {command}", flush=True)
    for it in lines:
        print(it, flush=True)


def _object(command: str, lines: list[str]) -> dict:
    refusal = replies.refusal_of(command, lines)
    if refusal:
        return {"command": command, "error": {"number": refusal.number, "name": refusal.name}, "reply": lines}
    return {"command": command, "value": protocol.value(command, lines), "reply": lines}
