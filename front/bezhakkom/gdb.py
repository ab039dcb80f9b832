"""`bin/wb gdb`: gdb on the stub, with the settings that it needs."""
from __future__ import annotations

import os
import re
import shlex
import shutil
import signal
import subprocess
import sys
import tempfile
from argparse import REMAINDER
from contextlib import suppress
from pathlib import Path
from typing import Mapping, Sequence

from . import interrupts, loading, rescue, saved, symbol_file, through
from .arguments import Parser
from .elf import jump_to
from .errors import Problem
from .image import Image
from .limits import RESET_PC
from .installed import NAME, PACKAGE
from .program import build
from .progress import TERMINAL
from .symbol_file import KSEG0
from .symbols import symbols_of

DEBUGGER = "gdb-multiarch"
IN_GDB = PACKAGE / "in_gdb.py"

# Of the environment of what runs in gdb:
JUMP = "BEZHAKKOM_JUMP"  # names the file of the jump's symbol
MI = "BEZHAKKOM_MI"  # is set if gdb's interpreter is MI

DESCRIPTION = """\
gdb on the run of an image, forward and back. What stands after the image is gdb's own. In gdb `wb LINE` asks the
workbench, and `wb help` says what; docs/DEBUGGING.md describes the rest.
"""

EPILOG = f"""\
Example:

  {NAME} gdb --log examples/login/log examples/login/login.elf
"""

SETTINGS = (
    "set osabi none",  # or gdb would step by breakpoints of its own, past delay slots and exceptions
    "set mipsfpu none",
    "set remotetimeout 1000000",  # a question far from the position takes the run up to there
    "set confirm off",
    "set auto-connect-native-target off",  # without the stub `run` would start the image as a program of this system
)


def parser() -> Parser:
    made = Parser("gdb", "[OPTIONS] [--through] IMAGE [GDB-ARGUMENTS]", DESCRIPTION, EPILOG)
    made.add_argument("image", metavar="IMAGE", help="what the machine starts from, or a session that `save` made")
    made.add_argument("rest", metavar="GDB-ARGUMENTS", nargs=REMAINDER, help="what gdb gets besides")
    loading.add_options(made)
    through.add_option(made)
    return made


def main(arguments: Sequence[str]) -> int:
    """Runs gdb, and gives its status."""
    line = parser().parse_args(arguments)
    count = len(arguments) - len(line.rest)
    debugger = shutil.which(DEBUGGER)
    if debugger is None:
        raise Problem(f"{DEBUGGER} is not installed; on Debian: apt-get install {DEBUGGER}")
    build()
    offered = rescue.offer(line.image)
    progress = ["--progress"] if sys.stdout.isatty() else []
    command = shlex.join([*_python(), str(PACKAGE), "stub", *progress, *arguments[:count]])
    words = [debugger, "-q", *(word for setting in SETTINGS for word in ("-iex", setting))]
    with saved.opened(loading.Opening.of(line, line.image), tell=lambda note: None) as found, tempfile.TemporaryDirectory() as folder:
        # The notes are the stub's to give.
        image = loading.booted(found.opening, tell=lambda note: None)
        words += [*_symbols(image, Path(folder), line.image if found.origin.is_packed else ""), "-ex", f"target extended-remote | {command}"]
        words += ["-ex", "python image.begin(); stops.make()"]
        if any(re.fullmatch("--?batch(-silent)?", word) for word in line.rest):
            words += ["-ex", "python before_quit.leave()"]  # the lines that edit are kept where they came from
        presses = Path(folder, "interrupts")
        environment = {**os.environ, JUMP: _jump(image, Path(folder)), interrupts.VARIABLE: str(presses)}
        if _is_mi(line.rest):
            environment[MI] = "1"
        if progress:
            with suppress(OSError):  # a terminal may have no name here
                environment[TERMINAL] = os.ttyname(sys.stdout.fileno())
        # A Ctrl-C is gdb's, and is noted for the stub.
        signal.signal(signal.SIGINT, lambda number, frame: interrupts.note(presses))
        status = _run([*words, *arguments[count:]], environment)
    rescue.offer(line.image, "this", offered)  # what the stub has kept: gdb shows nothing more of it after its own end
    return status


def _run(words: Sequence[str], environment: Mapping[str, str]) -> int:
    """Runs gdb, and returns its status. A signal that ends this process ends gdb, which leaves the stub, which keeps unsaved edits."""
    ended: list[int] = []
    with subprocess.Popen(words, env=environment) as process:
        def end(number: int, frame: object) -> None:
            ended.append(number)
            process.send_signal(signal.SIGHUP)  # at SIGTERM gdb also shows an error of its Python

        for number in (signal.SIGTERM, signal.SIGHUP):
            if signal.getsignal(number) == signal.SIG_DFL:
                signal.signal(number, end)
        status = process.wait()
    for caught in set(ended):
        signal.signal(caught, signal.SIG_IGN)  # the process ends, and another signal is to change nothing
    return 128 + ended[0] if ended else 128 - status if status < 0 else status


def _python() -> list[str]:
    """The words that start this Python, which keeps compiled modules where this process does."""
    return [sys.executable, *(["-X", f"pycache_prefix={sys.pycache_prefix}"] if sys.pycache_prefix else [])]


def _is_mi(words: Sequence[str]) -> bool:
    """Returns whether words for gdb choose MI: `--interpreter=mi3`, `-i mi`."""
    return bool(re.search(r"(?:^| )--?(?:i|int\w*)[= ]mi", " ".join(words)))


def _symbols(image: Image, folder: Path, session: str) -> list[str]:
    """The words that give gdb ELFs: that of the image and others with symbols, or a file with names where there is none; and those that load
    IN_GDB. An ELF that a session has packed in is shown as its part: the file of it is one for a while. A session may name any file, and
    gdb takes a name that begins with `-` for an option, which may run programs: so each name is an absolute path."""
    first, *others = image.elves or (None,)
    if first and first.offset:
        first, others = None, list(image.elves)
    added = [word for file in others
             for word in ("-ex", f"add-symbol-file {shlex.quote(os.path.abspath(file.name))} -readnow -o {file.offset:#x}")]
    if first:
        # Without --readnow gdb finds no lines of assembler sources.
        folders = [*(os.path.abspath(it) for it in first.sources), str(Path(first.name).resolve().parent)]
        read = ["--readnow", *(word for folder in folders for word in ("--directory", folder))]
        name = os.path.abspath(first.name)
        if session and name.isprintable():
            shown = f"{Path(name).name} in {session}"
            return [*read, "-x", str(IN_GDB), "-ex", f"python image.read({name!r}, {shown!r})", *added]
        return [*read, name, *added, "-x", str(IN_GDB)]
    symbols = symbols_of(image)
    names = {KSEG0: "ram", RESET_PC: "reset"}
    names |= {address: name for name in symbols.names() if (address := symbols.address(name)) is not None}
    file = folder / Path(image.name).name
    file.write_bytes(symbol_file.content((name, address) for address, name in names.items()))
    return [str(file), *added, "-x", str(IN_GDB)]


def _jump(image: Image, folder: Path) -> str:
    """The name of a file that names the jump at the reset vector, if an ELF has none there, or ''. Where there is no name gdb
    looks for the begin of a function, and says at each stop that it found none."""
    if not image.elves or symbols_of(image).at(RESET_PC):
        return ""
    file = folder / "reset"
    file.write_bytes(symbol_file.content([("reset", RESET_PC)], rom=4 * len(jump_to(0)), ram=0))
    return str(file)
