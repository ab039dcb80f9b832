"""`bin/wb`: which front end an argument line asks for, and how each ends."""
from __future__ import annotations

import difflib
import importlib
import io
import os
import signal
import sys
from typing import Sequence

from .arguments import Shown
from .errors import Interrupted, Problem, Unexpected
from .loading import say

# The commands, each a module of this package with a function `main` on its words.
COMMANDS = ("shell", "gdb", "stub", "console", "view", "plot", "log", "image")
_MODULES = {"log": "log_command", "image": "image_command", "view": "view.command"}


def main(arguments: Sequence[str]) -> int:
    """Runs a front end, and gives its status. Whatever ends it is one line for the user."""
    _open_streams()
    name, rest = "plain", list(arguments)
    if rest and rest[0] in COMMANDS:
        name = rest.pop(0)
    try:
        if name == "plain" and rest and rest[0].isalpha() and not os.path.exists(rest[0]):
            meant = difflib.get_close_matches(rest[0], COMMANDS, 1)
            if meant:
                raise Problem(f"there is no file {rest[0]}, and no command of that name; is `{meant[0]}` meant?")
        try:
            status = importlib.import_module(f".{_MODULES.get(name, name)}", __package__).main(rest)
        except Shown as shown:
            sys.stdout.write(str(shown))  # inside the try, since it may fail like any output
            status = 0
        if sys.stdout:
            sys.stdout.flush()
        return status
    except Problem as problem:
        if str(problem):
            say(str(problem))
        return problem.status
    except BrokenPipeError:
        _drop_output()
        return 3
    except OSError as error:
        say(f"{error.filename or 'standard input or output'}: {error.strerror}")
        _drop_output()
        return 3
    except (KeyboardInterrupt, Interrupted):
        signal.signal(signal.SIGINT, signal.SIG_DFL)
        os.kill(os.getpid(), signal.SIGINT)
        return 130
    except Exception as error:
        unexpected = Unexpected(error)
        say(str(unexpected))
        return unexpected.status


def command() -> int:
    """Runs the words with which this process was started."""
    return main(sys.argv[1:])


def _drop_output() -> None:
    """Writes what is left of the output, or drops it where nothing can be written."""
    try:
        sys.stdout.flush()
    except OSError:
        os.dup2(os.open(os.devnull, os.O_WRONLY), 1)


def _open_streams() -> None:
    """Makes standard streams take and give any bytes. One that is closed fails where it is used, as a bad file does, and no other file
    gets its number."""
    if sys.stdin is None:
        sys.stdin = open(os.open(os.devnull, os.O_WRONLY), closefd=False)
    if sys.stdout is None:
        sys.stdout = open(os.open(os.devnull, os.O_RDONLY), "w", closefd=False)
    if sys.stderr is None:
        sys.stderr = open(os.open(os.devnull, os.O_WRONLY), "w", closefd=False)
    for stream in (sys.stdin, sys.stdout):
        if isinstance(stream, io.TextIOWrapper):
            stream.reconfigure(errors="surrogateescape")
