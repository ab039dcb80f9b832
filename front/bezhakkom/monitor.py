"""The commands of `monitor` in gdb: the shell's, but those that gdb has by itself."""
from __future__ import annotations

from typing import Callable

from . import shell
from .commands import COMMANDS, STOPS, find, run, words_of
from .errors import Ended, Interrupted, Problem
from .installed import NAME
from .printable import TAB, printable
from .session import Session

# Commands of gdb's own do what these do.
_OF_GDB = frozenset((*(it.name for it in COMMANDS.values() if it.group == STOPS), "quit", "list", "backtrace"))

REFUSED = "refused: "  # begins the answer to what can't be done

_HELP = f"""
run N, starti N: what `goto N` does
Breakpoints, watches, `continue` and `quit` are gdb's own. `wb LINE`, which {NAME} gdb has, takes expressions of gdb's
for numbers, and has `wb until N`.
"""


def answer(session: Session, line: str) -> str:
    """What a command shows, with its line ends."""
    said: list[str] = []
    reason = refusal(session, line, said.append)
    return "".join(f"{printable(it, TAB)}\n" for it in (*said, *([REFUSED + reason] if reason else [])))


def refusal(session: Session, line: str, tell: Callable[[str], None], of_gdb: bool = False) -> str:
    """Runs a line, and gives why that can't be done, or ''. Commands that gdb has by itself are run where they are wanted."""
    kept, session.tell = session.tell, tell
    try:
        _run(session, line, of_gdb)
    except Ended as ended:
        return f"{ended}; it is started anew, with all edits, by what is asked next"
    except Problem as problem:
        return str(problem)
    except Interrupted:
        # Where the run was not made yet it can't be shown at once.
        session.driver.goto(min(session.driver.position, session.driver.made))
        return f"interrupted; at step {session.driver.position:,}"
    finally:
        session.tell = kept
    return ""


def _run(session: Session, line: str, of_gdb: bool) -> None:
    words = words_of(line)
    if words == ["help"]:
        shell.tell_lines(session, shell.help_text(_OF_GDB) + _HELP)
    elif words and not line.startswith("#"):
        run(session, line if of_gdb else _of_shell(words, line))


def _of_shell(words: list[str], line: str) -> str:
    """The line as the shell has it."""
    if words[0] in ("run", "starti"):
        return " ".join(["goto", *words[1:]])
    name = find(words[0]).name
    if name in _OF_GDB:
        raise Problem(f"gdb has its own `{name}`" if name != "stops" else "gdb has `info breakpoints`")
    return line
