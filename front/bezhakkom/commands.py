"""The table of the shell's commands: modules put theirs in by the decorator `command`."""
from __future__ import annotations

import re
from contextlib import nullcontext
from dataclasses import dataclass
from typing import Callable

from .errors import Problem
from .habits import translated
from .session import Session

Run = Callable[[Session, "list[str]"], None]


@dataclass(frozen=True)
class Command:
    """A command: its line, what it does, and its group in the help. `edits` says that it can be undone, `more` what help says of it
    alone."""

    usage: str
    text: str
    group: str
    run: Run
    edits: bool
    more: str

    @property
    def name(self) -> str:
        return self.usage.split()[0]

    def check(self, words: list[str]) -> None:
        """Refuses another number of words than the command has."""
        wanted = self.usage.split()[1:]
        least = sum(it[0] not in "[." for it in wanted)
        if len(words) < least or len(words) > len(wanted) and ".." not in wanted:
            raise Problem(f"usage: {self.usage}")


COMMANDS: dict[str, Command] = {}

# The groups of the help, in order.
MOVES, STOPS = "Moving", "Stops"
HOLDS, BEFORE = "What the machine holds", "What happened before"
STEPS = "What steps do"
SERIAL, CHECKS = "The serial lines", "Checks, for scripts"
PAST, WHAT_IF, FILES, SHELL = "The past", "What if", "Files", "The shell"
GROUPS = (MOVES, STOPS, HOLDS, BEFORE, STEPS, SERIAL, CHECKS, PAST, WHAT_IF, FILES, SHELL)

# Short names, as gdb has them.
SHORT = {"s": "step", "si": "step", "rs": "back", "rsi": "back", "c": "continue", "rc": "reverse-continue", "b": "break",
         "p": "print", "x": "mem", "q": "quit", "h": "help", "r": "regs", "d": "delete", "l": "list", "bt": "backtrace"}


# An empty line on a terminal repeats these, as in gdb.
_REPEATED = frozenset(("step", "back", "continue", "reverse-continue"))


def command(usage: str, text: str, group: str, edits: bool = False, more: str = "") -> Callable[[Run], Run]:
    """Puts a function into the table of commands."""
    def put(run: Run) -> Run:
        made = Command(usage, text, group, run, edits, more)
        COMMANDS[made.name] = made
        return run
    return put


def find(name: str) -> Command:
    """The command of a name, of a short name, or of the beginning of only one name."""
    name = SHORT.get(name, name)
    if name in COMMANDS:
        return COMMANDS[name]
    found = [it for it in COMMANDS if it.startswith(name)]
    if len(found) == 1:
        return COMMANDS[found[0]]
    if found:
        raise Problem(f"{name} may be {', '.join(found)}")
    raise Problem(f"there is no command {name[:40]}; `help` lists them")


def is_repeated(line: str) -> bool:
    """Returns whether an empty line after this one repeats it."""
    try:
        words = words_of(translated(line))
        return bool(words) and find(words[0]).name in _REPEATED
    except Problem:
        return False


def run(session: Session, line: str) -> None:
    """Runs the line of a command, or what the shell has for a line of gdb's."""
    name, *words = words_of(translated(line))
    found = find(name)
    found.check(words)
    with session.editing(line) if found.edits else nullcontext():
        found.run(session, words)


_WORD = re.compile(r"""(?:'(?:[^'\\]|\\.)*'|"(?:[^"\\]|\\.)*"|[^\s'"])+|['"].*""")


def words_of(line: str) -> list[str]:
    """Returns the words of a line. A quoted text is one word."""
    return _WORD.findall(line)
