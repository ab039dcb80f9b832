"""`bin/wb shell`: a debugger for people, on one run of the workbench."""
from __future__ import annotations

import atexit
import glob
import os
import sys
from contextlib import nullcontext
from pathlib import Path
from typing import Container, Iterator, Optional, Sequence, TextIO

from . import expressions, loading, rescue, saved, shell_edits, shell_moves, shell_sources, shell_traces, shell_views  # noqa: F401 - they fill the table of commands
from .arguments import Parser
from .command_examples import EXAMPLES
from .commands import COMMANDS, GROUPS, SHELL, SHORT, command, find, is_repeated, run, words_of
from .errors import Ended, Interrupted, Problem, Refused, Unexpected
from .expressions import shortened
from .installed import NAME
from .printable import show
from .progress import on_terminal
from .reading import check
from .session import Session
from .symbols import symbols_of
from .whatif import commands as whatif_commands  # noqa: F401

FAILED = 5  # the status of a strict script that fails

DESCRIPTION = """\
A debugger on the run of an image: with line editing, history and completion on a terminal, or with the lines of a
script. Addresses are virtual. An ELF gives names of addresses, and so do the labels of a source.
"""


def parser() -> Parser:
    example = f"Example:\n\n  {NAME} shell --log examples/login/log examples/login/login.elf\n\n"
    made = Parser("shell", "[OPTIONS] [--echo] [--strict] IMAGE [SCRIPT]", DESCRIPTION, example + help_text())
    made.add_argument("image", metavar="IMAGE", help="what the machine starts from, or a session that `save` made")
    made.add_argument("script", metavar="SCRIPT", nargs="?", help="a file of lines; without it those that are typed")
    loading.add_options(made)
    made.add_argument("--echo", action="store_true", help="show each line of a script before what it shows")
    made.add_argument("--strict", action="store_true", help=f"end with status {FAILED} at the first line that is refused or fails")
    return made


def main(arguments: Sequence[str]) -> int:
    line = parser().read(arguments)
    script = None
    if line.script is not None:
        check(line.script)
        script = open(line.script, encoding="utf-8", errors="surrogateescape")
    opening = loading.Opening.of(line, line.image)
    with script or nullcontext(), saved.opened(opening) as found, loading.running(found.opening, on_terminal()) as driver:
        session = Session(driver, symbols_of(driver.image), origin=found.origin)
        shell = Shell(session)
        shell.open(found.commands)
        with rescue.kept(session.unsaved_text, line.image):
            return shell.run(script, line.echo, line.strict)


class Shell:
    """Reads lines and runs them."""

    def __init__(self, session: Session) -> None:
        self._session = session
        self._left = False
        self._warned: object = None  # the log and the patches that were said to be unsaved

    def open(self, commands: Sequence[str]) -> None:
        """Runs the lines of a session. What they show is not shown again; those that fail are."""
        session = self._session
        tell = session.tell
        for line in commands:
            said: list[str] = []
            session.tell = said.append
            is_done = self.do(line.strip())
            session.tell = tell
            if not is_done:
                for shown in (f"the session's line `{line}` fails:", *said):
                    tell(shown)
        session.saved_log, session.saved_patches = list(session.driver.log), list(session.driver.patches)

    def run(self, script: Optional[TextIO], echo: bool = False, strict: bool = False) -> int:
        """Runs the lines of a script, or those that are typed, and gives the status. A strict script ends at a line that fails."""
        source = script or sys.stdin  # which is None where it is closed
        is_typed = script is None and source is not None and source.isatty()
        if is_typed:
            _begin_readline(self._session)
            self.do("pos")
        for number, line in enumerate(self._typed() if is_typed else source or (), 1):
            line = line.strip()
            if echo and line:
                show(f"> {line}")
                sys.stdout.flush()
            is_done = self.do(line)
            sys.stdout.flush()
            if strict and not is_done:
                loading.say(f"{getattr(source, 'name', 'standard input')}:{number}: {shortened(line)}")
                return FAILED
            if self._left:
                break
        return 0

    def _typed(self) -> Iterator[str]:
        """Lines from a terminal, until the shell is left. An empty line is the one before, if that is repeated."""
        repeated = ""
        while True:
            try:
                line = input(f"wb {self._session.driver.position:,}> ").strip() or repeated
                repeated = line if is_repeated(line) else ""
                yield line
            except KeyboardInterrupt:
                print()
                continue
            except (EOFError, OSError):
                print()
                yield "quit"
                if self._left:
                    return

    def do(self, line: str) -> bool:
        """Runs a line, and shows what goes wrong. Gives whether all went well."""
        if not line or line.startswith("#"):
            return True
        session = self._session
        try:
            self._run(line)
            return True
        except Refused as refused:
            session.tell(f"refused: {refused}")
        except Ended as ended:
            session.tell(f"{ended}; it is started anew, with all edits, by what is asked next")
        except Problem as problem:
            session.tell(str(problem))
        except (Interrupted, KeyboardInterrupt):
            # Where the run was not made yet it can't be shown at once.
            session.driver.goto(min(session.driver.position, session.driver.made))
            session.tell(f"interrupted; at step {session.driver.position:,}")
        except Exception as error:
            session.tell(str(Unexpected(error)))  # fails too if the output did
        return False

    def _run(self, line: str) -> None:
        if words_of(line)[0] in ("quit", "q", "exit"):
            self._quit()
        else:
            run(self._session, line)

    def _quit(self) -> None:
        """Leaves. With unsaved edits on a terminal, it takes a second `quit`. Edits that were made since then are said again."""
        driver, unsaved = self._session.driver, self._session.unsaved()
        edited = list(driver.log), list(driver.patches)
        if unsaved and sys.stdin.isatty() and self._warned != edited:
            self._session.tell(f"not saved: {', '.join(unsaved)}; `quit` again leaves without them")
            self._warned = edited
        else:
            self._left = True


# Help

@command("help [NAME]", "shows all commands, or more of one, or `help numbers`", SHELL)
def help_(session: Session, words: list[str]) -> None:
    if not words:
        tell_lines(session, help_text())
    elif words[0] == "numbers":
        tell_lines(session, expressions.HELP)
    else:
        found = find(words[0])
        short = [it for it, name in SHORT.items() if name == found.name]
        session.tell(f"{found.usage}: {found.text}" + (f" (short: {', '.join(short)})" if short else ""))
        if found.more:
            session.tell(f"usage: {found.more}")
        session.tell(f"example: {EXAMPLES[found.name]}")


@command("quit", "leaves; what is not saved is told first", SHELL)
def quit_(session: Session, words: list[str]) -> None:
    raise AssertionError("the shell leaves by itself")


def tell_lines(session: Session, text: str) -> None:
    """Shows a text of several lines."""
    for line in text.rstrip().split("\n"):
        session.tell(line)


def help_text(left_out: Container[str] = ()) -> str:
    """All commands but those that are left out, by their groups."""
    shown = [it for it in COMMANDS.values() if it.name not in left_out]
    width = max(len(it.usage) for it in shown)
    parts = []
    for group in GROUPS:
        lines = [f"  {it.usage:{width}}  {it.text}" for it in shown if it.group == group]
        if not lines:
            continue
        parts.append("\n".join([f"{group}:", *lines]))
    text = "\n\n".join(parts)
    return f"{text}\n\n{expressions.HELP}\nThe beginning of a name is enough where it is that of one command alone.\n"


# Line editing

HISTORY = Path(os.environ.get("XDG_STATE_HOME") or Path.home() / ".local/state") / "bezhakkom_history"


def _begin_readline(session: Session) -> None:
    try:
        import readline
    except ImportError:
        return
    readline.set_completer_delims(" \t+-&$")
    readline.set_completer(_Completer(session, readline).complete)
    readline.parse_and_bind("tab: complete")
    try:
        readline.read_history_file(HISTORY)
    except OSError:
        pass
    atexit.register(_keep_history, readline)


def _keep_history(readline: object) -> None:
    try:
        HISTORY.parent.mkdir(parents=True, exist_ok=True)
        readline.set_history_length(2000)  # type: ignore[attr-defined]
        readline.write_history_file(HISTORY)  # type: ignore[attr-defined]
    except OSError:
        pass


class _Completer:
    """Completes commands, symbols, registers and names of files."""

    def __init__(self, session: Session, readline: object) -> None:
        self._session = session
        self._readline = readline
        self._found: list[str] = []

    def complete(self, text: str, state: int) -> Optional[str]:
        if state == 0:
            self._found = self._matches(text)
        return self._found[state] if state < len(self._found) else None

    def _matches(self, text: str) -> list[str]:
        before = self._readline.get_line_buffer()[:self._readline.get_begidx()]  # type: ignore[attr-defined]
        words = before.split()
        if not words or words == ["help"]:
            return [it for it in COMMANDS if it.startswith(text)]
        if words[0].startswith("save"):
            found = Path(text).parent.glob(glob.escape(Path(text).name) + "*")
            return sorted(str(it) + ("/" if it.is_dir() else "") for it in found if str(it).isprintable())
        return sorted(it for it in {*self._session.symbols.names(), *expressions.names()} if text and it.startswith(text))
