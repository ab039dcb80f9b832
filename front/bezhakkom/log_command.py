"""`bin/wb log show` and `log make`: a log as text, and back."""
from __future__ import annotations

import sys
from typing import Sequence

from . import log as logs
from .arguments import Parser
from .installed import NAME
from .reading import content_of, read
from .saving import FORCE_OPTION, save

DESCRIPTION = f"""\
`{NAME} log show LOG` writes the text of a log to standard output, and `{NAME} log make TEXT LOG` makes a log of a text.
Both take a log or a text, and - for standard input.

{logs.TEXT_HELP}
"""

EPILOG = f"""\
Examples:

  {NAME} log show examples/driver/log
  echo "150000 0 'help\\r' 500" | {NAME} log make - typed.log
  echo "20000 0 1 wire" | {NAME} log make - raised.log
"""


def parser() -> Parser:
    made = Parser("log", "{show LOG | make [--force] TEXT LOG}", DESCRIPTION, EPILOG)
    made.add_argument("verb", metavar="show | make", choices=("show", "make"), help="what is done")
    made.add_argument("source", metavar="FILE", help="a log or a text")
    made.add_argument("out", metavar="LOG", nargs="?", help="the log that is made")
    made.add_argument(FORCE_OPTION, action="store_true", help="overwrites a file LOG that is no log")
    return made


def main(arguments: Sequence[str]) -> int:
    line_parser = parser()
    line = line_parser.read(arguments)
    if (line.verb == "make") != (line.out is not None):
        line_parser.error("`show` takes one file, and `make` two")
    events = _events(line.source)
    if line.verb == "show":
        for text in logs.show(events):
            print(text)
    else:
        save(line.out, logs.write(events), logs.LOG, line.force)
    return 0


def _events(name: str) -> list[logs.Event]:
    """The events of a file, which is a log or the text of one."""
    content = read(sys.stdin.buffer, "standard input") if name == "-" else content_of(name)
    name = "standard input" if name == "-" else name
    if not content or logs.is_log(content):
        return logs.read(content, name)
    return logs.make(content.decode("utf-8", "surrogateescape").split("\n"), name)
