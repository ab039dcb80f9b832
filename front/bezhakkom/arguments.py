"""Argument lines of the front ends, over argparse. Options may stand in any place."""
from __future__ import annotations

import argparse
from importlib import import_module
from typing import Any, NoReturn, Optional, Sequence

from .errors import Problem
from .installed import NAME


class Shown(Exception):
    """A text that the user asked for in place of all else."""


class Parser(argparse.ArgumentParser):
    """Reads the line of a front end: its name, and how its words are shown. What is wrong with them is a Problem."""

    def __init__(self, name: str, words: str, description: str, epilog: str = "") -> None:
        program = f"{NAME} {name}".rstrip()
        super().__init__(prog=program, usage=f"{program} {words}", description=description, epilog=epilog,
                         formatter_class=argparse.RawDescriptionHelpFormatter, allow_abbrev=False, add_help=False)
        self.add_argument("-h", "--help", action=_Help, nargs=0, help="this text")
        self.add_argument("--version", action=_Version, nargs=0,
                          help="the checksums of the program and of its sources, and the toolchain that proved and built it")

    def read(self, arguments: Sequence[str]) -> argparse.Namespace:
        """The values of a line."""
        return self.parse_intermixed_args(arguments)

    def parse_known_args(self, args: Any = None, namespace: Any = None) -> Any:
        self._words = list(args or ())
        return super().parse_known_args(args, namespace)

    def error(self, message: str) -> NoReturn:
        """Of several faults argparse reports a word that is missing first. An option that there is not may be why."""
        unknown = [it for it in self._words[:(self._words + ["--"]).index("--")]
                   if it[:1] == "-" and it != "-" and it.partition("=")[0] not in self._option_string_actions]
        if unknown and "arguments are required" in message:
            message = f"unrecognized arguments: {' '.join(unknown)}"
        raise Problem(f"{message}; usage: {self.usage}")


class _Help(argparse.Action):
    def __call__(self, parser: argparse.ArgumentParser, namespace: argparse.Namespace, values: Any, option: Optional[str] = None) -> None:
        raise Shown(parser.format_help())


class _Version(argparse.Action):
    def __call__(self, parser: argparse.ArgumentParser, namespace: argparse.Namespace, values: Any, option: Optional[str] = None) -> None:
        raise Shown(import_module(".version", __package__).about())


def natural(text: str) -> int:
    """The number that a word of a line is: 4096, 40,017 or 0x1000."""
    try:
        return int(text.replace(",", ""), 0)
    except ValueError:
        raise argparse.ArgumentTypeError(f"{text[:40]!r} is no number") from None
