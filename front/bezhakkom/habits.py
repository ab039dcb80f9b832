"""What people type who know gdb: the line that the shell has for it, or what serves in its place."""
from __future__ import annotations

import re
from typing import Optional

from .errors import Problem
from .installed import NAME

# Names of gdb's for commands of the shell.
_NAMES = {"stepi": "step", "reverse-stepi": "back", "reverse-step": "back", "hbreak": "break", "advance": "visit",
          "disassemble": "dis", "disas": "dis", "cont": "continue", "fg": "continue", "exit": "quit"}

_CALLS = "the shell goes by instructions: `visit pc+8` at a call goes on to where it returns, and `step` goes into it"
_RETURNS = "`visit ra` goes on to where the function returns to, as long as ra holds that"
_FRAMES = "`backtrace` shows the calls that are under way, with their steps: `goto` one of them shows what the registers held"
_TYPES = f"the shell knows no types: `symbols`, `dis` and `mem` show what it knows, and `{NAME} gdb` has the rest"
_START = "`goto 0` goes to reset, and `continue` goes on from there"
_GDB = f"the shell has no such stops: `{NAME} gdb` has them"
_FIXED = "registers and memory follow from the image and the log: `patch A W` changes what the machine starts with"
_INSTEAD = {
    **dict.fromkeys(("next", "n", "nexti", "ni", "reverse-next", "reverse-nexti", "rn", "rni"), _CALLS),
    **dict.fromkeys(("finish", "fin", "reverse-finish"), _RETURNS),
    **dict.fromkeys(("up", "down", "frame", "f"), _FRAMES),
    **dict.fromkeys(("ptype", "whatis", "display"), _TYPES),
    **dict.fromkeys(("run", "start", "starti", "kill"), _START),
    **dict.fromkeys(("commands", "condition", "ignore", "tbreak", "rwatch", "awatch", "disable", "enable"), _GDB),
    **dict.fromkeys(("call", "jump", "j", "return"), _FIXED),
}

_INFO = {"registers": "regs", "all-registers": "regs", "breakpoints": "stops", "watchpoints": "stops", "symbol": "print",
         "functions": "symbols", "variables": "symbols", "address": "print"}

_EXAMINE = re.compile(r"x\s*/\s*(\d{0,9})([a-z]*)\s+(\S.*)")
_WORDS = {"b": (1, 4), "h": (1, 2), "w": (1, 1), "g": (2, 1)}  # how many words a unit of memory is
_PRINT = re.compile(r"(?:p|print)\s*/\s*[a-z]+\s+(\S.*)")
_CAST = re.compile(r"\*\s*\(\s*(?:volatile\s+|const\s+)*"
                   r"((?:unsigned|signed)?\s*(?:char|short|int|long|)|u?int(?:8|16|32)_t)\s*\*\s*\)\s*(\S+)")
_SIZES = (("char", 1), ("int8", 1), ("short", 2), ("int16", 2))


def translated(line: str) -> str:
    """The line of the shell for what somebody typed, which may be that line itself. What it has not raises a Problem that says what
    serves."""
    name, _, rest = line.partition(" ")
    rest = rest.strip()
    if name in ("info", "i"):
        return _info(rest)
    if name in ("monitor", "mon"):
        return translated(rest)
    if name == "set" and re.match(r"var|\$|\*|\(", rest):
        raise Problem(_FIXED)
    examined, printed = _EXAMINE.fullmatch(line), _PRINT.fullmatch(line)
    if examined:
        return _examine(*examined.groups())
    if printed:
        name, rest = "print", printed[1]
    if name in ("break", "b", "hbreak", "watch", "print", "p"):
        return f"{_NAMES.get(name, name)} {_place(name, rest)}".strip()
    if line == "where":
        return "backtrace"
    if name in _INSTEAD:
        raise Problem(_INSTEAD[name])
    return f"{_NAMES[name]} {rest}".strip() if name in _NAMES else line


def _info(rest: str) -> str:
    topic, _, more = rest.partition(" ")
    found = {name for begin, name in _INFO.items() if topic and begin.startswith(topic)}
    if len(found) != 1:
        raise Problem(f"there is `info` of {', '.join(_INFO)}; `help` lists what the shell has for the rest")
    name = found.pop()
    return " ".join(["reg" if name == "regs" and more else name, more]).strip()


def _examine(count: str, form: str, address: str) -> str:
    """gdb's x/4wx, x/8i, x/s: words of memory with their text, or instructions."""
    number = int(count or "1")
    if "i" in form:
        return f"dis {address} {number}"
    times, by = next((_WORDS[it] for it in form if it in _WORDS), (4, 1) if "s" in form else (1, 1))
    return f"mem {address} {-(-number * times // by)}"


def _place(name: str, rest: str) -> str:
    """An address, without the star and the cast that gdb has before it."""
    if re.search(r"\sif\s", rest):
        raise Problem(f"the shell has no conditions of breakpoints: `{NAME} gdb` has them")
    rest = re.sub(r"^-l(?:ocation)?\s+", "", rest)
    cast = _CAST.fullmatch(rest)
    size: Optional[int] = None
    if cast:
        size, rest = next((size for kind, size in _SIZES if kind in cast[1]), 4), cast[2]
    elif rest.startswith("*"):
        size, rest = 4, rest[1:].strip()
    if size is None or name in ("break", "b", "hbreak"):
        return rest
    if name == "watch":
        return f"{rest} {size}" if " " not in rest else rest
    return {1: "byte", 2: "half", 4: ""}[size] + f"[{rest}]"
