"""Random calls of the library, with arguments of all kinds: each answers, or raises a Problem and edits nothing."""
from __future__ import annotations

import os
import random
import tempfile
from itertools import islice
from pathlib import Path
from typing import Any, Callable, List, Tuple

import bezhakkom
from bezhakkom.errors import STOPPED, Problem
from bezhakkom.log import Event, Kind
from bezhakkom.machine import Machine
from front.fuzzing.cases import NUMBERS, STRANGE, cases, check_shown, stop_after, tried

LOGIN = Path(__file__).resolve().parents[2] / "examples/login"
LONGEST = 0.1  # seconds of a call
_JUMPS = 100  # that are taken of a list of them, which may have no end
VALUES: Tuple[Any, ...] = (
    None, True, 0, 1, -1, 4, 255, 256, 1 << 31, 1 << 32, 1 << 40, 1 << 64, 10 ** 30, 1.5, float("nan"), "", " ", "main", "session+0x20", "$a0", "pc", "sp",
    "login.c:44", "[sp]", "console", "sent 0 1", "pc main", "console 'Sorry'", "word session+0x20 > 3", "session+0x20 == 3", "sys", "set", "a" * 5000, b"", b"x",
    b"\xff\0", [], [1, 2], ["set"], [None], {}, {0: 65}, {0: "x"}, {1: 19_000}, {None: 1}, (), range(3), [Event(5, 0, 65)], [Event(-1, 9, 999)],
    [Event(5, 0, 65, Kind.WIRE)], ["x"], Event(5, 0, 65), Kind.WIRE, object(), "\ud800", lambda word: word > 3, lambda word: 1 // 0, *NUMBERS, *STRANGE)
# The parameters of each call: those that are given by place, and those by name.
CALLS = {
    "goto": ("position",), "step": ("steps",), "next_step": (), "value": ("text",), "address": ("place",), "console": ("line",), "sent": ("line",),
    "writer": ("place",), "stores": ("place", "most"), "trace": ("steps",), "hits": ("place",), "exceptions": ("kind",), "delete": ("event",),
    "change": ("event", "value"), "move": ("event", "step"), "erase": ("first", "end"), "patch": ("place", "word"), "compare": ("log",), "save_log": ("name", "force")}
NAMED = {
    "until": ("console", "pc", "word", "position", "steps", "line", "value"), "send": ("text", "line", "gap"), "arrive": ("step", "value", "line", "kind"),
    "causes": ("what", "by", "values"), "futures": ("event", "values", "without", "steps", "show", "until", "at"), "shrink": ("until", "at"),
    "fuzz": ("first", "until", "at", "seed", "tries"), "when": ("condition", "at"), "why": ("what", "control", "address"),
    "what_if": ("without", "changed", "moved", "log"), "jumps": ("local", "steps", "most")}
MEMORY = {"words": ("place", "count"), "read": ("place", "count"), "text": ("place", "most")}


def run(seconds: float, seed: int) -> int:
    here, called = os.getcwd(), []  # type: str, List[str]
    with tempfile.TemporaryDirectory() as folder, bezhakkom.boot(LOGIN / "login.elf", log=LOGIN / "log") as machine:
        os.chdir(folder)
        try:
            for number, source in cases(seconds, seed):
                name, call = _call(source, machine)
                called.append(name)
                tried("library", number, seed, lambda: "\n".join(called).encode("utf-8", "backslashreplace"), lambda: _made(machine, call))
        finally:
            os.chdir(here)
    return number


def _call(source: random.Random, machine: Machine) -> "tuple[str, Callable[[], Any]]":
    def value() -> Any:
        return source.choice(VALUES) if source.random() < 0.7 else source.randrange(40_000)

    table = source.choice((CALLS, NAMED, MEMORY))
    name = source.choice(list(table))
    target = machine.memory if table is MEMORY else machine
    if table is not NAMED:
        given = [value() for _ in table[name]]
        return f"{name}(*{given!r})", lambda: getattr(target, name)(*given)
    named = {it: value() for it in source.sample(table[name], source.randrange(len(table[name]) + 1))}
    first = table[name][0] if name != "until" and name != "what_if" else ""
    if first:
        named[first] = value()
    if name in ("fuzz", "shrink") or name == "futures":
        named.setdefault("until", value())
    if name == "arrive":
        named.setdefault("value", value())
    if name == "fuzz":
        named["tries"] = source.choice((0, 1, 20, "x"))
    if name == "jumps":
        return f"{name}(**{named!r})", lambda: list(islice(machine.jumps(**named), _JUMPS))
    return f"{name}(**{named!r})", lambda: _entered(machine, named) if name == "what_if" else getattr(machine, name)(**named)


def _entered(machine: Machine, named: "dict[str, Any]") -> None:
    before = machine.log, machine.position
    try:
        with machine.what_if(**named):
            machine.console()
    finally:
        assert (machine.log, machine.position) == before, "what_if left something"


def _made(machine: Machine, call: Callable[[], Any]) -> None:
    driver = machine.driver
    before = list(driver.log), list(driver.patches)
    stop_after(driver, LONGEST)
    try:
        call()
    except Problem as problem:
        check_shown(str(problem))
        assert (driver.log, driver.patches) == before, f"it was refused with `{problem}`, and edited"
    except STOPPED:
        pass
    except ZeroDivisionError:
        pass  # that of a caller's function
    finally:
        driver.wants_stop = lambda: False
