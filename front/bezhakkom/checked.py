"""Arguments of the library's calls. Each function returns the argument as the call uses it, or raises a Problem that names the
parameter."""
from __future__ import annotations

import operator
import os
from typing import Any, Callable, Dict, Iterable, List, Mapping, NoReturn, Optional, Sequence, Tuple, TypeVar, Union

from .errors import Problem
from .limits import GREATEST_POSITION
from .log import Event, Kind

Path = Union[str, "os.PathLike[str]"]
Place = Union[str, int]
Text = Union[str, bytes]
T = TypeVar("T")


class WrongType(Problem, TypeError):
    """An argument that is of another type than the parameter."""


class Results(Dict[str, Any]):
    """What a machine holds, by names. Values can't be set here, because they are results of the run."""

    __slots__ = ()

    def _refuse(self, *_: Any, **__: Any) -> NoReturn:
        raise WrongType("what the machine holds is a result of its run and can't be set. Change what leads to it: `send` and "
                        "`arrive` add bytes, `log` sets all events, and `patch` sets a word of the image")

    __setitem__ = __delitem__ = __ior__ = clear = pop = popitem = setdefault = update = _refuse  # type: ignore[assignment]

    @classmethod
    def of(cls, value: Any) -> Any:
        """Returns a value of which neither its own names nor those of its parts can be set."""
        if isinstance(value, dict):
            return cls({name: cls.of(part) for name, part in value.items()})
        return [cls.of(part) for part in value] if isinstance(value, list) else value

    def __reduce__(self) -> Tuple[Any, ...]:
        return dict, (dict(self),)  # a copy is a plain dictionary


def whole(name: str, value: Any, least: Optional[int] = None, most: Optional[int] = None, hint: str = "") -> int:
    """Returns a whole number in a range."""
    try:
        number = operator.index(value)
    except TypeError:
        raise WrongType(f"`{name}` is a whole number, and not {shortened(value)}{hint}") from None
    if least is not None and number < least or most is not None and number > most:
        limits = f"{least:,} to {most:,}" if least is not None and most is not None else f"at least {least}"
        raise Problem(f"`{name}` is {limits}, and not {number:,}")
    return number


def position(name: str, value: Any) -> int:
    """Returns a position."""
    hint = f'. `until(pc="{value}")` goes on to a place' if isinstance(value, str) and value.isidentifier() else ""
    return whole(name, value, 0, GREATEST_POSITION, hint)


def whole_or_none(name: str, value: Any, least: Optional[int] = None) -> Optional[int]:
    """Returns a whole number, or None where it is left out."""
    return None if value is None else whole(name, value, least)


def wholes(name: str, values: Any) -> List[int]:
    """Returns some whole numbers."""
    return [whole(name, it) for it in several(name, values)]


def several(name: str, values: Any) -> List[Any]:
    """Returns the items of an iterable that is no text."""
    if isinstance(values, str) or not isinstance(values, Iterable):
        raise WrongType(f"`{name}` has several items, as a list has, and is not {shortened(values)}")
    return list(values)


def texts(name: str, values: Any) -> List[str]:
    """Returns some texts."""
    return [text(name, it) for it in several(name, values)]


def text(name: str, value: Any) -> str:
    """Returns a text that is not empty."""
    if not isinstance(value, str):
        raise WrongType(f"`{name}` is a text, and not {shortened(value)}")
    if not value.strip():
        raise Problem(f"`{name}` is empty")
    return value


def place(name: str, value: Any) -> Place:
    """Returns a place: a text, or a number."""
    if isinstance(value, str):
        return text(name, value)
    try:
        return operator.index(value)
    except TypeError:
        raise WrongType(f"`{name}` is a place, such as 0x80001000 or \"main+8\", and not {shortened(value)}") from None


def content(name: str, value: Any) -> bytes:
    """Returns bytes: those of a text in UTF-8, or bytes as they are."""
    if isinstance(value, (bytes, bytearray, memoryview)):
        return bytes(value)
    if not isinstance(value, str):
        raise WrongType(f"`{name}` is a text or bytes, and not {shortened(value)}")
    try:
        return value.encode("utf-8", "surrogateescape")
    except UnicodeEncodeError as error:
        raise Problem(f"`{name}` has {value[error.start]!r}, which is no character of UTF-8. Bytes may stand in its place") from None


def byte(name: str, value: Any) -> int:
    """Returns a byte, by its number or as a text or bytes of one byte."""
    if not isinstance(value, (str, bytes, bytearray, memoryview)):
        return whole(name, value)
    made = content(name, value)
    if len(made) != 1:
        raise Problem(f"`{name}` is one byte, and {value!r} is {len(made)} bytes{' in UTF-8' if isinstance(value, str) else ''}")
    return made[0]


def kind(name: str, value: Any) -> Kind:
    """Returns the kind of an event."""
    try:
        return Kind(value)
    except ValueError:
        raise Problem(f"`{name}` is one of {', '.join(map(str, Kind))}, and not {shortened(value)}") from None


def events(name: str, values: Any) -> List[Event]:
    """Returns the events of a log."""
    made = several(name, values)
    for at, it in enumerate(made):
        if not isinstance(it, Event):
            raise WrongType(f"`{name}` has events, and item {at} is {shortened(it)}. `bezhakkom.events` makes events of a text")
        for part in ("time", "line", "byte"):
            whole(f"{name}[{at}].{part}", getattr(it, part))
        kind(f"{name}[{at}].kind", it.kind)
    return made


def mapping(name: str, values: Any, read: Callable[[str, Any], T]) -> Dict[int, T]:
    """Returns a value for each of some numbers of events."""
    if not isinstance(values, Mapping):
        raise WrongType(f"`{name}` is a dictionary from numbers of events, and not {shortened(values)}")
    return {whole(name, event): read(f"{name}[{event}]", value) for event, value in values.items()}


def path(name: str, value: Any) -> str:
    """Returns the name of a file."""
    try:
        found = os.fspath(value)
    except TypeError:
        raise WrongType(f"`{name}` is the name of a file, and not {shortened(value)}") from None
    return os.fsdecode(found)


def paths(name: str, values: Any) -> Sequence[str]:
    """Returns the names of one file, or of several."""
    return [path(name, it) for it in ([values] if isinstance(values, (str, bytes, os.PathLike)) else several(name, values))]


def shortened(value: Any) -> str:
    """Returns a value as Python shows it, at most 60 characters of that."""
    shown = repr(value)
    return shown if len(shown) <= 60 else f"{shown[:60]}.."
