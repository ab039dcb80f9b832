"""What stands in a request: each value is looked at before it is used."""
from __future__ import annotations

from typing import Any, Iterator, Mapping, Optional, Sequence

from ..errors import Problem
from ..limits import EXTERNAL_LINES, GREATEST_POSITION, GREATEST_TIME, LINES
from ..log import Event, Kind

GREATEST_ID = (1 << 53) - 1  # what a number of JavaScript holds
MOST_TEXT = 200


class Fields:
    """An object of JSON, whose values are taken by name and kind."""

    def __init__(self, value: Any, name: str = "the request") -> None:
        if not isinstance(value, dict):
            raise Problem(f"{name} is no object")
        self._value: Mapping[str, Any] = value
        self._name = name

    def has(self, name: str) -> bool:
        return self._value.get(name) is not None

    def flag(self, name: str) -> bool:
        return self._value.get(name) is True

    def number(self, name: str, low: int = 0, high: int = GREATEST_POSITION, otherwise: Optional[int] = None) -> int:
        value = self._value.get(name, otherwise)
        if type(value) is not int or not low <= value <= high:
            raise Problem(f"`{name}` of {self._name} is no number from {low:,} to {high:,}")
        return value

    def text(self, name: str, otherwise: Optional[str] = None) -> str:
        value = self._value.get(name, otherwise)
        if not isinstance(value, str) or len(value) > MOST_TEXT or not value.isprintable():
            raise Problem(f"`{name}` of {self._name} is no text of one line with at most {MOST_TEXT} characters")
        return value

    def part(self, name: str) -> Fields:
        return Fields(self._value.get(name), f"`{name}`")

    def parts(self, name: str, most: int) -> Iterator[Fields]:
        for it in self._listed(name, most):
            yield Fields(it, f"an item of `{name}`")

    def numbers(self, name: str, low: int, high: int, most: int) -> list[int]:
        values = self._listed(name, most)
        if any(type(it) is not int or not low <= it <= high for it in values):
            raise Problem(f"`{name}` of {self._name} has other than numbers from {low:,} to {high:,}")
        return list(values)

    def _listed(self, name: str, most: int) -> Sequence[Any]:
        value = self._value.get(name, [])
        if not isinstance(value, list) or len(value) > most:
            raise Problem(f"`{name}` of {self._name} is no list of at most {most:,} items")
        return value

    def identity(self) -> int:
        return self.number("id", 0, GREATEST_ID)

    def event(self) -> Event:
        kind = Kind(self.number("kind", 0, max(Kind), 0))
        is_wire = kind == Kind.WIRE
        return Event(self.number("time", 0, GREATEST_TIME), self.number("line", 0, (EXTERNAL_LINES if is_wire else LINES) - 1),
                     self.number("byte", 0, 1 if is_wire else 255), kind)
