"""Which events decide an answer.

An event decides it by its *value* where the answer is another one once the event alone has one of the other values that are tried;
and by *being there* where the answer is another one once the event alone is taken out. Only events before the position can. An event
that is in neither list may still decide it with a value that was not tried, or together with another event.
"""
from __future__ import annotations

from concurrent.futures import Executor
from dataclasses import dataclass, field
from typing import Any, List, Optional, Sequence, Tuple

from ..driver import Driver
from ..errors import STOPPED
from ..log import Event, Kind
from . import pasts
from .jobs import answers
from .pasts import Past, kept, told
from .questions import At, Question

SET, DEL = "set", "del"


@dataclass
class Causes:
    """What decides an answer at a position, by the numbers of the events. Where Ctrl-C came, the last `asked` of the events before the
    position were tried."""

    position: int
    answer: Any
    log: List[Event]
    events: int
    asked: int = 0
    by_value: List[int] = field(default_factory=list)
    by_being_there: List[int] = field(default_factory=list)

    @property
    def is_stopped(self) -> bool:
        return self.asked < self.events


def causes(driver: Driver, question: Question, position: int, ways: Sequence[str] = (SET, DEL), values: int = 1,
           executor: Optional[Executor] = None) -> Causes:
    """The events that decide the answer to a question at a position. With `values` so many other values of each event are tried."""
    with kept(driver):
        asked = At(position, (question,))
        log = list(driver.log)
        events = sum(it.time < position for it in log)
        found = Causes(position, pasts.answer(driver, asked)[0], log, events)
        # The last one first: what stands before it is that of the present past, and is not run again.
        tried = [(index, way, past) for index in reversed(range(events)) for way, past in _alternatives(log, index, ways, values)]
        left = [0] * events
        for index, _, _ in tried:
            left[index] += 1
        lists = {SET: found.by_value, DEL: found.by_being_there}
        try:
            got = answers(driver, [(past, asked) for _, _, past in tried], executor)
            for (index, way, _), (answer,) in zip(tried, told(driver, got, len(tried))):
                if answer != found.answer and index not in lists[way][-1:]:
                    lists[way].append(index)
                left[index] -= 1
                found.asked += not left[index]
        except STOPPED:
            pass
    for indices in lists.values():
        indices.reverse()
    return found


def _alternatives(log: Sequence[Event], index: int, ways: Sequence[str], values: int) -> list[Tuple[str, Past]]:
    made = [(SET, pasts.with_byte(log, index, it)) for it in other_values(log[index])[:values]] if SET in ways else []
    return made + ([(DEL, pasts.without(log, index, index + 1))] if DEL in ways else [])


def other_values(event: Event) -> list[int]:
    """The other values of an event: those with one bit turned, from the lowest on, and then the others."""
    if event.kind == Kind.WIRE:
        return [1 - event.byte]
    turned = [event.byte ^ 1 << bit for bit in range(8)]
    return turned + [it for it in range(256) if it != event.byte and it not in turned]
