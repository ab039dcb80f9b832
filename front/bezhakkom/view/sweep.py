"""A sweep: one event in many steps, or with many values, and what comes of each."""
from __future__ import annotations

from typing import Any, Dict, List, Optional, Sequence, Tuple

from ..driver import Driver
from ..limits import LINES
from ..log import Event
from ..whatif import pasts
from ..whatif.conditions import Condition, ComesTrue
from ..whatif.futures import Label, moved, taken_out, values
from ..whatif.pasts import Past, Question, kept
from ..whatif.questions import At, Console

SECONDS = 0.06  # of one request, after which the page may ask for something else
SHOWN = 400  # bytes of an outcome that are shown


def changes(log: Sequence[Event], index: int, steps: Sequence[int], those: Sequence[int], without: bool) -> List[Tuple[Label, Past]]:
    """The pasts that a sweep tries."""
    return [*moved(log, index, steps), *values(log, index, those), *(taken_out(log, index) if without else ())]


class Sweep:
    """The outcomes that a sweep has found so far, each with a number."""

    def __init__(self, driver: Driver, begin: int, position: int, condition: Optional[Condition], as_now: bool) -> None:
        self._condition = condition
        self._as_now = as_now  # whether an outcome is only the present one, or another
        self._begin, self._position = begin, position
        with kept(driver):
            driver.goto(begin)
            self._before = [driver.sent(line) for line in range(LINES)]
            driver.goto(position)
            self._likely = [driver.sent(line) - first for line, first in enumerate(self._before)]
        self._numbers: Dict[Any, int] = {}
        self._present = pasts.answer(driver, self._question())
        self.present = self._number(self._present)

    def _question(self) -> Question:
        if self._condition is not None:
            return ComesTrue(self._condition, self._begin, self._position)
        consoles: List[Question] = [Console(line, first, likely)
                                    for line, (first, likely) in enumerate(zip(self._before, self._likely))]
        return At(self._position, tuple(consoles))

    def _number(self, answer: Any) -> int:
        key = answer is not None if self._condition is not None else answer == self._present if self._as_now else tuple(answer)
        return self._numbers.setdefault(key, len(self._numbers))

    def tried(self, driver: Driver, cases: Sequence[Tuple[Label, Past]]) -> List[int]:
        """The numbers of the outcomes of the first of some pasts, as many as take little time."""
        with kept(driver):
            question = self._question()
            return [self._number(it) for it in pasts.answers(driver, [(past, question) for _, past in cases], SECONDS)]

    def outcomes(self) -> List[str]:
        """What each outcome is, in words."""
        if self._condition is not None:
            return ["it comes true" if key else "it does not come true" for key in self._numbers]
        if self._as_now:
            return ["as now" if key else "otherwise" for key in self._numbers]
        return [_shown(key) for key in self._numbers]


def _shown(sent: Sequence[bytes]) -> str:
    parts = [f"line {line} sends {it[-SHOWN:].decode('latin-1')}" for line, it in enumerate(sent) if it]
    return "\n".join(parts) or "nothing is sent"

