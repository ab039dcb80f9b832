"""Which branches decide whether an instruction is run: those of its function from which one way always comes to it, and the other may
not. A call goes on behind itself. A jump to where a register says ends a function, as a return does. A delay slot is run with its
branch, and is left out."""
from __future__ import annotations

from typing import Callable, Dict, FrozenSet, List, Optional, Set

from .. import instruction

_MOST = 1 << 16  # instructions of one function that are looked at

# The word of the instruction at a virtual address, or None where none can be fetched.
Fetch = Callable[[int], Optional[int]]


class Branches:
    """The branches of code that is as it was fetched first."""

    def __init__(self, fetch: Fetch) -> None:
        self._fetch = fetch
        self._deciding: Dict[int, FrozenSet[int]] = {}

    def deciding(self, address: int, begin: int) -> FrozenSet[int]:
        """The branches that decide whether the instruction at an address is run, of a function that begins at another one, or of what
        comes after the address where it is not reached from there."""
        if address not in self._deciding:
            for start in (begin, address):
                following = self._following(start)
                if address in following:
                    break
            for at, branches in _decided(following).items():
                self._deciding[at] = branches
        return self._deciding[address]

    def _following(self, begin: int) -> Dict[int, List[int]]:
        """What may come after each instruction from one on. Of a branch and of a jump that is behind its delay slot."""
        following: Dict[int, List[int]] = {}
        todo = [begin]
        while todo and len(following) < _MOST:
            at = todo.pop()
            if at in following:
                continue
            word = self._fetch(at)
            following[at] = [] if word is None else _ways(at, word)
            todo += following[at]
        return following


def _ways(at: int, word: int) -> List[int]:
    if instruction.is_jump(word):
        return [] if instruction.is_jump_by_register(word) else [instruction.target(at, word)]
    behind = at + (8 if instruction.has_slot(word) else 4) & instruction.ALL
    return [instruction.target(at, word), behind] if instruction.is_branch(word) else [behind]


def _decided(following: Dict[int, List[int]]) -> Dict[int, FrozenSet[int]]:
    """The branches that decide each instruction, by what all ways from each place come to."""
    following = {at: [it for it in ways if it in following] for at, ways in following.items()}
    places = sorted(following)
    number = {at: place for place, at in enumerate(places)}
    ends = _ends(following, places)
    always = [(1 << len(places)) - 1] * len(places)  # to which instructions all ways from one come, itself among them
    is_new = True
    while is_new:
        is_new = False
        for at in reversed(places):
            place, met = number[at], 0
            if at not in ends:
                met = -1
                for way in following[at]:
                    met &= always[number[way]]
            found = met | 1 << place
            if found != always[place]:
                always[place], is_new = found, True
    deciding: Dict[int, Set[int]] = {at: set() for at in places}
    for at in places:
        if len(following[at]) > 1:
            for way in following[at]:
                found = always[number[way]] & ~(always[number[at]] & ~(1 << number[at]))
                while found:
                    lowest = found & -found
                    deciding[places[lowest.bit_length() - 1]].add(at)
                    found ^= lowest
    return {at: frozenset(branches) for at, branches in deciding.items()}


def _ends(following: Dict[int, List[int]], places: List[int]) -> Set[int]:
    """Where functions end. A loop that nothing leaves ends where it begins."""
    before: Dict[int, List[int]] = {at: [] for at in places}
    for at, ways in following.items():
        for way in ways:
            before[way].append(at)
    ends = {at for at in places if not following[at]}
    reached, todo = set(ends), list(ends)
    while True:
        while todo:
            for at in before[todo.pop()]:
                if at not in reached:
                    reached.add(at)
                    todo.append(at)
        rest = [at for at in places if at not in reached]
        if not rest:
            return ends
        end = next((at for at in rest if any(it >= at for it in before[at])), rest[0])
        ends.add(end)
        reached.add(end)
        todo.append(end)
