"""Why a register or a word holds what it does: the steps that it comes from, back to the image, to what arrived, and to devices.

It goes back from later steps to earlier ones, so that each step is looked at once, with all that is wanted of it. What is wanted are
bits: of a mask or a shift only those that stay, of a store to a byte only that byte.
"""
from __future__ import annotations

from dataclasses import dataclass, field
from enum import Enum
from heapq import heappop, heappush
from typing import Dict, List, Optional, Tuple, Union

from .. import expressions, instruction, replies, tracing
from ..driver import Driver
from ..errors import STOPPED, Problem
from ..instruction import ALL, Turn
from ..limits import HI, LO, RAM, ROM, WORDS
from ..log import Event, Kind
from ..replies import Writer
from ..symbols import Symbols
from ..tracing import Traced
from . import needs
from .blocks import SIZE, Blocks
from .branches import Branches
from .pasts import Question, kept
from .questions import Register, Sent, Word

_RBUF = 0x1FE0_0008
_VALID, _FRAMING = 0x8000, 0x2000
_MOST_TRIED = 256  # events with the byte that a step got
_BYTE = 0xFF
MOST_STEPS = 100_000
_LOOKED_AT = 1 << 16  # steps back in which the branch is looked for that decided a step
_NEAR = 512  # steps back in which stores to a word are looked for that changed nothing there


class Role(Enum):
    """What a step is to the one that comes of it: its value, the address that it used, or that it was run at all."""

    VALUE = "value"
    ADDRESS = "address"
    CONTROL = "control"


class Origin(Enum):
    """Where a chain ends."""

    IMAGE = "image"  # a word that the image sets
    WORD = "word"  # of RAM, that is 0 since reset
    REGISTER = "register"  # that is 0 since reset
    EVENT = "event"  # a byte of the log
    DEVICE = "device"  # a register of a device
    CACHE = "cache"  # a word of an isolated one
    CONTROL = "coprocessor 0"  # one of its registers
    INTERRUPT = "interrupt"  # that was taken
    FAR = "far"  # a branch that decided it long before


@dataclass(frozen=True)
class End:
    """The end of a chain. Its number is that of the event or the register, or the physical address of the word or the device; None where
    there is none, or the event is not known."""

    origin: Origin
    number: Optional[int] = None


@dataclass(frozen=True)
class Link:
    """What something comes from: a step by its number, or an end."""

    role: Role
    source: Union[int, End]


@dataclass
class Node:
    """A step that something comes from, with the bits of its result that are wanted."""

    step: Traced
    bits: int = 0
    links: List[Link] = field(default_factory=list)


@dataclass
class Why:
    """Where what was asked comes from, by its steps from the last one back. Where it was ended, by Ctrl-C or since there are many, chains
    end at steps that are not among them. `ineffective` are stores to a word that is asked for, or loaded, which changed nothing there, since it is
    in ROM or the cache was isolated: those of the last steps before, up to some hundreds."""

    position: int
    links: List[Link] = field(default_factory=list)
    nodes: Dict[int, Node] = field(default_factory=dict)
    log: List[Event] = field(default_factory=list)
    is_stopped: bool = False
    ineffective: Dict[int, Traced] = field(default_factory=dict)  # stores, by their steps

    def events(self) -> List[int]:
        """The numbers of the events that it comes from."""
        ends = {link.source for links in (self.links, *(it.links for it in self.nodes.values())) for link in links}
        return sorted(it.number for it in ends if isinstance(it, End) and it.origin is Origin.EVENT and it.number is not None)

    def to_input(self) -> Why:
        """The same without what leads to no byte that arrived."""
        leads: Dict[int, bool] = {}

        def is_kept(link: Link) -> bool:
            if isinstance(link.source, End):
                return link.source.origin is Origin.EVENT
            return leads.get(link.source, False)

        for step in sorted(self.nodes):
            leads[step] = any(map(is_kept, self.nodes[step].links))
        nodes = {step: Node(it.step, it.bits, list(filter(is_kept, it.links))) for step, it in self.nodes.items() if leads[step]}
        return Why(self.position, list(filter(is_kept, self.links)), nodes, self.log, self.is_stopped, self.ineffective)


def why(driver: Driver, symbols: Symbols, what: Question, position: int, *, control: bool = False, address: bool = False,
        most: int = MOST_STEPS) -> Why:
    """Where something comes from at a position. With `control` also from the branches that decided that a step was run, with `address`
    from what addresses of loads and stores come from. The PC comes from such branches alone."""
    found = Why(position, log=list(driver.log))
    control = control or isinstance(what, Register) and what.name == "pc"
    with kept(driver), driver.long_run(position, 0):
        try:
            _Slice(driver, symbols, found, control, address, most).make(what)
        except STOPPED:
            found.is_stopped = True
    return found


@dataclass(frozen=True)
class _Wish:
    """A step is wanted by what has links: bits of its result or, where it stored into a word, of that word, or what it decided."""

    links: List[Link]
    role: Role
    bits: int = 0
    physical: Optional[int] = None


# A register or a word whose writer is asked for at a position.
_Asked = Tuple[int, str]


class _Slice:
    def __init__(self, driver: Driver, symbols: Symbols, found: Why, control: bool, address: bool, most: int) -> None:
        self._driver = driver
        self._symbols = symbols
        self._found = found
        self._control = control
        self._address = address
        self._most = most
        self._blocks = Blocks(driver)
        self._branches = Branches(self._fetch)
        self._words: Dict[int, Optional[int]] = {}  # of instructions, by their virtual addresses
        self._steps: List[int] = []  # that are wanted, below 0, so that the last one comes first
        self._wishes: Dict[int, List[_Wish]] = {}  # by steps
        self._asked: Dict[_Asked, List[_Wish]] = {}
        self._received: List[Node] = []
        self._fetched_at = 0

    def make(self, what: Question) -> None:
        self._want(what)
        while (self._steps or self._asked) and len(self._found.nodes) < self._most:
            if self._asked and (not self._steps or -self._steps[0] < max(position for position, _ in self._asked)):
                self._ask()
                continue
            self._look(-heappop(self._steps))
        self._found.is_stopped = bool(self._steps or self._asked)
        self._name_events()

    def _want(self, what: Question) -> None:
        links, position = self._found.links, self._found.position
        register = _number_of(what) if isinstance(what, Register) and what.name != "pc" else None
        if not isinstance(what, (Register, Word, Sent)):
            raise Problem("`why` takes a register, a word, or one byte that a line sent")
        if isinstance(what, Sent):
            self._driver.goto(position)
            self._want_step(self._driver.find(what.line, what.place), _Wish(links, Role.VALUE, _BYTE))
        elif not position:
            links.append(Link(Role.VALUE, self._at_reset(what, register)))
        elif isinstance(what, Word):
            for near in range(position - 1, max(position - _NEAR, 0) - 1, -SIZE):
                self._blocks.of(near)
            self._want_word(_Wish(links, Role.VALUE, ALL, what.physical), position)
        elif register is None:
            self._want_step(position - 1, _Wish(links, Role.CONTROL))
        elif not register:
            links.append(Link(Role.VALUE, End(Origin.REGISTER, register)))
        else:
            self._blocks.of(position - 1)
            self._want_register(_Wish(links, Role.VALUE, ALL), register, position, position)

    def _at_reset(self, what: Question, register: Optional[int]) -> End:
        """What something comes from at position 0."""
        if isinstance(what, Word):
            self._driver.goto(0)
            return _end_of_word(self._driver.writer(what.physical), what.physical)
        return End(Origin.REGISTER, register)

    # What is wanted

    def _want_step(self, step: int, wish: _Wish) -> None:
        if step not in self._wishes:
            self._wishes[step] = []
            heappush(self._steps, -step)
        self._wishes[step].append(wish)

    def _want_register(self, wish: _Wish, register: int, end: int, position: int) -> None:
        """Wants the last step below `end` that wrote a register with what it holds at a position."""
        low = end
        for block in self._blocks.known(end):
            step = block.writer(register, end, position)
            if step is not None:
                self._want_step(step, wish)
                return
            low = block.first
        if not low:
            wish.links.append(Link(wish.role, End(Origin.REGISTER, register)))
            return
        load = self._blocks.of(low).registers.load
        if position == low and load and load[0] == register:
            low -= 1  # the last load has not landed
        self._asked.setdefault((low, f"regwriter {register}"), []).append(wish)

    def _want_word(self, wish: _Wish, end: int) -> None:
        """Wants the last step below `end` that stored into a word."""
        assert wish.physical is not None
        low = end
        for block in self._blocks.known(end):
            step = block.store(wish.physical, end)
            for it in block.ineffective(wish.physical, 0 if step is None else step, end):
                self._found.ineffective[it] = block.step(it)
            if step is not None:
                self._want_step(step, wish)
                return
            low = block.first
        self._asked.setdefault((low, f"writer {wish.physical}"), []).append(wish)

    def _ask(self) -> None:
        """Asks who wrote the registers and words that no known step did."""
        asked, self._asked = self._asked, {}
        answers = self._driver.ask_all([it for position, question in asked for it in (f"goto {position}", question)])[1::2]
        for (_, question), wishes, lines in zip(asked, asked.values(), answers):
            name, number = question.split()
            found = replies.writer(lines)
            for wish in wishes:
                if found.step is not None:
                    self._want_step(found.step, wish)
                elif name == "writer":
                    wish.links.append(Link(wish.role, _end_of_word(found, int(number))))
                else:
                    wish.links.append(Link(wish.role, End(Origin.REGISTER, int(number))))

    # Steps

    def _look(self, number: int) -> None:
        """Looks at a step of which all is known that is wanted."""
        step, word = self._blocks.of(number).step(number), self._blocks.of(number).word(number)
        node = Node(step)
        is_wanted = decides = False
        for wish in self._wishes.pop(number):
            bits = wish.bits
            if wish.physical is not None and step.access and step.access.address == wish.physical:
                covered = needs.covered(word, self._byte(number))
                if bits & ~covered:
                    self._want_word(_Wish(wish.links, wish.role, bits & ~covered, wish.physical), number)
                if not bits & covered:
                    continue
                bits = needs.stored(word, self._byte(number), bits & covered)
            node.bits |= bits
            decides = decides or wish.role is Role.CONTROL
            wish.links.append(Link(wish.role, number))
            is_wanted = True
        if not is_wanted:
            return
        self._found.nodes[number] = node
        if step.exception is None:
            if decides:
                self._want_registers(node, needs.decided(word), Role.VALUE)
            if node.bits:
                self._want_operands(node, word)
        if (self._address or step.exception) and instruction.code(word) in instruction.LOADS | instruction.STORES:
            self._want_registers(node, {instruction.rs(word): ALL}, Role.ADDRESS)
        if step.exception == 0:
            node.links.append(Link(Role.CONTROL, End(Origin.INTERRUPT)))
        elif self._control:
            self._want_deciding(node)

    def _want_registers(self, node: Node, wanted: needs.Needs, role: Role) -> None:
        number = node.step.step
        for register, bits in wanted.items():
            if register:
                self._want_register(_Wish(node.links, role, bits), register, number, number)

    def _want_operands(self, node: Node, word: int) -> None:
        number, major = node.step.step, instruction.code(word)
        if major in instruction.LOADS:
            self._want_loaded(node, word)
        elif instruction.is_control_read(word):
            node.links.append(Link(Role.VALUE, End(Origin.CONTROL, word >> 11 & 31)))
        elif major in instruction.STORES:
            self._want_registers(node, {instruction.rt(word): node.bits}, Role.VALUE)
        else:
            block = self._blocks.of(number)
            self._want_registers(node, needs.needs(word, node.bits, lambda register: block.value(register, number)), Role.VALUE)

    def _want_loaded(self, node: Node, word: int) -> None:
        number, access = node.step.step, node.step.access
        assert access
        bits, stays = needs.loaded(word, self._byte(number), node.bits)
        if access.mark == "isolated":
            node.links.append(Link(Role.VALUE, End(Origin.CACHE)))
        elif access.address in RAM or access.address in ROM:
            if bits:
                self._want_word(_Wish(node.links, Role.VALUE, bits, access.address), number)
        elif access.address == _RBUF and access.word & _VALID:
            self._received.append(node)
        else:
            node.links.append(Link(Role.VALUE, End(Origin.DEVICE, access.address)))
        if stays:
            # What the load before it gets lands first.
            self._want_register(_Wish(node.links, Role.VALUE, stays), instruction.rt(word), number, number + 1)

    def _byte(self, number: int) -> int:
        """The byte of its word that a load or store begins at."""
        return self._blocks.of(number).address(number) & 3

    # Branches

    def _want_deciding(self, node: Node) -> None:
        """Wants the step that decided that another one was run: a branch, a call, or an exception."""
        number = node.step.step
        deciding = self._deciding(number)
        if deciding is not None:
            self._want_step(deciding, _Wish(node.links, Role.CONTROL))
        elif number > _LOOKED_AT:
            node.links.append(Link(Role.CONTROL, End(Origin.FAR)))

    def _deciding(self, number: int) -> Optional[int]:
        """The last step before one that decided whether it is run, in its function and in what called that."""
        at = number - 1 if number and self._is_slot(number) else number
        counter = self._blocks.of(at).counter(at)
        named = self._symbols.at(counter)
        self._fetched_at = number
        branches = self._branches.deciding(counter, counter - named[1] if named else counter)
        calls = handlers = 0
        for block in range(at // SIZE, max(at - _LOOKED_AT, 0) // SIZE - 1, -1):
            for step, turn, place in self._blocks.of(block * SIZE).turns:
                if step >= at:
                    continue
                if turn is Turn.EXCEPTION:
                    if not handlers:
                        return step
                    handlers -= 1
                elif turn is Turn.EXCEPTION_RETURN:
                    handlers += 1
                elif handlers:
                    continue
                elif turn is Turn.RETURN:
                    calls += 1
                elif turn is Turn.CALL:
                    if not calls:
                        return step
                    calls -= 1
                elif not calls and (turn is Turn.JUMP or place in branches):
                    return step
        return None

    def _is_slot(self, number: int) -> bool:
        before, block = self._blocks.of(number - 1), self._blocks.of(number)
        return (number - 1 not in before.exceptions and instruction.has_slot(before.word(number - 1))
                and block.counter(number) == before.counter(number - 1) + 4)

    def _fetch(self, address: int) -> Optional[int]:
        """The instruction at a virtual address, as it is at the step whose branch is looked for. Those around it are asked for too."""
        if address not in self._words:
            self._driver.goto(self._fetched_at)
            first = address & -4 * WORDS
            physical = self._driver.physical(first)
            words: List[Optional[int]] = [None] * WORDS
            if physical is not None and (physical in RAM or physical in ROM):
                words[:] = self._driver.words(physical, WORDS)
            self._words.update(zip(range(first, first + 4 * WORDS, 4), words))
        return self._words[address]

    # Events

    def _name_events(self) -> None:
        """Finds the events whose bytes were received: what arrived is taken in its order."""
        end = len(self._found.log)
        for node in self._received:
            event = self._event(node.step, end)
            node.links.append(Link(Role.VALUE, End(Origin.EVENT, event)))
            end = end if event is None else event

    def _event(self, step: Traced, end: int) -> Optional[int]:
        """The event before one whose byte a step got: the one of which other bytes are what the step gets then."""
        assert step.access
        line, byte = step.access.word >> 8 & 3, step.access.word & _BYTE
        kind = Kind.FRAMING if step.access.word & _FRAMING else Kind.BYTE
        tried = 0
        for index in range(end - 1, -1, -1):
            event = self._found.log[index]
            if event.time > step.step or (event.line, event.byte, event.kind) != (line, byte, kind):
                continue
            if self._is_got(step, index):
                return index
            tried += 1
            if tried == _MOST_TRIED:
                break
        return None

    def _is_got(self, step: Traced, index: int) -> bool:
        """Whether a step gets other bytes of an event where these arrive."""
        assert step.access
        byte = step.access.word & _BYTE
        others = [byte ^ 1, byte ^ 0x82]
        commands = [it for other in others for it in (f"set {index} {other}", f"goto {step.step}", "trace 1")]
        answers = self._driver.values([*commands, f"set {index} {byte}"])
        for other, lines in zip(others, answers[2::3]):
            there = tracing.read(lines[0])
            if not there.access or (there.pc, there.access.address, there.access.word) != (
                    step.pc, step.access.address, step.access.word ^ byte ^ other):
                return False
        return True


def _number_of(register: Register) -> int:
    """The number of a register that instructions write."""
    return register.number if register.number is not None else expressions.written(register.name)


def _end_of_word(found: Writer, physical: int) -> End:
    return End(Origin.IMAGE if found.kind == "image" else Origin.WORD, physical)
