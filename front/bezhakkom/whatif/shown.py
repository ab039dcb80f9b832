"""What was found, as text for people and as values for programs."""
from __future__ import annotations

from dataclasses import asdict
from typing import Any, Dict, Iterator, List, Optional, Sequence, Tuple, Union

from .. import expressions, tracing
from .. import log as logs
from ..limits import RETURN_ADDRESS
from ..log import Event, Kind, quoted
from ..replies import Registers
from ..session import Session, counted
from ..step_lines import StepLines, place
from .causes import DEL, SET, Causes
from .compare import Comparison
from .futures import OUT, STEP, VALUE, Futures, Label, Outcome
from .fuzz import Fuzzed
from .questions import Console, Question, Register, Sent
from .shrink import Shrunk
from .when import When
from .why import End, Link, Node, Origin, Role, Why

Value = Dict[str, Any]

_WORDS = 32  # that differ are shown at most
_TAIL = 60  # bytes of what a line sent are shown at most


def stopped(done: int, whole: int) -> str:
    return f"interrupted: {done:,} of {whole:,} were tried, and what follows is what these show"


# Values and events

def value_of(session: Session, question: Question, answer: Any) -> str:
    """An answer as text."""
    if isinstance(question, Console):
        return text_of(answer)
    if isinstance(question, Sent):
        return "nothing" if answer is None else byte(answer)
    return session.value(answer, is_of_code(question))


def is_of_code(question: Question) -> bool:
    """Whether an answer is an address of an instruction: the PC, the next one, that of an exception, or a return address."""
    return isinstance(question, Register) and (question.name in ("pc", "next_pc", "epc") or question.number == RETURN_ADDRESS)


def text_of(content: bytes) -> str:
    """What a line sent: all, or its end."""
    return quoted(content) if len(content) <= _TAIL else f"..{quoted(content[-_TAIL:])}"


def byte(value: int) -> str:
    return quoted([value]) if 32 <= value < 127 else f"{value:#04x}"


def what(event: Event) -> str:
    if event.kind == Kind.WIRE:
        return f"external line {event.line} gets {event.byte}"
    return f"line {event.line}, {byte(event.byte)}" + (" with a framing error" if event.kind == Kind.FRAMING else "")


def runs(log: Sequence[Event], indices: Sequence[int]) -> Iterator[str]:
    """Events of one line that follow one another, as its text with their steps and numbers."""
    at = 0
    while at < len(indices):
        end = at + 1
        first = log[indices[at]]
        while (end < len(indices) and indices[end] == indices[end - 1] + 1 and first.kind != Kind.WIRE
               and (log[indices[end]].line, log[indices[end]].kind) == (first.line, first.kind)):
            end += 1
        last = log[indices[end - 1]]
        if end == at + 1:
            yield f"step {first.time:,}, {what(first)} (event {indices[at]:,})"
        else:
            text = quoted(log[it].byte for it in indices[at:end])
            framing = " with framing errors" if first.kind == Kind.FRAMING else ""
            yield (f"steps {first.time:,} to {last.time:,}, line {first.line}, {text}{framing} "
                   f"(events {indices[at]:,} to {indices[end - 1]:,})")
        at = end


def _named(session: Session, value: object, is_code: bool = True) -> Value:
    """The name of an address, where there is one, and the source line of code, or of a value that points to a function."""
    names = (session.symbols.name(value), session.line_of(value, is_code)) if isinstance(value, int) else ("", "")
    return {"place": names[0] or None, "source": names[1] or None}


def _step_value(session: Session, step: int) -> Value:
    with session.at(step):
        pc = session.driver.registers().pc
    return {"step": step, "pc": pc, **_named(session, pc)}


def event_value(event: Event) -> Value:
    return {"time": event.time, "line": event.line, "byte": event.byte, "kind": event.kind.name.lower()}


# causes

def causes(session: Session, name: str, question: Question, ways: Sequence[str], values: int, found: Causes) -> Iterator[str]:
    shown = value_of(session, question, found.answer)
    if found.is_stopped:
        yield stopped(found.asked, found.events) + ", from the last event before the position back"
    yield f"{name} at step {found.position:,}: {shown}"
    lists = {SET: (found.by_value, f"by value ({counted(values, 'other value')} tried)"), DEL: (found.by_being_there, "by being there")}
    for way in ways:
        indices, how = lists[way]
        yield f"{len(indices):,} of {counted(found.asked, 'event')} decide it {how}" + (":" if indices else "")
        for run in runs(found.log, indices):
            yield f"  {run}"


def causes_value(session: Session, question: Question, found: Causes, ways: Sequence[str]) -> Value:
    answer = list(found.answer) if isinstance(found.answer, bytes) else found.answer
    lists = {SET: ("by_value", found.by_value), DEL: ("by_being_there", found.by_being_there)}
    named = _named(session, answer, is_of_code(question))
    return {"position": found.position, "answer": answer, **named, "events": found.events, "tried": found.asked,
            **{lists[way][0]: [{"event": it, **event_value(found.log[it])} for it in lists[way][1]] for way in ways}}


# try

def futures(session: Session, index: int, names: Sequence[Tuple[str, Question]], position: int, found: Futures) -> Iterator[str]:
    event = found.event
    if found.is_stopped:
        yield stopped(found.tried, found.whole)
    yield (f"event {index:,}, {what(event)} in step {event.time:,}: {counted(found.tried, 'past')}, "
           f"{counted(len(found.outcomes), 'outcome')} at step {position:,}")
    for outcome, labels in sorted(found.outcomes.items(), key=lambda it: -len(it[1])):
        as_it_is = " (as it is)" if (VALUE, event.byte) in labels or (STEP, event.time) in labels else ""
        yield f"{len(labels):6,}: {spelled(labels, event)}{as_it_is}"
        yield f"        {_outcome(session, names, outcome)}"


def _outcome(session: Session, names: Sequence[Tuple[str, Question]], outcome: Outcome) -> str:
    if not outcome.came:
        return "it does not come true"
    sent = [f"line {line} sends {text_of(it)}" for line, it in enumerate(outcome.sent) if it] or ["nothing is sent"]
    values = [f"{name} is {value_of(session, question, it)}" for (name, question), it in zip(names, outcome.values)]
    return ", ".join([*sent, *([f"in {outcome.place}"] if outcome.place else []), *values])


def futures_value(index: int, names: Sequence[Tuple[str, Question]], position: int, found: Futures) -> Value:
    def one(outcome: Outcome, labels: Sequence[Label]) -> Value:
        changes = {"values": [it for kind, it in labels if kind == VALUE], "steps": [it for kind, it in labels if kind == STEP],
                   "taken_out": (OUT, 0) in labels}
        if not outcome.came:
            return {"came_true": False, **changes}
        answers = {name: list(it) if isinstance(it, bytes) else it for (name, _), it in zip(names, outcome.values)}
        return {"came_true": True, "sent": [list(it) for it in outcome.sent], "in": outcome.place or None, "answers": answers, **changes}

    return {"event": index, **event_value(found.event), "position": position, "pasts": found.whole, "tried": found.tried,
            "outcomes": [one(*it) for it in found.outcomes.items()]}


def spelled(labels: Sequence[Label], event: Event) -> str:
    """Values, steps and being taken out, as ranges."""
    def name(value: int) -> str:
        return f"level {value}" if event.kind == Kind.WIRE else byte(value)

    parts = [name(low) if low == high else f"{name(low)}..{name(high)}"
             for low, high, _ in _ranges([it for kind, it in labels if kind == VALUE], 1)]
    for low, high, gap in _ranges([it for kind, it in labels if kind == STEP], 0):
        by = f" by {gap:,}" if gap > 1 else ""
        parts.append(f"step {low:,}" if low == high else f"steps {low:,}..{high:,}{by}")
    parts += ["taken out" for kind, _ in labels if kind == OUT]
    return ", ".join(parts)


def _ranges(values: Sequence[int], gap: int) -> List[Tuple[int, int, int]]:
    """Runs of values with a gap between them, or where it is 0, with the gap that each begins with."""
    made: List[Tuple[int, int, int]] = []
    for it in sorted(values):
        if made:
            low, high, apart = made[-1]
            if it - high == (gap or (apart if high > low else it - high)):
                made[-1] = low, it, it - high
                continue
        made.append((it, it, gap))
    return made


# shrink

def shrunk(found: Shrunk, condition: str, name: str) -> Iterator[str]:
    if found.is_stopped:
        yield f"interrupted after {counted(found.tried, 'past')}: the log may be smaller still"
    yield f"{len(found.log):,} of {counted(len(found.before), 'event')} are left, and `{condition}` comes true at step {found.position:,}:"
    yield from (f"  {line}" for line in logs.show(found.log))
    yield f"the log as it was is kept as {name}; `undo` brings it back"


def shrunk_value(found: Shrunk) -> Value:
    return {"before": len(found.before), "events": [event_value(it) for it in found.log], "position": found.position,
            "tried": found.tried, "stopped": found.is_stopped}


# compare

def comparison(session: Session, found: Comparison, other: str) -> Iterator[str]:
    if found.first_event is not None:
        yield f"the events differ from step {found.first_event:,} on"
    if found.is_stopped:
        yield "interrupted: what follows is what was found up to then"
    if found.registers:
        position, here, there = found.registers
        with session.at(position - 1):
            place = session.code(session.driver.registers().pc)
        yield f"registers differ from step {position:,} on, after {place}: {', '.join(_registers(session, here, there, other))}"
    else:
        yield f"registers don't differ up to step {found.compared:,}"
    for it in found.sent:
        one, two = (f"{byte(side[0])} in step {side[1]:,}" if side else "nothing" for side in (it.here, it.there))
        yield f"line {it.line}: byte {it.place:,} is {one} here, {two} {other}"
    if not found.sent:
        yield "the lines sent the same"
    of = "" if not found.is_stopped else f" below {found.words_to:#010x}"
    yield f"{counted(len(found.words), 'word')} of RAM{of} differ" + (":" if found.words else "")
    for word in found.words[:_WORDS]:
        yield f"  {session.address(word.physical | 0x8000_0000)}: {word.here:#010x} here, {word.there:#010x} {other}"
    if len(found.words) > _WORDS:
        yield f"  and {len(found.words) - _WORDS:,} more; --json has all"


def _registers(session: Session, here: Registers, there: Registers, other: str) -> Iterator[str]:
    names = ["pc", "next_pc", "hi", "lo", "delay", "load"]
    pairs = [(name, getattr(here, name), getattr(there, name)) for name in names]
    pairs += [(name, one, two) for name, one, two in zip(expressions.REGISTERS, here.general, there.general)]
    for name, one, two in pairs:
        if one != two:
            first, second = (session.code(it) if name == "pc" else f"{it:#x}" if type(it) is int else _loaded(it) for it in (one, two))
            yield f"{name} {first} here, {second} {other}"


def _loaded(it: object) -> str:
    if isinstance(it, tuple):
        return f"{it[1]:#x} on its way to {expressions.REGISTERS[it[0]]}"
    return "nothing" if it is None else "yes" if it else "no"


def comparison_value(session: Session, found: Comparison) -> Value:
    registers = None
    if found.registers:
        position, here, there = found.registers
        registers = {"position": position, "after": _step_value(session, position - 1), "here": asdict(here), "there": asdict(there)}
    return {"position": found.position, "first_event": found.first_event, "compared": found.compared, "registers": registers,
            "sent": [asdict(it) for it in found.sent], "words": [asdict(it) for it in found.words], "words_to": found.words_to,
            "stopped": found.is_stopped}


# when

def when(session: Session, text: str, found: When) -> Iterator[str]:
    if found.is_stopped:
        yield f"interrupted: up to step {found.reached:,} it does not hold that {text}"
    elif found.position is None:
        yield f"up to step {found.reached:,} it does not hold that {text}"
    elif not found.position:
        yield f"{text} holds at step 0: the image sets it so, or memory begins so"
    else:
        yield f"{text} holds first at step {found.position:,}, after {session.step(found.position - 1)}"


def when_value(session: Session, found: When) -> Value:
    after = _step_value(session, found.position - 1) if found.position else None
    return {"position": found.position, "after": after, "reached": found.reached, "stopped": found.is_stopped}


# fuzz

def fuzzed(found: Fuzzed, condition: str, file: Optional[str]) -> Iterator[str]:
    tried = f"{counted(found.tried, 'input')} tried from seed {found.seed}, {counted(found.outcomes, 'outcome')}"
    if found.is_stopped:
        yield "interrupted" + (": the log may be smaller still" if found.log else "")
    if not found.shrunk:
        yield f"{tried}: `{condition}` did not come true"
        return
    yield f"{tried}: `{condition}` comes true at step {found.shrunk.position:,} with"
    yield from (f"  {line}" for line in logs.show(found.shrunk.log))
    if file:
        yield f"the session is saved in {file}; `bin/wb shell {file}` opens it"


def fuzzed_value(found: Fuzzed, file: Optional[str]) -> Value:
    return {"seed": found.seed, "tried": found.tried, "outcomes": found.outcomes, "stopped": found.is_stopped,
            "crash": None if found.log is None else [event_value(it) for it in found.log],
            "shrunk": None if found.shrunk is None else shrunk_value(found.shrunk), "file": file}


# why

_FOLDED = 4  # turns of a loop are shown as one
_LONGEST_TURN = 16  # steps
_ROLES = {Role.VALUE: "from", Role.ADDRESS: "address from", Role.CONTROL: "decided by"}


def why(session: Session, name: str, value: str, found: Why, most: int) -> Iterator[str]:
    yield f"{name} at step {found.position:,}: {value}{_sources(session, found, found.links)}"
    lines = StepLines(session)
    stretches, rest = shown_steps(found, most)
    for turn, more in stretches:
        yield from (f"  {lines.of(it.step)}{_sources(session, found, it.links)}" for it in turn)
        if more:
            yield f"  {same_again(turn, more)}"
    if rest:
        yield f"  and {counted(rest, 'earlier step')}: `steps N` shows more, and --json has all"
    if found.ineffective:
        yield f"{counted(len(found.ineffective), 'store')} there changed nothing:"
        yield from (f"  {lines.of(it)}" for _, it in sorted(found.ineffective.items(), reverse=True)[:most])
    if found.is_stopped:
        yield f"steps before {min(found.nodes):,} were not looked at" if found.nodes else "interrupted"
    events = found.events()
    yield f"{counted(len(found.nodes), 'step')}, " + (f"{counted(len(events), 'event')}:" if events else "no event")
    yield from (f"  {it}" for it in runs(found.log, events))


def shown_steps(found: Why, most: int) -> Tuple[List[Tuple[Sequence[Node], Sequence[Node]]], int]:
    """The steps from the last one back, some `most` of them, where turns of a loop are shown as one: a turn, and what follows it of the
    same instructions. And how many steps are left."""
    nodes = [node for _, node in sorted(found.nodes.items(), reverse=True)]
    counters = [it.step.pc for it in nodes]
    stretches: List[Tuple[Sequence[Node], Sequence[Node]]] = []
    at = shown = 0
    while at < len(nodes) and shown < most:
        size, times = _turns(counters, at)
        stretches.append((nodes[at:at + size], nodes[at + size:at + size * times]))
        at, shown = at + size * times, shown + size
    return stretches, len(nodes) - at


def same_again(turn: Sequence[Node], more: Sequence[Node]) -> str:
    what_is = "the same instruction" if len(turn) == 1 else f"the same {len(turn)} instructions"
    return f"{what_is} {len(more) // len(turn):,} times more, back to step {more[-1].step.step:,}"


def _turns(counters: Sequence[int], at: int) -> Tuple[int, int]:
    """How many steps from a place on are a turn of a loop, and how many such turns follow one another there; or one step."""
    for size in range(1, _LONGEST_TURN + 1):
        turn, times = counters[at:at + size], 1
        while counters[at + times * size:at + (times + 1) * size] == turn:
            times += 1
        if times >= _FOLDED:
            return size, times
    return 1, 1


def _sources(session: Session, found: Why, links: Sequence[Link]) -> str:
    """What something comes from: `   from 40,021; decided by 40,017`."""
    parts = [f"{how} {', '.join(text for text, _ in sources)}" for how, sources in sources_of(session, found, links)]
    return "   " + "; ".join(parts) if parts else ""


def sources_of(session: Session, found: Why, links: Sequence[Link]) -> Iterator[Tuple[str, List[Tuple[str, Union[int, End]]]]]:
    """What something comes from, with its text, by how it comes from it."""
    for role, how in _ROLES.items():
        sources = dict.fromkeys(it.source for it in links if it.role is role)
        if sources:
            yield how, [(_end(session, found, it) if isinstance(it, End) else f"{it:,}", it) for it in sources]


def _end(session: Session, found: Why, end: End) -> str:
    number = end.number
    if end.origin is Origin.INTERRUPT:
        return "an interrupt"
    if end.origin is Origin.CACHE:
        return "an isolated cache"
    if end.origin is Origin.FAR:
        return "a branch long before"
    if number is None:
        return "reset" if end.origin is Origin.REGISTER else "a byte that was received, of no event that can be told"
    if end.origin is Origin.EVENT:
        return f"event {number:,}: {what(found.log[number])}"
    if end.origin in (Origin.IMAGE, Origin.WORD):
        return f"{'the image' if end.origin is Origin.IMAGE else 'reset'} at {place(session, number)}"
    if end.origin is Origin.DEVICE:
        return f"the device at {place(session, number)}"
    return "reset" if end.origin is Origin.REGISTER else f"register {number} of coprocessor 0"


def why_value(session: Session, name: str, value: int, found: Why) -> Value:
    return {"what": name, "position": found.position, "value": value, "from": _links_value(found.links),
            "steps": [{**tracing.value_of(node.step), **_named(session, node.step.pc), "bits": node.bits, "from": _links_value(node.links)}
                      for _, node in sorted(found.nodes.items(), reverse=True)],
            "ineffective": [{**tracing.value_of(it), **_named(session, it.pc)} for _, it in sorted(found.ineffective.items(), reverse=True)],
            "events": [{"event": it, **event_value(found.log[it])} for it in found.events()], "stopped": found.is_stopped}


def _links_value(links: Sequence[Link]) -> List[Value]:
    return [{"as": it.role.value, **({it.source.origin.value: it.source.number} if isinstance(it.source, End) else {"step": it.source})}
            for it in dict.fromkeys(links)]
