"""The desk: the pasts that lie on it, and one answer for each request of the page."""
from __future__ import annotations

import os
import re
import threading
import time
from collections import Counter
from dataclasses import dataclass, replace
from typing import Any, Dict, List, Optional, Sequence, Set, Tuple

from .. import expressions, places, saved
from .. import log as logs
from ..commands import words_of
from ..driver import Driver
from ..errors import Ended, Interrupted, Problem
from ..image import Image
from ..limits import GREATEST_POSITION, GREATEST_TIME, LINES, SPAN
from ..lines import Lines
from ..log import Event, Kind, changes
from ..reading import content_of
from ..reloading import OnDisk
from ..saved import Opened, lines_of_edit
from ..session import Session, counted
from ..step_lines import StepLines
from ..symbols import symbols_of
from ..whatif import causes as causes_of
from ..whatif import shown
from ..whatif import shrink as shrinking
from ..whatif.pasts import answer, undisturbed
from ..whatif.why import End, Link, Origin, Why
from ..whatif.words import Words
from . import jumps, rows
from .fields import GREATEST_ID, Fields
from .past import Past, State
from .rows import Asker, Cost, View
from .sources import Sources
from .sweep import Sweep
from .sweep import changes as changes_of

PIECE = 0.03  # seconds of what is asked while the hand rests
GLANCE = 0.3  # seconds between two answers with rows in that time
REACH = 8 * SPAN  # steps that are run between two looks at the clock
MOST_SHOWN = 1_500  # events in view that are shown one by one
MOST_EDITS, MOST_TRIED, MOST_WORDS, MOST_KEPT, MOST_HELD = 4_096, 512, 16, 64, 4_096
INTERRUPTED = "That was stopped."
OVER = "the server has ended: its terminal names the session with the unsaved edits, to which no edit is added any more"
WIRE = Kind.WIRE  # of an enumeration each look-up takes long: this one is made for each event
AS_NOW = "as now"  # what a sweep may want in place of a condition
WHY = "WHAT [control] [address] [to input]; WHAT is a register, an address of a word, or `sent L K`"
MOST_STEPS = 400  # of a chain that are shown
MOST_ENTERED = 10  # functions of which visits are looked for
SOURCE = 7  # lines of source before and after the present one


@dataclass
class Word:
    """A word that has a row."""

    name: str
    place: int


class Desk:
    """What the page shows, and what its hand does. Requests are answered one after another."""

    def __init__(self, driver: Driver, opened: Opened, end: int) -> None:
        self._driver = driver
        self._opened = opened
        name = opened.opening.log
        self._log_at_first = logs.read(content_of(name), name) if name else []  # before the edits of a session
        self.end = end
        self._cursor = driver.position or end  # where the page begins
        self._lock = threading.Lock()
        self._stop = False
        self._asker = Asker(driver)
        self._other: Optional[Asker] = None  # of a program for former pasts
        self._symbols = symbols_of(driver.image)
        self._lines = Lines(driver.image.elves)
        self._sources = Sources(driver.image.elves)
        self._session = Session(driver, self._symbols, origin=opened.origin)
        self._on_disk = OnDisk(self._session)
        self.words: List[Word] = []
        self._now = Past.of(driver.log)
        self._ghost: Optional[Past] = None  # that stands beside the present one
        self._kept: Dict[str, State] = {}
        self._shown: Optional[str] = None  # the name of the kept past that stands in the ghost's place
        self._done: List[State] = []
        self._undone: List[State] = []
        self._gesture: Optional[int] = None  # that is under way
        self._before: Tuple[Optional[Past], List[State]] = (None, [])  # the ghost and the steps of redo before that gesture
        self._edit: Dict[str, int] = {}  # the number of the last edit of each page
        self._saved: Tuple[Event, ...] = tuple(driver.log)
        self._handed: List[Tuple[Event, ...]] = []  # the logs of the files that pages asked for
        self._is_over = False
        self._sweep: Optional[Tuple[Any, Sweep]] = None
        self._sweeps = 0  # that were begun
        self._drawn_at = 0.0  # when rows were given last
        driver.wants_stop = lambda: self._stop or self._is_over

    def close(self) -> None:
        self._is_over = True
        with self._lock:
            self._driver.close()
            if self._other:
                self._other.driver.close()

    def unsaved(self) -> Optional[Tuple[Event, ...]]:
        """The log, where it is not saved."""
        log = tuple(self._now.log)
        return log if log != self._saved else None

    def unsaved_session(self) -> Optional[str]:
        """Ends all edits, and returns a session of the log if it is not saved."""
        self._is_over = True
        with self._lock:
            return None if self.unsaved() is None else self._session_text(self._cursor)

    def interrupt(self) -> None:
        """Ends what takes long."""
        self._stop = True

    # Words

    def name_words(self, names: Sequence[str]) -> None:
        """Gives words rows, by what the shell takes for their addresses."""
        made = []
        for name in names:
            try:
                self._driver.goto(self.end)
                address = expressions.number(name, self._driver, self._symbols)
                made.append(Word(name, places.physical(self._driver, address) & ~3))
            except Problem as problem:
                raise Problem(f"there is no word {name}: {problem}") from None
        if len(made) > MOST_WORDS:
            raise Problem(f"at most {MOST_WORDS} words have rows")
        self.words = made

    # Requests

    def answer(self, ask: Fields) -> Dict[str, Any]:
        """The answer to a request. A program that died is started anew with all edits, once."""
        with self._lock:
            if self._is_over:
                raise Problem(OVER)
            self._stop = False
            begun = time.perf_counter()
            for asker in self._askers():
                asker.cost = Cost()
            reply: Dict[str, Any] = {"number": ask.number("number", otherwise=0)}
            self._edits(ask, reply)
            try:
                self._asked(ask, reply)
            except Ended:
                self._asked(ask, reply)
            except Interrupted:
                reply["problem"] = INTERRUPTED
            reply["edit"] = self._edit.get(ask.text("page", ""), 0)
            reply["state"] = self._state()
            costs = [asker.cost for asker in self._askers()]
            reply["cost"] = {"questions": sum(it.questions for it in costs), "batches": sum(it.batches for it in costs),
                             "milliseconds": round(1000 * (time.perf_counter() - begun), 2)}
            return reply

    def _askers(self) -> List[Asker]:
        return [self._asker, *([self._other] if self._other else [])]

    def _state(self) -> Dict[str, Any]:
        driver = self._driver
        return {"image": os.path.basename(driver.image.name), "end": self.end, "cursor": self._cursor, "words": [it.name for it in self.words],
                "events": len(self._now.log), "undo": self._done[-1].made_by if self._done else None,
                "redo": self._undone[-1].made_by if self._undone else None, "kept": list(self._kept), "against": self._shown,
                "unsaved": self.unsaved() is not None, "changed": self._on_disk.changed()}

    def _asked(self, ask: Fields, reply: Dict[str, Any]) -> None:
        """All that a request asks after its edits."""
        self._in_step()
        if ask.has("saved"):
            self._saved = self._handed[ask.number("saved", 0, len(self._handed) - 1)]
        if ask.has("end"):
            self.end = min(-(-ask.number("end", SPAN) // SPAN) * SPAN, GREATEST_POSITION // SPAN * SPAN)
        if ask.has("words"):
            self.name_words([it.text("name") for it in ask.parts("words", MOST_WORDS)])
        position = min(ask.number("cursor", otherwise=0), self.end)
        if ask.has("jump"):
            found = self._jump(ask.part("jump"), position, reply)
            reply["jump"] = found
            position = position if found is None else min(found, self.end)
        reply["cursor_at"] = position
        for name, answered in (("sweep", self._swept), ("causes", self._causes), ("why", self._why), ("save", self._save)):
            if ask.has(name):
                reply[name] = answered(ask.part(name), position)
        if ask.has("view"):
            self._draw(ask, reply, position)

    # Drawing

    def _draw(self, ask: Fields, reply: Dict[str, Any], position: int) -> None:
        live = ask.flag("live")
        if ask.flag("rest"):
            reply["more"] = self._rest(self._view(ask.part("view"), True, self._driver), ask.flag("ghost"))
            if reply["more"] and time.perf_counter() < self._drawn_at + GLANCE:
                return
        self._drawn_at = time.perf_counter()
        view = self._view(ask.part("view"), live, self._driver)
        near = position <= view.until
        asked = [rows.cursor(self._now, position, [it.place for it in self.words], self._symbols, view.until, self._asker.hints)] if near else []
        *first, marks, text, functions, words = self._asker.run([*asked, *self._rows(self._now, view, position, self._asker)])
        if near:
            reply["cursor"] = self._with_source(first[0])
        held = {*ask.numbers("held", 0, GREATEST_ID, MOST_HELD), reply.get("event")}
        reply["now"] = self._drawn(self._now, view, held, marks, text, functions, words)
        ghost = self._ghost
        reply["has_ghost"] = ghost is not None
        if ask.flag("ghost") and ghost is not None:
            asker = self._for(ghost)
            view = self._view(ask.part("view"), live, asker.driver)
            reply["ghost"] = self._drawn(ghost, view, set(), *asker.run(self._rows(ghost, view, position, asker)))

    def _view(self, fields: Fields, live: bool, driver: Driver) -> View:
        begin = fields.number("begin", 0, self.end - 1)
        end = fields.number("end", begin + 1, self.end)
        # What comes after the view is asked where the run was made up to there. While the hand moves that is not so.
        until = min(self.end, -(-end // SPAN) * SPAN)
        if not live:
            until = max(until, min(self.end, driver.made // SPAN * SPAN))
        return View(begin, end, fields.number("columns", 16, 8_192), fields.number("samples", 4, rows.SAMPLES, rows.SAMPLES), until)

    def _rows(self, past: Past, view: View, position: int, asker: Asker) -> List[rows.Row]:
        return [rows.sent(past, view, asker.hints), rows.text(past, view, position),
                self._functions(past, view), rows.together([rows.word(past, it.place, view) for it in self.words])]

    def _drawn(self, past: Past, view: View, held: Set[Any], marks: Any, text: Any, functions: Any, words: Any) -> Dict[str, Any]:
        events, whole = _in_view(past, view, held)
        hidden = held.difference(it[0] for it in events)
        used = {(it.kind is WIRE, it.line) for it in past.log}
        return {"begin": view.begin, "end": view.end, "until": view.until, "sent": marks, "text": text, "functions": functions,
                "visits": {name: rows.visits(past, it, view) for name, it in self._entries(functions).items()},
                "words": words, "events": events, "thinned": len(events) < whole,
                "held": [_shown(*it) for it in zip(past.ids, past.log) if it[0] in hidden] if hidden else [], "levels": _levels(past, view.begin),
                "lines": sorted(line for is_wire, line in used if not is_wire), "wires": sorted(line for is_wire, line in used if is_wire)}

    def _with_source(self, cursor: Dict[str, Any]) -> Dict[str, Any]:
        line = self._lines.at(cursor["pc"])
        if line is not None:
            text = self._sources.of(line)
            first = max(1, line.number - SOURCE)
            cursor["source"] = {"file": line.file, "line": line.number, "first": first, "text": text[first - 1:line.number + SOURCE]}
        return cursor

    def _rest(self, view: View, with_ghost: bool) -> bool:
        """What is asked while the hand rests: the run up to its end, and exact stores. It takes little time. Whether there is more."""
        until = time.perf_counter() + PIECE
        pairs = [(self._asker, self._now)]
        ghost = self._ghost
        if with_ghost and ghost is not None:
            pairs.append((self._for(ghost), ghost))
        for asker, past in pairs:
            driver = asker.driver
            while driver.made < self.end:
                if time.perf_counter() > until:
                    return True
                driver.goto(min(self.end, driver.made + REACH))
                driver.value("reg 0")
        for asker, past in pairs:
            while any(asker.run([rows.followed(past, it.place, view) for it in self.words])):
                if time.perf_counter() > until:
                    return True
        functions = self._asker.run([self._functions(self._now, view)])[0]
        entries = self._entries(functions)
        while any(self._asker.run([rows.entered(self._now, it, view) for it in entries.values()])):
            if time.perf_counter() > until:
                return True
        return False

    def _functions(self, past: Past, view: View) -> rows.Row:
        return rows.functions(past, view, lambda counter: rows.function_of(self._symbols, counter))

    def _entries(self, functions: Dict[str, Any]) -> Dict[str, int]:
        """The addresses of the functions that have the most samples."""
        counts = Counter(functions["names"][name] for _, name in functions["at"])
        found = {name: self._symbols.address(name) for name, _ in counts.most_common(MOST_ENTERED)}
        return {name: address for name, address in found.items() if address is not None}

    # Pasts

    def _for(self, past: Past) -> Asker:
        """What asks in a former past. Its program is another one: the first would have to run again what differs, there and back."""
        if self._other is None:
            image = self._driver.image
            if self._driver.patches:
                image = Image(image.name, "image", self._driver.boot().write(), image.elves)
            self._other = Asker(Driver.start(image, past.log))
        _give(self._other.driver, past)
        return self._other

    def _in_step(self) -> None:
        """Gives the program the log as it stands."""
        with undisturbed(self._driver):
            _give(self._driver, self._now)

    def _edits(self, ask: Fields, reply: Dict[str, Any]) -> None:
        """Makes edits. An edit that was made already, because the reply to it was lost, is not made again. The edits of a gesture are one step
        of undo. The reply lists the gestures of refused edits."""
        page = ask.text("page", "")
        for edit in ask.parts("edits", MOST_EDITS):
            number = edit.number("number", 1, GREATEST_ID)
            if number <= self._edit.get(page, 0):
                continue
            self._edit[page] = number
            gesture = 0
            try:
                gesture = edit.number("gesture", 0, GREATEST_ID, 0)
                self._make(edit)
            except (Problem, Interrupted) as problem:
                reply["problem"] = str(problem) or INTERRUPTED
                reply.setdefault("refused", []).append(gesture)

    def _make(self, edit: Fields) -> None:
        name = edit.text("do")
        if name not in ("keep", "against"):
            self._sweep = None
        if name == "undo":
            self._go(self._done, self._undone)
        elif name == "redo":
            self._go(self._undone, self._done)
        elif name in ("keep", "against", "back"):
            self._on_kept(name, edit)
        elif name in ("add", "change", "delete"):
            identity = edit.identity()
            # What may be refused, or changes nothing, comes before the gesture becomes a step of undo.
            if name == "add":
                event = edit.event()
                self._now.check_new(identity)
            else:
                event = self._now.event(identity)
                if name == "change":
                    most = 1 if event.kind == Kind.WIRE else 255
                    made = replace(event, time=edit.number("time", 0, GREATEST_TIME, event.time), byte=edit.number("byte", 0, most, event.byte))
                    if made == event:
                        return
                    event = made
            self._begin(edit, edit.text("name", name))
            if name == "add":
                self._now.add(identity, event)
            elif name == "change":
                self._now.change(identity, event.time, event.byte)
            else:
                self._now.delete(identity)
        elif name == "cancel":
            self._cancel(edit)
        elif name == "shrink":
            self._shrink(edit)
        else:
            raise Problem(f"there is no edit `{name}`")

    def _begin(self, edit: Fields, name: str) -> None:
        """Keeps the state before a gesture."""
        gesture = edit.number("gesture", 1, GREATEST_ID)
        if gesture != self._gesture:
            self._gesture = gesture
            self._before = self._ghost, list(self._undone)
            self._note(name)

    def _cancel(self, edit: Fields) -> None:
        """Makes the log, undo and redo as they were before a gesture."""
        if edit.number("gesture", 1, GREATEST_ID) != self._gesture:
            raise Problem("the gesture was not cancelled, as another page has edited the log meanwhile: `Undo` takes back one edit after another")
        ghost, self._undone = self._before
        self._gesture = None
        self._now = self._now.at(self._done.pop())
        self._stand_beside(ghost)

    def _note(self, name: str) -> None:
        self._done.append(self._now.state(name))
        self._undone.clear()
        self._stand_beside(self._now.copy())

    def _stand_beside(self, past: Optional[Past]) -> None:
        """Lets the former past be the ghost, where no kept one is."""
        if self._shown is None:
            self._ghost = past

    def _go(self, source: List[State], target: List[State]) -> None:
        """Takes back the last step of `source` that changed the log. A drag that came back to where it began did not."""
        former, self._gesture = self._now, None
        while source and self._now is former:
            state = source.pop()
            target.append(former.state(state.made_by))
            if list(state.log) != former.log:
                self._now = former.at(state)
                self._stand_beside(former)

    def _replace(self, state: State, name: str) -> None:
        """Puts another log in place of the present one, as a step of undo unless it is the same."""
        if list(state.log) != self._now.log:
            self._note(name)
            self._gesture = None
            self._now = self._now.at(state)

    def _on_kept(self, do: str, edit: Fields) -> None:
        """Keeps this past under a name, lets one stand beside the present one, or goes back to one."""
        if do == "against" and not edit.has("name"):
            self._shown = None
            self._ghost = self._now.at(self._done[-1]) if self._done else None
            return
        name = edit.text("name").strip()
        if do == "keep":
            if not name or len(self._kept) >= MOST_KEPT and name not in self._kept:
                raise Problem(f"a past is kept under a name, and at most {MOST_KEPT} are")
            self._kept[name] = self._now.state()
            if self._shown == name:
                self._ghost = self._now.copy()
            return
        if name not in self._kept:
            raise Problem(f"there is no past {name}")
        if do == "against":
            self._shown = name
            self._ghost = self._now.at(self._kept[name])
        else:
            self._replace(self._kept[name], f"go to {name}")

    # Jumps, sweeps, and what is asked of many pasts

    def _jump(self, jump: Fields, position: int, reply: Dict[str, Any]) -> Optional[int]:
        """Returns a position, or None if there is none. An event that is found is named in the reply."""
        driver, forward, to = self._driver, jump.flag("forward"), jump.text("to")
        driver.goto(position)
        if to == "store":
            return jumps.store(driver, self._place(jump, position), forward, self.end)
        if to == "send":
            return jumps.send(driver, jump.number("line", 0, 3), forward, self.end)
        if to == "visit":
            return jumps.visit(driver, self._address(jump.text("function")), forward, self.end)
        if to == "event":
            index = jumps.event(self._now.log, jump.number("line", 0, LINES - 1), jump.flag("wire"), position, forward, self.end)
            if index is None:
                return None
            reply["event"] = self._now.ids[index]
            return self._now.log[index].time
        if to == "line":
            return jumps.line(driver, self._lines, forward, self.end)
        if to == "byte":
            driver.goto(self.end)
            return driver.find(jump.number("line", 0, 3), jump.number("place"))
        ghost = self._ghost
        if to != "difference" or ghost is None:
            raise Problem("there is nothing of that kind to go to" if to != "difference" else "there is no other past to compare with")
        other = self._for(ghost).driver
        return jumps.difference(driver, other, self._now, ghost, [it.place for it in self.words], position, self.end)

    def _address(self, name: str) -> int:
        """Returns the address of a function of the page: `name` is its symbol, or the digits of an address."""
        address = self._symbols.address(name)
        if address is not None:
            return address
        if not re.fullmatch("(0x)?[0-9a-f]{1,8}", name):
            raise Problem(f"there is no function {name}: choose a row of the page, or an address of up to 8 hexadecimal digits")
        return int(name, 16)

    def _place(self, jump: Fields, position: int) -> int:
        """The physical address of a word: one that has a row, or one that an address of the page leads to."""
        if jump.has("word"):
            number = jump.number("word", 0, MOST_WORDS)
            if number >= len(self.words):
                raise Problem("there is no such word")
            return self.words[number].place
        return places.physical(self._driver, jump.number("address", 0, 0xFFFF_FFFF)) & ~3

    def _swept(self, ask: Fields, position: int) -> Dict[str, Any]:
        """The outcomes of some more pasts of a sweep, at a position after them."""
        identity, wanted = ask.identity(), ask.text("wanted", "").strip()
        index = self._now.index(identity)
        begin = min(self._now.log[index].time, ask.number("begin", 0, GREATEST_TIME, 0))
        at = ask.number("at", begin + 1, self.end, self.end)
        key = (identity, wanted, begin, at, *(ask.has(it) for it in ("steps", "values", "without")))
        if self._sweep is None or self._sweep[0] != key:
            as_now = wanted == AS_NOW
            self._sweeps += 1
            self._sweep = key, Sweep(self._driver, begin, at, self._condition(wanted) if wanted and not as_now else None, as_now)
        sweep = self._sweep[1]
        most = 1 if self._now.log[index].kind == Kind.WIRE else 255
        those = changes_of(self._now.log, index, ask.numbers("steps", 0, GREATEST_TIME, MOST_TRIED),
                           ask.numbers("values", 0, most, 256), ask.flag("without"))
        return {"tried": sweep.tried(self._driver, those) if those else [], "outcomes": sweep.outcomes(), "present": sweep.present,
                "serial": self._sweeps}

    def _condition(self, text: str) -> Any:
        """A condition of the shell's, or a text in quotes that a line is to send."""
        if not text.strip():
            raise Problem("name a condition: a text in quotes that line 0 is to send, or one such as `word session+32 == 3`")
        if text[:1] in ("'", '"'):
            text = f"console {text}"
        return Words(self._session, (), "a text in quotes, or a condition as the shell's `shrink` takes it").condition(list(words_of(text)))[1]

    def _causes(self, ask: Fields, position: int) -> Dict[str, Any]:
        """The events that decide what is asked for at the cursor."""
        self._driver.goto(position)
        line = Words(self._session, words_of(ask.text("what")), "a register, an address of a word, `sent L K`, or `console [L]`")
        if not line.rest:
            raise Problem("causes of what? A register, an address of a word, `sent L K`, or `console [L]`")
        name, question = line.question(line.rest)
        line.end()
        found = causes_of.causes(self._driver, question, position)
        return {"what": name, "by_value": [self._now.ids[it] for it in found.by_value],
                "by_being_there": [self._now.ids[it] for it in found.by_being_there], "events": found.events, "asked": found.asked}

    def _why(self, ask: Fields, position: int) -> Dict[str, Any]:
        """The steps that something comes from at the cursor. A row is a step, or a text where steps are not shown."""
        session = self._session
        name, question, found = Words(session, words_of(ask.text("what")), WHY).why(position)
        self._stop = False  # what was found is shown
        self._driver.goto(position)
        value = shown.value_of(session, question, answer(self._driver, question))
        lines, made = StepLines(session), []
        stretches, rest = shown.shown_steps(found, MOST_STEPS)
        for turn, more in stretches:
            made += [{"step": it.step.step, "text": lines.without_number(it.step), "from": self._comes_from(found, it.links)} for it in turn]
            if more:
                made.append({"text": shown.same_again(turn, more)})
        if rest:
            made.append({"text": f"and {counted(rest, 'earlier step')}"})
        if found.is_stopped:
            made.append({"text": "what comes before was not looked at"})
        return {"what": name, "value": value, "position": position, "from": self._comes_from(found, found.links), "rows": made,
                "steps": len(found.nodes), "events": [self._now.ids[it] for it in found.events()]}

    def _comes_from(self, found: Why, links: Sequence[Link]) -> List[Any]:
        """What something comes from, by how it comes from it: texts, with the step, or the name and the step of the event."""
        made = []
        for how, sources in shown.sources_of(self._session, found, links):
            those: List[Dict[str, Any]] = []
            for text, source in sources:
                if not isinstance(source, End):
                    those.append({"step": source})
                elif source.origin is Origin.EVENT and source.number is not None:
                    event = found.log[source.number]
                    those.append({"text": f"{shown.what(event)}, step {event.time:,}", "event": self._now.ids[source.number], "step": event.time})
                else:
                    those.append({"text": text})
            made.append([how, those])
        return made

    def _shrink(self, edit: Fields) -> None:
        """Makes the log the smallest in which a condition still comes true."""
        self._in_step()
        self._driver.goto(self.end)
        found = shrinking.shrink(self._driver, self._condition(edit.text("until")), self.end)
        self._replace(State(tuple(found.log), tuple(_same(self._now, found.log))), f"shrink until {edit.text('until')}")

    # Saving

    def _save(self, ask: Fields, position: int) -> Dict[str, Any]:
        """Returns the content of a file, as digits, and the files that another program changed since the page opened them. If all edits
        are in the file, `saved` is the number with which a page confirms that the browser has it."""
        kind = ask.text("kind")
        driver = self._driver
        if kind == "log":
            content = logs.write(self._now.log)
        elif kind == "image":
            content = driver.boot().write()
        elif kind == "session":
            content = self._session_text(position).encode("utf-8", "surrogateescape")
        elif kind == "text":
            content = "".join(f"{it}\n" for it in logs.show(self._now.log)).encode()
        else:
            raise Problem(f"there is no file of kind `{kind}`")
        made: Dict[str, Any] = {"kind": kind, "content": content.hex(), "changed": self._opened.origin.seen.changed()}
        if kind in ("log", "session", "text"):
            self._handed.append(tuple(self._now.log))
            made["saved"] = len(self._handed) - 1
        return made

    def _session_text(self, position: int) -> str:
        """A session: what was opened, then the edits of each gesture."""
        opened = self._opened
        lines = [it for it in opened.commands if it.partition(" ")[0] != "goto"]
        states = [*self._done, self._now.state()]
        for before, after in zip(states, states[1:]):
            made = changes(before.log, after.log)
            lines += lines_of_edit(before.made_by, made) if made else []
        lines.append(f"goto {position:,}")
        return saved.text_of(opened.origin, None, self._log_at_first, lines, True)


def _give(driver: Driver, past: Past) -> None:
    """Makes the log of a program that of a past."""
    driver.values(changes(driver.log, past.log))
    del driver.journal[:]


def _in_view(past: Past, view: View, held: Set[Any]) -> Tuple[List[List[int]], int]:
    """Returns the events in view (number, step, line, value and kind), and how many there are. If there are very many, those are returned
    that are held, and the last one of each row in each of some stretches of steps."""
    first, end = past.upto(view.begin - 1), past.upto(view.end)
    found = list(zip(past.ids[first:end], past.log[first:end]))
    if len(found) > MOST_SHOWN:
        rows_used = len({(it.line, it.kind is WIRE) for _, it in found})
        apart = -(-(view.end - view.begin) * rows_used // MOST_SHOWN)
        last = {(it.time // apart, it.line, it.kind is WIRE): identity for identity, it in found}
        chosen = held.union(last.values())
        found = [it for it in found if it[0] in chosen]
    return [_shown(*it) for it in found], end - first


def _shown(identity: int, event: Event) -> List[int]:
    return [identity, event.time, event.line, event.byte, int(event.kind)]


def _levels(past: Past, begin: int) -> Dict[int, int]:
    """The level of each external line before a step."""
    return {it.line: it.byte for it in past.log[:past.upto(begin - 1)] if it.kind == Kind.WIRE}


def _same(past: Past, log: Sequence[Event]) -> List[int]:
    """Names for the events of a log that was made smaller: those of the events that they were."""
    made, at = [], 0
    for event in log:
        while (past.log[at].time, past.log[at].line, past.log[at].kind) != (event.time, event.line, event.kind):
            at += 1
        made.append(past.ids[at])
        at += 1
    return made
