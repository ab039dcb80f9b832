"""Runs inside gdb, where `bin/wb gdb` loads it: the command `wb`, a prompt that shows the position, and a word before gdb
quits without what was edited."""
from __future__ import annotations

import os
import re
import select
import signal
from contextlib import contextmanager
from typing import Callable, Iterator, Optional

import gdb

# Their words are no numbers.
AS_THEY_ARE = ("arrive", "assert", "assert-console", "catch", "causes", "compare", "devices", "expect", "fuzz", "help", "hits", "jumps", "load", "save",
               "save-image", "save-log", "shrink", "symbols", "trace", "try", "type", "until", "wb", "when", "why")
RUNS = ("expect", "until")  # they go on, and are run as `continue` is
MOVES = [begin + move for move in ("continue", "step", "next", "stepi", "nexti", "finish") for begin in ("", "reverse-")]
MOVES += ["until", "advance"]
REFUSED = "refused: "  # begins what the stub says where it can't do a thing

QUOTES = frozenset("'\"")
COMPARED = re.compile(r"[=<>!]")
NUMBER = re.compile(r"\d[\w,]*")
IN_GROUPS = re.compile(r"(?<![\w.,])\d{1,3}(?:,\d{3})+(?![\w,])")
WITHOUT_NUMBER = (gdb.TYPE_CODE_ARRAY, gdb.TYPE_CODE_STRUCT, gdb.TYPE_CODE_UNION, gdb.TYPE_CODE_FUNC)
REGISTER = re.compile(r"\$[a-z]\w*")  # of `writer`, which then means the register and not the word that it points to
OF_PLACES = ("causes", "hits", "when", "why")  # the first of their words is mostly a place
OF_VALUES = ("assert", "fuzz", "shrink", "try")  # they have places or values among their words
SIGN = re.compile(r"==|!=|<=|>=|<|(?<!-)>")
C_PLACE = re.compile(r"^[&*(]|\w\.[A-Za-z_]|->|\w\[")  # what only gdb understands
OF_SHELL = re.compile(r"(?:byte|half)?\[.*|[\w./]*\.\w+:\w+(?:[+-]\w+)*|[A-Za-z_]\w*(?:[+-]\w+)*")
WORDS_OF_SHELL = ("pos", "position", "last", "pc", "next", "console", "sent", "exception")
OF_WORDS = ("dis", "mem", "patch", "stores", "visit", "where", "writer")  # their numbers have 32 bits, also those that gdb shows below 0


def flush() -> None:
    """Makes gdb forget what it read, and also the values that it compares watches with: the run has moved, or is another
    one."""
    gdb.execute("maintenance flush register-cache", to_string=True)
    gdb.execute("maintenance flush dcache", to_string=True)
    for watch in gdb.breakpoints():
        if watch.type == gdb.BP_HARDWARE_WATCHPOINT and watch.enabled:
            watch.enabled = False
            watch.enabled = True


class CtrlC:
    """Ctrl-C while the stub answers. gdb would leave the stub at a second one, with all edits. So it is kept from gdb, and the
    stub has it from front/bezhakkom/interrupts.py."""

    KEY = {signal.SIGINT}

    def __init__(self) -> None:
        self._file = os.environ.get("BEZHAKKOM_INTERRUPTS")
        self._is_new = True  # nothing ran since the prompt
        self._has_ended = False  # Ctrl-C has ended a run since the prompt
        self._is_mi = bool(os.environ.get("BEZHAKKOM_MI"))  # gdb has no prompt, and each line is one command
        if self._is_mi and self._file:
            signal.pthread_sigmask(signal.SIG_BLOCK, self.KEY)

    def begin(self) -> None:
        """Something runs. What was pressed before it was typed is forgotten."""
        if self._is_new and self._file and os.path.exists(self._file):
            os.truncate(self._file, 0)
        self._is_new = False

    def hold(self) -> None:
        """Keeps it from gdb, where the stub has it."""
        if self._file:
            signal.pthread_sigmask(signal.SIG_BLOCK, self.KEY)
        self.begin()

    @contextmanager
    def held(self) -> Iterator[None]:
        """Keeps it from gdb within a `with`. After that gdb has it as before: at once, also if it was pressed meanwhile, unless it is held
        by what goes on around this. A run that gdb starts is held as a whole: a Quit would leave gdb in the middle of it, without
        the registers that the stub describes, or waiting for a stop that it has taken already."""
        before = signal.pthread_sigmask(signal.SIG_BLOCK, ())
        self.hold()
        try:
            yield
        finally:
            signal.pthread_sigmask(signal.SIG_SETMASK, before)

    def drop(self) -> None:
        """Hands it to gdb again, if it is pressed from now on. Under MI gdb never has it: a Quit in the middle of a stop's record would leave
        an editor without that record. Nothing that gdb does there waits for it."""
        while signal.sigtimedwait(self.KEY, 0):
            pass
        if not (self._is_mi and self._file):
            signal.pthread_sigmask(signal.SIG_UNBLOCK, self.KEY)

    def go(self) -> None:
        """A run or steps begin. Where Ctrl-C ended those before, in the same line, loop or script, that ends here too."""
        if self._has_ended:
            self._has_ended = False
            raise gdb.GdbError("Quit")
        self.hold()

    def stopped(self, event: object) -> None:
        """A run or steps have stopped."""
        self._has_ended = getattr(event, "stop_signal", "") == "SIGINT" and not self._is_mi
        self._is_new = self._is_new or self._is_mi
        self.drop()

    def prompted(self) -> None:
        """gdb shows its prompt."""
        self._is_new, self._has_ended = True, False
        self.drop()


ctrl_c = CtrlC()


def asked(line: str, show: Callable[[str], None] = lambda shown: None) -> str:
    """What the stub shows for a line of `monitor`. Where it refuses, that is an error. It is shown before gdb has the Ctrl-C that ended
    it: gdb shows nothing after that."""
    with ctrl_c.held():
        try:
            shown = gdb.execute(f"monitor {line}", to_string=True) or ""
        except gdb.error as error:
            raise gdb.GdbError(str(error)) from None
        done, refused, reason = f"\n{shown}".partition(f"\n{REFUSED}")
        if refused:
            gdb.write(f"{done[1:]}\n" if done else "")
            raise gdb.GdbError(reason.rstrip())
        show(shown)
        return shown


def as_number(word: str, of_words: bool) -> str:
    """A word of a command: a number stays, and anything else is an expression of gdb's, without blanks."""
    if word.startswith("p:"):
        return "p:" + as_number(word[2:], of_words)
    if NUMBER.fullmatch(word):
        return word
    plain = IN_GROUPS.sub(lambda it: it[0].replace(",", ""), word)
    if "," in plain:
        raise gdb.GdbError(f"{word} is no number: a comma stands before three digits, as in 40,024")
    try:
        value = gdb.parse_and_eval(plain)
        if value.type.strip_typedefs().code in WITHOUT_NUMBER:
            value = value.address
        is_word = of_words or value.type.strip_typedefs().code == gdb.TYPE_CODE_PTR
        return str(int(value) & 0xFFFF_FFFF if is_word else int(value))
    except gdb.error as error:
        raise gdb.GdbError(f"{word}: {error}") from None


def as_place(word: str, of_code: bool) -> str:
    """A word that may be the stub's: an expression that begins with & is gdb's, and of code a line and the number of a breakpoint."""
    if word.startswith("&") and not COMPARED.search(word):
        return f"{int(as_number(word, True)):#x}"
    stop = next((it for it in gdb.breakpoints() if of_code and str(it.number) == word), None)
    where = stop.location if stop else word if of_code and ":" in word and not word.startswith("p:") else None
    if stop and stop.condition:
        raise gdb.GdbError(f"breakpoint {word} has a condition: `hits` lists all visits of an address, or `hits exception [KIND]` exceptions")
    if stop and stop.type not in (gdb.BP_BREAKPOINT, gdb.BP_HARDWARE_BREAKPOINT):
        raise gdb.GdbError(f"stop {word} is no breakpoint; `wb stores` lists the stores into a word")
    if where is None:
        return word
    try:
        places = list(gdb.decode_line(where)[1] or ())
    except gdb.error as error:
        raise gdb.GdbError(str(error)) from None
    if len(places) != 1:
        raise gdb.GdbError(f"{where} is {len(places)} places: `hits` takes the address of one")
    return f"{places[0].pc & 0xFFFF_FFFF:#x}"


def as_word(word: str, of_words: bool) -> str:
    """A word of a command: what gdb can evaluate is gdb's, and the rest may be the shell's, such as t0, [sp+4] and a.c:helper."""
    try:
        return as_number(word, of_words)
    except gdb.GdbError:
        if OF_SHELL.fullmatch(word):
            return word
        raise


def as_side(text: str) -> str:
    """A side of a condition: the value of what gdb can evaluate."""
    text = text.strip()
    if not text or text in WORDS_OF_SHELL or text[0] in QUOTES or text.startswith("$"):
        return text
    try:
        return as_number(text.replace(" ", ""), False)
    except gdb.GdbError:
        return text


def as_lvalue(word: str) -> str:
    """A place: the address of a variable or of a part of one that only gdb knows. Other names and sums are the shell's."""
    if word in WORDS_OF_SHELL or word[:1] in QUOTES or not C_PLACE.search(word) and not is_of_scope(word):
        return word
    try:
        value = gdb.parse_and_eval(word)
        return f"{int(value if value.address is None else value.address) & 0xFFFF_FFFF:#x}"
    except gdb.error:
        return word


def is_of_scope(word: str) -> bool:
    """Whether a name is a variable of the present scope, and no global one."""
    try:
        found = gdb.lookup_symbol(word)[0] if word.isidentifier() else None
        return bool(found and found.is_variable and not gdb.lookup_global_symbol(word))
    except gdb.error:
        return False


def of_gdb(name: str, words: list[str]) -> list[str]:
    """The words of a command that asks for places or compares values, where what gdb can evaluate is evaluated by gdb."""
    text = " ".join(words)
    compared = SIGN.search(text)
    if compared and QUOTES.intersection(text[:compared.start()]):
        return words
    if name == "assert" and compared:
        return [as_side(text[:compared.start()]), compared[0], as_side(text[compared.end():])]
    if name == "when" and compared:
        right, *rest = re.split(r" (?=at |--)", text[compared.end():], maxsplit=1)
        return [as_lvalue(as_place(text[:compared.start()].strip(), False)), compared[0], as_side(right), *rest]
    made: list[str] = []
    is_place = name in OF_PLACES
    for word in words:
        made.append(as_lvalue(as_place(word, name == "hits") if name in OF_PLACES and not made else word) if is_place else word)
        is_place = word in ("show", "word") or is_place and name == "try" and word not in ("until", "at")
    return made


def whole(name: str) -> str:
    """The name that a beginning is of, where its words are no numbers; the stub knows the others."""
    found = [it for it in AS_THEY_ARE if len(name) > 2 and it.startswith(name)]
    return found[0] if len(found) == 1 else name


def here() -> Optional[tuple[int, int]]:
    """The position and the PC, where there is a run."""
    try:
        frame = gdb.newest_frame()
        return int(frame.read_register("position")), int(frame.read_register("pc"))
    except gdb.error:
        return None


class Workbench(gdb.Command):
    """Asks the workbench: wb LINE. `wb help` lists the commands.
Numbers may be expressions without blanks: wb writer &session.length, wb goto $position-100."""

    def __init__(self) -> None:
        super().__init__("wb", gdb.COMMAND_RUNNING)

    @ctrl_c.held()
    def invoke(self, line: str, from_terminal: bool) -> None:
        line = line or "help"
        name, *words = line.split()
        name = whole(name)
        before_quit.forget()
        if name in (*OF_PLACES, *OF_VALUES) and words:
            line = " ".join([name, *of_gdb(name, words)])
        elif name not in AS_THEY_ARE and not QUOTES.intersection(line) and not (name == "writer" and REGISTER.fullmatch(" ".join(words))):
            line = " ".join([name, *(as_word(word, name in OF_WORDS) for word in words)])
        if name in RUNS:
            ctrl_c.go()
            asked(f"next-run {line}")
            gdb.execute("continue")
            return
        before = here()
        try:
            if name == "save":
                stops.keep()
            asked(line, gdb.write)
        finally:
            flush()
        image.follow()
        if here() != before:
            gdb.execute("frame")


class CatchException(gdb.Command):
    """Stops where an exception was taken, of a kind or of any: catch exception [KIND].
KIND is int, mod, tlbl, tlbs, adel, ades, ibe, dbe, sys, bp, ri, cpu or ov. It makes a breakpoint at each handler that may be entered so.
$exception is the code of the exception that the last step took, or -1."""

    KINDS = "int mod tlbl tlbs adel ades ibe dbe sys bp ri cpu ov".split()
    HANDLERS = 0x8000_0080, 0xBFC0_0180
    OF_REFILLS = 0x8000_0000, 0xBFC0_0100

    def __init__(self) -> None:
        super().__init__("catch exception", gdb.COMMAND_BREAKPOINTS)

    def invoke(self, line: str, from_terminal: bool) -> None:
        kind = line.strip()
        if kind and kind not in self.KINDS:
            raise gdb.GdbError(f"there is no kind {kind} of exceptions: they are {', '.join(self.KINDS)}, and without one all are caught")
        code = self.KINDS.index(kind) if kind else None
        condition = "$exception >= 0" if code is None else f"($cause >> 2 & 31) == {code} && $exception == {code}"
        for handler in (*self.HANDLERS, *(self.OF_REFILLS if kind in ("", "tlbl", "tlbs") else ())):
            gdb.execute(f"break *{handler:#010x} if {condition}")


class Shell(gdb.Function):
    """Takes the place of gdb's `$_shell`, which runs programs of this system: a macro of an ELF, or a condition of a session, could call it
    wherever gdb evaluates an expression."""

    def __init__(self) -> None:
        super().__init__("_shell")

    def invoke(self, *words: object) -> int:
        raise gdb.GdbError("`$_shell` is off, as a macro of an ELF could call it: `shell LINE` runs a program")


class Stops:
    """Breakpoints and watches as lines, which a session keeps. A session may come from anybody, so that such a line is one of these
    commands, and calls no function of gdb's: their names begin with `$_`. The stub says which lines are plain. The others are text that
    gdb evaluates with the macros of the session's ELF: the user sees them, and says whether gdb is to have them."""

    COMMAND = re.compile(r"(disabled )?((?:break|tbreak|hbreak|thbreak|watch) .*)")
    NAMES = {gdb.BP_BREAKPOINT: "break", gdb.BP_HARDWARE_BREAKPOINT: "hbreak", gdb.BP_WATCHPOINT: "watch",
             gdb.BP_HARDWARE_WATCHPOINT: "watch"}
    FOLDERS = re.compile(r"^/.*/(?=[^/:]+:\d+$)")  # of a source, which is elsewhere where the session is opened

    def __init__(self) -> None:
        self._not_made: list[str] = []  # lines of the session, which a later save keeps

    def make(self) -> None:
        """Makes those of the session that was opened."""
        if not here():
            return
        lines = [line.partition(" ")[::2] for line in asked("session-stops").splitlines()]
        texts = [line for kind, line in lines if kind == "text"]
        are_wanted = not texts or self._are_wanted(texts)
        for kind, line in lines:
            try:
                if kind == "text" and not are_wanted:
                    self._not_made.append(line)
                else:
                    self._make(line)
            except gdb.error as error:
                self._not_made.append(line)
                gdb.write(f"the session's stop `{printable(line)}` can't be made: {error}\n")

    def _are_wanted(self, lines: list[str]) -> bool:
        """Shows the lines, and asks whether they are to be made."""
        gdb.write("".join(["gdb evaluates these stops of the session, with the macros of its ELF, as if they were typed here:\n",
                           *(f"  {printable(line)}\n" for line in lines)]))
        if not (os.isatty(0) and os.isatty(1)):
            gdb.write("they are not made, because without a terminal nobody can be asked: type those that you trust\n")
            return False
        return answer("Make them? (y or n) ").strip().lower() in ("y", "yes")

    def _make(self, line: str) -> None:
        found = self.COMMAND.fullmatch(line)
        if not found or "$_" in line:
            raise gdb.error("it is no breakpoint or watch that a session can have")
        gdb.execute(found[2], to_string=True)
        if found[1]:
            max(gdb.breakpoints(), key=lambda it: it.number).enabled = False

    def keep(self) -> None:
        """Hands those that there are to the session that is saved, and says what it can't have."""
        asked("gdb none")
        for line in self._not_made:
            asked(f"gdb {line}")
        for it in gdb.breakpoints():
            made = self._line(it)
            if made:
                asked(f"gdb {made}")
            else:
                gdb.write(f"not saved: stop {it.number}: a session keeps breakpoints, and watches of stores, without `$_` in them\n")
            for name, value in ("commands", it.commands), ("count for `ignore`", it.ignore_count):
                if made and value:
                    gdb.write(f"not saved: the {name} of stop {it.number}\n")

    def _line(self, stop: gdb.Breakpoint) -> Optional[str]:
        name, where = self.NAMES.get(stop.type), self.FOLDERS.sub("", stop.location or stop.expression or "")
        line = " ".join([f"{name} {where}", *([f"if {stop.condition}"] if stop.condition else [])])
        if not name or not where or "$_" in line:
            return None
        return ("" if stop.enabled else "disabled ") + ("t" if stop.temporary else "") + line


    def places(self) -> dict[int, tuple[str, str]]:
        """Where each stop is: what it was made with, and its addresses."""
        return {it.number: (it.location or it.expression or "", self._addresses(it)) for it in gdb.breakpoints()}

    def _addresses(self, stop: gdb.Breakpoint) -> str:
        try:
            if stop.location:
                return ", ".join(f"{it.pc & 0xFFFF_FFFF:#010x}" for it in gdb.decode_line(stop.location)[1] or ())
            return f"{int(gdb.parse_and_eval(f'&({stop.expression})')) & 0xFFFF_FFFF:#010x}" if stop.expression else ""
        except gdb.error:
            return ""

    def tell_moved(self, before: dict[int, tuple[str, str]]) -> None:
        """Names the stops that are elsewhere than before, as symbols of another program were read."""
        for number, (where, addresses) in self.places().items():
            _, earlier = before.get(number, (where, addresses))
            if addresses and addresses != earlier:
                gdb.write(f"stop {number} moved with {where}" + (f", from {earlier}" if earlier else "") + f" to {addresses}\n")
            elif earlier and not addresses:
                gdb.write(f"stop {number} was at {where}, which this program does not have: `delete {number}` removes it\n")


stops = Stops()


def answer(question: str) -> str:
    """Asks the user on the terminal, and returns the line that is typed, or '' at Ctrl-C, which would not end `input` in gdb."""
    gdb.write(question)
    gdb.flush()
    typed = b""
    try:
        while not typed.endswith(b"\n"):
            if select.select([0], [], [], 0.1)[0]:
                key = os.read(0, 1)
                if not key:
                    break
                typed += key
    except KeyboardInterrupt:
        typed = b""
        gdb.write("\n")
    return typed.decode("latin-1")


def printable(text: str) -> str:
    """Returns a text of a file with escapes in place of what a terminal obeys, as printable.py does: gdb's Python has no package to import."""
    return "".join(it if it.isprintable() else f"\\x{ord(it):02x}" if ord(it) < 0x100 else f"\\u{ord(it):04x}" for it in text)


def quoted(name: str) -> str:
    """The name of a file as a word of a line: it may have blanks."""
    quote = '"' if "'" in name else "'"
    return f"{quote}{name}{quote}"


class Image:
    """The image of the run. gdb has the symbols of its ELF: after `load`, and after an `undo` of that, those of another one."""

    def __init__(self) -> None:
        self._digest = ""  # of the ELF whose symbols gdb has

    def read(self, file: str, shown: str) -> None:
        """Reads the symbols of an ELF by the name that the user knows."""
        gdb.write(f"Reading symbols from {printable(shown)}...\n")
        gdb.execute(f"file {quoted(file)}", to_string=True)

    def begin(self) -> None:
        """gdb has read the symbols at its start."""
        self._digest = self._asked()[0]

    def follow(self) -> None:
        """Lets gdb have the symbols of the image, and names the stops that move with them."""
        digest, file, name, _ = self._asked()
        if digest == self._digest:
            return
        self._digest = digest
        if file:
            before = stops.places()
            position = here()
            # gdb 13 crashes if it stopped at the start of an inlined function, whose symbol `file` frees: it keeps a pointer to
            # that symbol for as long as the PC stays. A frame at another PC drops the pointer.
            asked("goto 0")
            flush()
            gdb.newest_frame().type()
            gdb.execute(f"file {quoted(file)}", to_string=True)
            try:
                gdb.execute(f"exec-file {quoted(name)}", to_string=True)  # gdb shows its name: `file` may be one for a while
            except gdb.error:  # what is on disk is damaged, or gone
                gdb.execute(f"exec-file {quoted(file)}", to_string=True)
            gdb.execute("maintenance flush source-cache", to_string=True)  # `file` keeps the text of sources that were edited since
            asked(f"goto {position[0] if position else 0}")
            flush()
            stops.tell_moved(before)

    def name(self) -> str:
        """The file of the image, by the name that the user knows, or '' if it is no ELF."""
        return self._asked()[2]

    @ctrl_c.held()
    def load(self, name: str) -> None:
        before_quit.forget()
        before = here()
        asked("goto 0")
        try:
            gdb.write(asked(f"load {quoted(name)}"))
        except gdb.GdbError:
            asked(f"goto {before[0] if before else 0}")
            raise
        flush()  # gdb is to know position 0, to which `follow` returns
        self.follow()
        flush()

    def load_changed(self) -> None:
        """Loads the ELF if it was built again since it was loaded."""
        _, file, name, state = self._asked()
        if state != "changed":
            if file != name:
                gdb.write(f"this is a run of {name} as it was before the `load` that was taken back: `load` loads it as it is on disk\n")
            return
        gdb.write(f"{name} has changed on disk: it is loaded, and the log stays\n")
        try:
            self.load(name)
        except gdb.GdbError as error:
            raise gdb.GdbError(f"it can't be loaded: {error}\nNothing runs. Build it again, or move the old file back.") from None

    def _asked(self) -> list[str]:
        """What the stub says of the ELF: a digest, a file, the user's name for it, and whether that has changed on disk."""
        try:
            return (asked("elf-file").split("\n") + [""] * 4)[:4] if here() else [""] * 4
        except gdb.GdbError:
            return [""] * 4


image = Image()


class Load(gdb.Command):
    """Loads a program that was built again: load [FILE]. Without FILE it is the present one. gdb then has its symbols.
The log and all else stay, and the run is at position 0."""

    def __init__(self) -> None:
        super().__init__("load", gdb.COMMAND_FILES, gdb.COMPLETE_FILENAME)

    def invoke(self, line: str, from_terminal: bool) -> None:
        space = gdb.current_progspace()
        name = os.path.abspath(line.strip()) if line.strip() else image.name() or (space and space.filename)
        if not name:
            raise gdb.GdbError("load needs a file: load FILE")
        image.load(name)


def name_the_jump() -> None:
    """Gives the jump at the reset vector a symbol, which `file` takes away."""
    file = os.environ.get("BEZHAKKOM_JUMP")
    if file:
        gdb.execute(f"add-symbol-file {file}", to_string=True)


class BeforeRun(gdb.Command):
    """Begins what runs or steps: it is ended by Ctrl-C, and what goes on after that is not begun."""

    def __init__(self) -> None:
        super().__init__("before-run", gdb.COMMAND_OBSCURE)

    def invoke(self, line: str, from_terminal: bool) -> None:
        ctrl_c.go()


class BeforeStart(gdb.Command):
    """Begins what starts again: a program that was built again is loaded first."""

    def __init__(self) -> None:
        super().__init__("before-start", gdb.COMMAND_OBSCURE)

    def invoke(self, line: str, from_terminal: bool) -> None:
        ctrl_c.go()
        image.load_changed()


class BeforeQuit(gdb.Command):
    """Says what was edited and is not saved, before gdb quits. On a terminal a second `quit` leaves without it. After a command that may edit
    or save it is said again. Without a terminal the stub keeps it."""

    def __init__(self) -> None:
        super().__init__("before-quit", gdb.COMMAND_OBSCURE)
        self._said = ""
        self._leaves = False

    def forget(self) -> None:
        self._said = ""

    def leave(self) -> None:
        """Lets the stub keep nothing when gdb quits."""
        self._leaves = True
        asked("leaves")

    def invoke(self, line: str, from_terminal: bool) -> None:
        try:
            unsaved = asked("unsaved").replace("(save-", "(wb save-")
        except gdb.GdbError:
            return  # there is no run
        if not unsaved or unsaved == self._said:
            self.leave()
        elif os.isatty(0):
            self._said = unsaved
            raise gdb.GdbError(f"{unsaved}`quit` again leaves without it.")
        elif not self._leaves:
            gdb.write(unsaved)


def prompt(current_prompt: str) -> str:
    """The prompt, with the position where there is a run."""
    try:
        ctrl_c.hold()
        now = here()
        ctrl_c.prompted()
    except KeyboardInterrupt:  # it was meant for what came before
        return prompt(current_prompt)
    return f"({now[0]:,}) " if now else current_prompt


def hook(command: str, line: str) -> None:
    """Lets gdb run a line with a command, as `help define` says."""
    gdb.execute(f"define {command}\n{line}\nend")


Workbench()
Shell()
CatchException()
Load()
BeforeRun()
BeforeStart()
before_quit = BeforeQuit()
name_the_jump()
hook("hook-quit", "before-quit")
hook("hookpost-file", "python name_the_jump()")
for start in "run", "start", "starti":
    # gdb would start at the position of an earlier `starti N` again.
    hook(f"hook-{start}", "set args\nbefore-start")
for move in MOVES:
    hook(f"hook-{move}", "before-run")
gdb.prompt_hook = prompt
gdb.events.memory_changed.connect(lambda event: flush())
gdb.events.memory_changed.connect(lambda event: before_quit.forget())
gdb.events.cont.connect(lambda event: ctrl_c.begin())
gdb.events.stop.connect(ctrl_c.stopped)
