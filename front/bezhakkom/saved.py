"""Sessions in a file, as text: a head that names the image, its options and the log, and lines of the shell that make the rest
again. The files that it names may be packed in after these."""
from __future__ import annotations

import base64
import hashlib
import os
import re
import tempfile
import zlib
from contextlib import contextmanager
from dataclasses import dataclass, field, replace
from pathlib import Path
from typing import Callable, Dict, Iterable, Iterator, Mapping, Optional, Sequence

from . import loading
from . import log as logs
from .driver import Driver
from .errors import Problem
from .image import SESSION_MAGIC
from .installed import NAME
from .loading import Opening
from .log import ADDS, Event, Kind, quoted
from .printable import printable
from .progress import TerminalProgress
from .protocol import LOG_EDITS
from .reading import MOST_BYTES, beginning_of, content_of, present_folder
from .replies import number_of
from .saving import Form, Seen

BEGINNING = "bezhakkom session 1"
FORM = Form("session", (SESSION_MAGIC,))
_CONTENTS = "contents"  # the line before the files that are packed in
_WIDTH = 120
_MOST_PACKED = 4 * MOST_BYTES  # of all packed files together
_ESCAPED = "escaped names"  # a line of the head: values of options and names of files have these escapes
_ESCAPES = {"\n": "\\n", "\r": "\\r", "\\": "\\\\"}
_UNESCAPED = {escape: text for text, escape in _ESCAPES.items()}
_LINE_END, _LINE_END_OR_ESCAPE = re.compile(r"[\n\r]"), re.compile(r"[\n\r\\]")
_LINES = (*LOG_EDITS, "arrive", "wb", "goto", "break", "watch", "catch", "gdb", "idle", "limit")


@dataclass(frozen=True)
class Origin:
    """What a run was opened with: the name of its image, options with their values, and the files that these name. `seen` has all
    files that were read, also the log and the session. `folder` was the present one, which may be deleted later."""

    image: str
    options: list[tuple[str, str]]
    files: dict[str, bytes]
    is_packed: bool = False  # the files came with the session
    seen: Seen = field(default_factory=Seen, compare=False)
    folder: str = field(default_factory=present_folder, compare=False)

    def path(self, name: str) -> str:
        """Returns the absolute path of a name that was given when the present folder was there."""
        return os.path.abspath(os.path.join(self.folder, name))

    @classmethod
    def of(cls, opening: Opening) -> Origin:
        image = opening.files[0]
        names = [image, *(loading.name_and_number(it)[0] for it in opening.symbols)]
        origin = cls(image, opening.options(), {name: content_of(name) for name in names})
        for name, content in origin.files.items():
            origin.seen.note(name, content)
        if opening.log is not None:
            origin.seen.note(opening.log, content_of(opening.log))
        return origin

    def loaded(self, name: str, content: bytes, constants: Sequence[tuple[str, str]] = ()) -> Origin:
        """The same with another image in place of the first one, which `load` took, and with options for the constants of the board."""
        others = {file: content for file, content in self.files.items() if file not in (self.image, name)}
        kept = [(option, value) for option, value in self.options if option in loading.SEVERAL]
        self.seen.note(name, content)
        return replace(self, image=name, options=[*constants, *kept], files={name: content, **others})


@dataclass(frozen=True)
class Opened:
    """What an argument line or a session boots, where that came from, and the shell's lines of a session."""

    opening: Opening
    origin: Origin
    commands: list[str] = field(default_factory=list)

    def edits(self) -> list[str]:
        """The session's edits, and its position, as commands of the workbench."""
        return [made for line in self.commands for made in _made(line)]


def _made(line: str) -> list[str]:
    name, _, rest = line.partition(" ")
    if name == "arrive":
        return [it.command for it in logs.make([rest], line)]
    if name in (*LOG_EDITS, "goto"):
        return [line.replace(",", "")]
    return [rest] if name == "wb" else []


# Writing

def text_of(origin: Origin, folder: Optional[str], events: Sequence[Event], commands: Sequence[str], is_whole: bool) -> str:
    """The text of a session: the log that it began with, and the lines of the shell that make the rest. Files are named from a folder, or
    by absolute paths if there is none, or are packed in."""
    is_whole = is_whole or origin.is_packed

    def placed(name: str) -> str:
        path = origin.path(name)
        return path if folder is None else os.path.relpath(path, origin.path(folder))

    names = _packed_names(origin.files) if is_whole else {name: placed(name) for name in origin.files}
    options = [(name, _renamed(value, names) if name == loading.SYMBOLS else placed(value) if name == loading.SOURCES else value)
               for name, value in origin.options]
    is_escaped = any(_LINE_END.search(it) for it in (*names.values(), *(value for _, value in options)))

    def written(name: str) -> str:
        return _LINE_END_OR_ESCAPE.sub(lambda it: _ESCAPES[it[0]], name) if is_escaped else name

    head = [BEGINNING, f"# {NAME} shell FILE opens it. What is below the first empty line are lines of the shell."]
    head += [_ESCAPED] * is_escaped
    head += [f"image {written(names[origin.image])}", *(f"option {name} {written(value)}" for name, value in options)]
    head += [f"sha256 {hashlib.sha256(content).hexdigest()} {written(names[name])}" for name, content in origin.files.items()]
    head += [f"log {line}" for line in logs.show(events)]
    packed = [_CONTENTS, *(line for name, content in origin.files.items()
                           for line in (f"file {written(names[name])}", *_digits(content)))] if is_whole else []
    return "".join(f"{line}\n" for line in [*head, "", *commands, *packed])


def text_of_state(origin: Origin, driver: Driver) -> str:
    """The text of a session of the present log, image and position, for a front end without lines of the shell."""
    patches = [f"wb patch {place:#010x} {word:#010x}" for place, word in driver.patches]
    return text_of(origin, None, driver.log, [*patches, f"goto {driver.position:,}"], True)


def _packed_names(files: Iterable[str]) -> Dict[str, str]:
    """The names of files that are packed in: the last part of each, after a number if another file has that name."""
    found: Dict[str, str] = {}
    for file in files:
        last = name = os.path.basename(file)
        number = 0
        while name in found.values():
            number += 1
            name = f"{number}-{last}"
        found[file] = name
    return found


def _renamed(value: str, names: Mapping[str, str]) -> str:
    """A value of an option, or an image, with another name of the file that it names: of FILE or FILE@N."""
    if value in names:
        return names[value]
    for name in sorted(names, key=len, reverse=True):
        if value.startswith(f"{name}@"):
            return names[name] + value[len(name):]
    return value


def _digits(content: bytes) -> list[str]:
    digits = base64.b64encode(zlib.compress(content, 9)).decode()
    return [digits[at:at + _WIDTH] for at in range(0, len(digits), _WIDTH)]


def lines_of_edit(shown: str, made: Sequence[str]) -> list[str]:
    """The lines that make an edit again: what was typed as a comment, and commands that do not depend on the position."""
    text = _typed([_added(command) for command in made])
    return [f"# {printable(shown)}", *([f"arrive {text}"] if text else map(_again, made))]


def _typed(events: Sequence[Optional[Event]]) -> str:
    """The text of events that are bytes of one line at equal gaps, or nothing."""
    added = [it for it in events if it and it.kind != Kind.WIRE]
    gaps = {second.time - first.time for first, second in zip(added, added[1:])}
    if not added or len(added) < len(events) or len(gaps) > 1 or len({(it.line, it.kind) for it in added}) > 1:
        return ""
    words = [f"{added[0].time} {added[0].line} {quoted(it.byte for it in added)}", *(str(gap) for gap in gaps if gap)]
    return " ".join(words + ["framing"] * (added[0].kind == Kind.FRAMING))


def _again(command: str) -> str:
    """The shell's line for a command of the workbench, whose numbers mean the same at each position."""
    name, *words = command.split()
    if name != "patch":
        return command
    return " ".join(["wb patch", *(f"{number_of(it) or 0:#010x}" for it in words)])


def _added(command: str) -> Optional[Event]:
    """The event that a command adds, or None."""
    name, *words = command.split()
    if name not in ADDS or len(words) != 3:
        return None
    time, line, byte = (number_of(it) or 0 for it in words)
    return Event(time, line, byte, ADDS[name])


# Reading

def is_session(name: str) -> bool:
    """Whether there is a file of a name that begins as a session does."""
    return beginning_of(name, len(SESSION_MAGIC)) == SESSION_MAGIC


@contextmanager
def opened(opening: Opening, tell: Callable[[str], None] = loading.say) -> Iterator[Opened]:
    """What is opened, an image or a session. Files that a session has packed in stand in a folder for a while. `tell` takes notes for
    the user."""
    name = opening.files[0]
    if not is_session(name):
        yield Opened(opening, Origin.of(opening))
        return
    if opening.log is not None:
        raise Problem(f"{name} is a session, which has its own log: `erase` and `add` change it")
    with tempfile.TemporaryDirectory() as folder:
        yield _Reader(name, Path(folder), tell).opened(opening)


@contextmanager
def running(opening: Opening, report: Optional[TerminalProgress] = None) -> Iterator[Driver]:
    """A driver on what is opened. A session's edits are made, and it stands at its position."""
    with opened(opening) as found, loading.running(found.opening, report) as driver:
        driver.values(found.edits())
        yield driver


class _Reader:
    """Reads a session, and lays out what it has packed in."""

    def __init__(self, name: str, folder: Path, tell: Callable[[str], None]) -> None:
        self._name = name
        self._tell = tell
        self._folder = folder
        self._number = 0
        self._image = ""
        self._options: list[tuple[str, str]] = []
        self._sums: dict[str, str] = {}
        self._log: list[str] = []
        self._commands: list[str] = []
        self._packed: dict[str, list[str]] = {}
        self._left = _MOST_PACKED
        self._is_escaped = False

    def opened(self, opening: Opening) -> Opened:
        content = content_of(self._name)
        self._read(content.decode("utf-8", "surrogateescape"))
        files = {name: self._file(name) for name in self._sums}
        options = [(name, it) for name, value in self._options for it in self._placed(name, value, files)]
        log = self._folder / "log"
        log.write_bytes(logs.write(logs.make(self._log, self._name)))
        boots = replace(opening.completed(options), files=(files.get(self._image) or self._beside(self._image),), log=str(log))
        origin = Origin.of(boots)
        origin.seen.note(self._name, content)
        return Opened(boots, replace(origin, is_packed=bool(self._packed)), self._commands)

    def _read(self, text: str) -> None:
        *whole, rest = text.split("\n")
        count = len(whole)
        if rest:
            raise Problem(f"{self._name} is cut within line {count + 1}, its last one, which has no line end")
        lines = enumerate((line.removesuffix("\r") for line in whole), 1)
        if next(lines)[1] != BEGINNING:
            raise Problem(f"{self._name} is a session of a later version: this one reads `{BEGINNING}`")
        for self._number, line in lines:
            if not line.strip():
                break
            if not line.startswith("#"):
                self._head(*line.partition(" ")[::2])
        else:
            raise Problem(f"{self._name} is cut after line {count}: an empty line and the lines of the shell are missing")
        if not self._image:
            raise Problem(f"{self._name} names no image")
        for self._number, line in lines:
            if line == _CONTENTS:
                break
            self._command(line)
        last = ""
        for _, line in lines:
            if line.startswith("file "):
                last = self._unescaped(line[len("file "):])
                self._packed[last] = []
            elif last:
                self._packed[last].append(line)

    def _head(self, name: str, rest: str) -> None:
        if f"{name} {rest}" == _ESCAPED:
            self._is_escaped = True
        elif name == "image":
            self._image = self._unescaped(rest)
        elif name == "option" and rest.partition(" ")[0] in loading.OPTIONS:
            option, _, value = rest.partition(" ")
            self._options.append((option, self._unescaped(value)))
        elif name == "sha256":
            digits, _, file = rest.partition(" ")
            self._sums[self._unescaped(file)] = digits
        elif name == "log":
            self._log.append(rest)
        else:
            raise Problem(f"{self._name}:{self._number}: there is no line `{name}` in the head of a session; "
                          "an empty line is missing before the lines of the shell, or it is of a later version")

    def _command(self, line: str) -> None:
        """Takes a line of the shell, which is one of those that make a session. One that comes from elsewhere may write no file."""
        name = (line.split() or ["#"])[0]
        if name not in _LINES and not name.startswith("#"):
            raise Problem(f"{self._name}:{self._number}: `{name}` is no line of a session, which has {', '.join(_LINES)} alone")
        self._commands.append(line)

    def _unescaped(self, name: str) -> str:
        return re.sub(r"\\[nr\\]", lambda it: _UNESCAPED[it[0]], name) if self._is_escaped else name

    def _file(self, name: str) -> str:
        """Where a file stands that the session names. One that is not as it was is said to be so."""
        path = self._unpacked(name) if name in self._packed else self._beside(name)
        if hashlib.sha256(content_of(path)).hexdigest() != self._sums[name]:
            self._tell(f"{path} is not as it was when {self._name} was saved: what it shows may differ")
        return path

    def _beside(self, name: str) -> str:
        """The absolute path of what is named from the session's folder."""
        return os.path.abspath(os.path.join(os.path.dirname(self._name), name))

    def _unpacked(self, name: str) -> str:
        """Writes a packed file to a folder of its own, so that two with one name don't meet."""
        content = self._content(name)
        folder = Path(tempfile.mkdtemp(dir=self._folder))
        try:
            path = folder / (os.path.basename(name) or "file")
            path.write_bytes(content)
        except (OSError, ValueError):
            raise Problem(f"{self._name}: {name} can't be the name of a file") from None
        return str(path)

    def _content(self, name: str) -> bytes:
        """Inflates a packed file, up to the limit."""
        inflater, most = zlib.decompressobj(), min(self._left, MOST_BYTES)
        try:
            content = inflater.decompress(base64.b64decode("".join(self._packed[name]), validate=True), most + 1)
        except (ValueError, zlib.error):
            raise Problem(f"{self._name}: the content of {name} is damaged") from None
        self._left -= len(content)
        if len(content) > most:
            raise Problem(f"{self._name}: {name} has more than {most:,} bytes")
        if not inflater.eof:
            raise Problem(f"{self._name}: the content of {name} is damaged")
        return content

    def _placed(self, name: str, value: str, files: dict[str, str]) -> Iterator[str]:
        """The value of an option, with the place of what it names. A folder with sources may be missing: a session may come from another
        machine."""
        place = self._beside(value)
        if name == loading.SYMBOLS:
            renamed = _renamed(value, files)
            yield place if renamed == value else renamed
        elif name != loading.SOURCES:
            yield value
        elif os.path.isdir(place):
            yield place
        else:
            self._tell(f"{self._name} has sources in {place}, where no folder is: they are not looked for there")
