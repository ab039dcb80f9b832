"""Another image in place of the present one, under the same log: a program that was built again; and whether it was."""
from __future__ import annotations

import hashlib
import os
import tempfile
from contextlib import suppress
from dataclasses import replace
from pathlib import Path
from typing import Iterator, List, Optional, Sequence, Tuple

from . import loading
from .initial import Boot, boot_of
from .errors import Problem
from .reading import content_of
from .image import ELF_MAGIC
from .saved import Origin
from .session import Session
from .symbols import symbols_of


def load(session: Session, name: str) -> int:
    """Makes the image that of a file by patches, and gives how many words differ. The constants stay: they are the board's."""
    made = loading.image(name, tell=lambda note: None)
    if made.kind != "image":
        raise Problem(f"{name} is of kind {made.kind}: an ELF or an image of this project's format can be loaded")
    if not made.elves:
        loading.start(made, None).close()  # a Problem if the file is damaged
    boot, board = boot_of(made, lambda places: []), session.driver.boot()
    if not made.elves and boot.constants() != board.constants():
        session.tell(f"the byte time, the unit and the clock stay as they are; {name} says others, which it has where it is opened")
    wanted, present = dict(_words(boot)), dict(_words(board))
    # A word that the file does not set begins as 0.
    changed = {place: wanted.get(place, 0) for place in present.keys() | wanted.keys()
               if present.get(place, 0) != wanted.get(place, 0)}
    session.driver.values([f"patch {place} {word}" for place, word in sorted(changed.items())])
    before = session.driver.image
    others = tuple(it for it in before.elves if it.name != before.name)  # those of --symbols
    if session.origin:
        constants = _options(board) if boot.constants() != board.constants() else []
        session.origin = session.origin.loaded(name, content_of(name), constants)
    folders = before.elves[0].sources if before.elves else ()
    session.take_symbols(symbols_of(loading.with_sources(replace(made, elves=made.elves + others), folders)))
    return len(changed)


def _options(board: Boot) -> List[Tuple[str, str]]:
    """The constants of the board as options of the command line."""
    return [("--unit", str(board.unit)), ("--byte-time", str(board.byte_time)), ("--clock", " ".join(map(str, board.clock)))]


def _words(boot: Boot) -> Iterator[tuple[int, int]]:
    """The words that are set, with their physical addresses."""
    for start, run in boot.runs():
        for at in range(0, len(run), 4):
            yield start + at, int.from_bytes(run[at:at + 4], "little")


class OnDisk:
    """The files that a session was opened with. `changed` names those that were written since they were read."""

    def __init__(self, session: Session) -> None:
        self._session = session
        self._known: dict[str, bytes] = {}  # by absolute names: contents that were on disk when they were loaded
        self._origin: Optional[Origin] = None  # whose files were looked at last
        self._looked: list[object] = []  # these, as the system describes them
        self._changed: list[str] = []

    def changed(self) -> list[str]:
        """Returns the names of the files whose content on disk differs from that at the time when they were loaded. After an `undo` of a
        `load` the content on disk is known, and no change. A missing file counts as unchanged: it may be in the making."""
        origin = self._session.origin
        if origin is None or origin.is_packed:
            return []
        looked: list[object] = [_described(origin.path(name)) for name in origin.files]
        if origin is not self._origin or looked != self._looked:
            self._origin, self._looked = origin, looked
            self._changed = [name for name, content in origin.files.items() if self._differs(origin, name, content)]
        return self._changed

    def _differs(self, origin: Origin, name: str, loaded: bytes) -> bool:
        try:
            found = content_of(origin.path(name))
        except Problem:
            return False
        path = origin.path(name)
        if found == loaded:
            self._known[path] = found
        return found != self._known.setdefault(path, loaded)


def _described(name: str) -> Optional[tuple[int, int, int]]:
    try:
        status = os.stat(name)
    except OSError:
        return None
    return status.st_mtime_ns, status.st_size, status.st_ino


class ElfFile:
    """The ELF of the present image as a file, from which gdb reads the symbols of a run."""

    def __init__(self, session: Session) -> None:
        self._session = session
        self._content = b""
        self._lines: tuple[str, ...] = ()
        self._folder: Optional[tempfile.TemporaryDirectory[str]] = None  # of images that are no longer on disk

    def text(self, changed: Sequence[str]) -> str:
        """Returns lines for front/bezhakkom/in_gdb.py: the digest of the ELF, a file with its content, the name by which the user knows it,
        and `changed` if what is on disk under this name is among the changed files. Returns nothing if the image is no ELF."""
        origin = self._session.origin
        content = origin.files[origin.image] if origin else b""
        if origin is None or not content.startswith(ELF_MAGIC):
            return ""
        if content is not self._content:
            name = origin.path(origin.image)
            digest = hashlib.sha256(content).hexdigest()
            self._content, self._lines = content, (digest, self._file(name, content, digest), name)
        return "".join(f"{line}\n" for line in (*self._lines, "changed" if origin.image in changed else "same"))

    def _file(self, name: str, content: bytes, digest: str) -> str:
        with suppress(Problem):
            if content_of(name) == content:
                return name
        self._folder = self._folder or tempfile.TemporaryDirectory(prefix="bezhakkom-")
        file = Path(self._folder.name, digest[:16], Path(name).name)
        file.parent.mkdir(exist_ok=True)
        file.write_bytes(content)
        return str(file)
