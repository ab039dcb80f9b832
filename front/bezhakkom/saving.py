"""Files are written whole or not at all. A file of another kind, one that is write-protected, or one that somebody else changed meanwhile,
is overwritten only if that is forced."""
from __future__ import annotations

import fcntl
import hashlib
import os
import shlex
import tempfile
import time
from contextlib import contextmanager, suppress
from dataclasses import dataclass
from pathlib import Path
from typing import Dict, Iterator, List, Optional, Sequence, Tuple

from .errors import Problem

# How a user says that such a file is overwritten: on an argument line, and in the shell and gdb.
FORCE_OPTION = "--force"
FORCE_WORD = "force"


_HALF = ".bezhakkom-save-"  # begins the name of a file that is not yet written whole
_OLD = 3600  # seconds after which no save still writes it
_WRITABLE = 0o222  # of a mode. The system lets root write all files.


@dataclass(frozen=True)
class Form:
    """A kind of file that the front ends write: its name, and how such files begin. One without a beginning can't be known again."""

    name: str
    beginnings: tuple[bytes, ...] = ()


class Seen:
    """The contents that files had when a session read or wrote them last."""

    def __init__(self) -> None:
        self._began = time.time()
        self._known: Dict[str, Tuple[int, bytes]] = {}  # sizes and checksums by real paths

    def note(self, name: str, content: bytes) -> None:
        """Records the content of a file that was read or written."""
        self._known[os.path.realpath(name)] = len(content), hashlib.sha256(content).digest()

    def change(self, path: Path) -> str:
        """Returns when somebody else changed the file at a real path, as the end of a sentence, or '' if nobody did. A file that the
        session neither read nor wrote is compared with the time at which the session began."""
        status = path.stat()
        if str(path) not in self._known:
            return "after this session began" if status.st_ctime > self._began else ""
        size, checksum = self._known[str(path)]
        is_same = status.st_size == size and hashlib.sha256(path.read_bytes()).digest() == checksum
        return "" if is_same else "since it was read or saved here"

    def changed(self) -> List[str]:
        """Returns the real paths of the files that differ from what was read or written last. A file that is gone is left out."""
        return [name for name in self._known if os.path.isfile(name) and os.access(name, os.R_OK) and self.change(Path(name))]


def save(name: str, content: bytes, form: Form, force: bool = False, how: str = FORCE_OPTION, seen: Optional[Seen] = None) -> None:
    """Writes a file. Replaces a file only if it has the same form and, by `seen`, nobody else changed it. If the write fails, the former
    content stays. `how` names the way to set `force`."""
    try:
        # A link stays a link, and what is no file (a device, a pipe) is written as it is.
        path = Path(os.path.realpath(name))
        if path.exists() and not path.is_file():
            path.write_bytes(content)
            return
        with _alone_in(path.parent):
            if path.exists() and not force:
                _check(path, name, content, form, how, seen)
            _remove_halves(path.parent)
            _replace(path, content)
        if seen:
            seen.note(str(path), content)
    except OSError as error:
        raise Problem(f"{name} can't be written: {error.strerror}") from None
    except ValueError:
        raise Problem(f"{name} can't be the name of a file") from None


def _check(path: Path, name: str, content: bytes, form: Form, how: str, seen: Optional[Seen]) -> None:
    """Refuses to overwrite a file of another form, one that is write-protected, or one that somebody else changed."""
    if not _may_go(path, content, form):
        what = f" and is no {form.name}" if form.beginnings else f" already; it can't be seen whether it is a {form.name}"
        raise Problem(f"{name} is there{what}. `{how}` overwrites it")
    if not path.stat().st_mode & _WRITABLE or not os.access(path, os.W_OK):
        raise Problem(f"{name} is write-protected. Save under another name to keep it; `{how}` overwrites it")
    size = path.stat().st_size
    is_nothing_lost = not size or size == len(content) and path.read_bytes() == content
    change = seen.change(path) if seen and not is_nothing_lost else ""
    if change:
        raise Problem(f"{name} was changed by another program {change}. Save under another name to keep both; `{how}` overwrites it")


@contextmanager
def _alone_in(folder: Path) -> Iterator[None]:
    """Lets no other front end check and replace a file of a folder meanwhile, if its file system has locks."""
    descriptor = os.open(folder, os.O_RDONLY)
    try:
        with suppress(OSError):
            fcntl.flock(descriptor, fcntl.LOCK_EX)
        yield
    finally:
        os.close(descriptor)


def name_of(word: str) -> str:
    """Returns the name of a file that a word of a line is. A name with blanks is quoted, and `~` begins the user's folder."""
    if len(word) > 2 and word[0] == word[-1] and word[0] in "'\"":
        return word[1:-1]
    return os.path.expanduser(word)


def as_argument(name: str) -> str:
    """Returns a name of a file as a word of a command line. One that begins with `-` would be an option."""
    return shlex.quote(f"./{name}" if name.startswith("-") else name)


def is_forced(words: Sequence[str]) -> bool:
    """Returns whether `force` follows the name of a file. Nothing else may follow it."""
    if list(words) not in ([], [FORCE_WORD]):
        raise Problem(f"only `{FORCE_WORD}` may follow the name of a file: put a name with blanks in quotes")
    return bool(words)


def _remove_halves(folder: Path) -> None:
    """Removes what saves left in a folder that were killed before they ended."""
    with suppress(OSError), os.scandir(folder) as entries:
        for it in entries:
            if it.name.startswith(_HALF) and it.is_file(follow_symlinks=False) and it.stat().st_mtime < time.time() - _OLD:
                with suppress(OSError):
                    os.unlink(it.path)


def _may_go(path: Path, content: bytes, form: Form) -> bool:
    """Whether nothing is lost that was not written by a front end: the file is empty, of this form, or has this content."""
    if path.stat().st_size == 0:
        return True
    with open(path, "rb") as file:
        if form.beginnings:
            return file.read(max(map(len, form.beginnings))).startswith(form.beginnings)
        return file.read(len(content) + 1) == content


def _replace(path: Path, content: bytes) -> None:
    mode = path.stat().st_mode & 0o7777 if path.exists() else 0o666 & ~_umask()
    descriptor, temporary = tempfile.mkstemp(prefix=_HALF, dir=path.parent)
    try:
        with open(descriptor, "wb") as file:
            file.write(content)
            file.flush()
            os.fchmod(descriptor, mode)
            os.fsync(descriptor)
        os.replace(temporary, path)
    except BaseException:
        os.unlink(temporary)
        raise
    folder = os.open(path.parent, os.O_RDONLY)
    try:
        os.fsync(folder)
    finally:
        os.close(folder)


def _umask() -> int:
    mask = os.umask(0)
    os.umask(mask)
    return mask
