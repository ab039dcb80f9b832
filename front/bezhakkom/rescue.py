"""Unsaved edits are kept as a session in a file if SIGTERM, a closed terminal or the end of a debugger ends a run. The next start of the
same image names the file, unless its name was shown on a terminal."""
from __future__ import annotations

import hashlib
import os
import signal
import sys
import tempfile
from contextlib import contextmanager, suppress
from dataclasses import dataclass
from pathlib import Path
from typing import Any, Callable, Collection, Iterator, Optional

from .installed import NAME
from .loading import say
from .reading import present_folder
from .saving import as_argument

_SIGNALS = (signal.SIGTERM, signal.SIGHUP)
_LONGEST_NAME = 48  # characters of an image's name in that of a session, which has at most 255 bytes
_UNSEEN = ".unseen"  # after the name of a session: it was not shown on a terminal

Text = Callable[[], Optional[str]]  # of a session that is to be kept, if there are unsaved edits


class _Terminated(SystemExit):
    """The process ends with the status that a shell gives for the signal."""

    def __init__(self, number: int) -> None:
        super().__init__(128 + number)


@dataclass
class Reason:
    """Why a session is to be kept at the end, or nothing."""

    text: str = ""


@contextmanager
def kept(session: Text, image: str, *, is_silent: bool = False) -> Iterator[Reason]:
    """Ends what is done within it at such a signal, and then keeps the session, as it does for another reason that is set. Names its file, and
    sessions of the image that were kept earlier, unless `is_silent`: the process that started this one calls `offer`."""
    if not is_silent:
        offer(image)
    prefix, reason = _prefix(image), Reason()

    def end(number: int, frame: Any) -> None:
        reason.text = f"ended by {signal.Signals(number).name}"
        for it in taken:
            signal.signal(it, signal.SIG_IGN)
        raise _Terminated(number)

    taken = [it for it in _SIGNALS if signal.getsignal(it) == signal.SIG_DFL]  # `nohup` ignores one
    for it in taken:
        signal.signal(it, end)
    try:
        yield reason
    finally:
        # Not only after _Terminated: if the terminal is gone, and the program with it, another exception may have taken its place.
        if reason.text:
            _keep(session, prefix, reason.text, is_silent)
        for it in taken:
            if signal.getsignal(it) is end:  # else the process ends, and another signal is to change nothing
                signal.signal(it, signal.SIG_DFL)


def _keep(session: Text, prefix: str, why: str, is_silent: bool) -> None:
    """Keeps a session, if there are unsaved edits, and names its file, unless `is_silent`."""
    text = session()
    if text is None:
        return
    content = text.encode("utf-8", "surrogateescape")
    try:
        folder = _folder()
        folder.mkdir(parents=True, exist_ok=True)
        name = _written(content, prefix, str(folder))
        Path(name + _UNSEEN).touch()
    except OSError:
        name, is_silent = _written(content, prefix, None), False  # `offer` does not find it
    if not is_silent:
        say(f"{why}: what was not saved is in {name}, which `{NAME} shell` opens")
        _seen(name)


def offer(image: str, which: str = "an earlier", but: Collection[str] = ()) -> list[str]:
    """Names the sessions of an image that were kept and not yet shown on a terminal, except some, and returns them."""
    found: list[str] = []
    with suppress(OSError):
        for marker in sorted(_folder().glob(f"*-{_digest(image)}-*{_UNSEEN}")):
            name = str(marker)[:-len(_UNSEEN)]
            if name in but:
                continue
            found.append(name)
            if os.path.exists(name):
                say(f"{which} run of {image} ended with edits that were not saved: `{NAME} shell {as_argument(name)}` opens them")
            _seen(name)
    return found


def _seen(name: str) -> None:
    """Forgets that a session is to be named, if this process has shown its name on a terminal."""
    with suppress(OSError, ValueError):
        if sys.stderr and sys.stderr.isatty() and os.isatty(sys.stderr.fileno()):
            Path(name + _UNSEEN).unlink(missing_ok=True)


def _written(content: bytes, prefix: str, folder: Optional[str]) -> str:
    with tempfile.NamedTemporaryFile("wb", prefix=prefix, suffix=".session", dir=folder, delete=False) as file:
        file.write(content)
    return file.name


def _folder() -> Path:
    return Path(os.environ.get("XDG_STATE_HOME") or Path.home() / ".local/state") / "bezhakkom"


def _prefix(image: str) -> str:
    """Returns how the names of an image's sessions begin. The present folder, from which it is named, may be deleted later."""
    return f"{Path(image).name[:_LONGEST_NAME]}-{_digest(image)}-"


def _digest(image: str) -> str:
    """Returns a short name of an image's absolute path, for names of files."""
    path = os.path.abspath(os.path.join(present_folder(), image))
    return hashlib.sha256(path.encode("utf-8", "surrogateescape")).hexdigest()[:12]
