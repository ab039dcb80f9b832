"""Sources as text, where they are found: beside an ELF, where they were compiled, or in folders that the user names."""
from __future__ import annotations

import re
from contextlib import suppress
from pathlib import Path, PurePosixPath
from typing import Dict, Iterable, Iterator, List

from .errors import Problem
from .image import SymbolFile
from .lines import Line
from .reading import content_of

_MOST_BYTES = 1 << 22


class Sources:
    """The sources of some ELFs. Each is read once."""

    def __init__(self, files: Iterable[SymbolFile] = ()) -> None:
        self._files = list(files)
        self._texts: Dict[str, List[str]] = {}

    def of(self, line: Line) -> List[str]:
        """All lines of the source of a line, or none where it is not found."""
        if line.file not in self._texts:
            self._texts[line.file] = self._read(line.file)
        return self._texts[line.file]

    def _read(self, name: str) -> List[str]:
        for path in self._places(name):
            with suppress(Problem):
                return re.split("\r?\n", content_of(str(path), _MOST_BYTES).decode("utf-8", "replace").removesuffix("\n"))
        return []

    def _places(self, name: str) -> Iterator[Path]:
        """Where a source may be: in a folder of the user's also below fewer folders than the table says."""
        parts = [part for part in PurePosixPath(name).parts if part not in ("/", "..", ".")]
        for folder in dict.fromkeys(folder for file in self._files for folder in file.sources):
            for begin in range(len(parts)):
                yield Path(folder, *parts[begin:])
        for file in self._files:
            for part in (name, PurePosixPath(name).name):
                yield Path(file.name).parent / part
