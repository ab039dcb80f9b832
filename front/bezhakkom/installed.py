"""Where the package stands, and by what name users start the front ends."""
from __future__ import annotations

from pathlib import Path

PACKAGE = Path(__file__).resolve().parent
REPOSITORY = PACKAGE.parents[1]  # where the package is not installed

# Where it was installed the program is beside its modules. In the repository bin/r3kwb unpacks it.
IS_INSTALLED = (PACKAGE / "r3kwb").exists()

NAME = "bezhakkom" if IS_INSTALLED else "bin/wb"
