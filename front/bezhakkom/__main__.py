"""Starts `bin/wb`, or `python3 -m bezhakkom`: this folder's parent is put where packages are looked for, whatever folder the user is
in."""
import sys
from pathlib import Path

if sys.version_info < (3, 9):
    sys.exit("bin/wb: Python 3.9 or later is wanted, and this is " + sys.version.split()[0])
sys.path[0] = str(Path(__file__).resolve().parent.parent)

from bezhakkom.cli import command  # noqa: E402

sys.exit(command())
