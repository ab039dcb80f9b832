"""The tests of the front ends. The package stands beside them, in `front/bezhakkom`."""
import signal
import sys
from pathlib import Path

sys.path.insert(0, str(Path(__file__).resolve().parents[1]))

# A shell that starts a run in the background has it ignore Ctrl-C, and what it starts too.
signal.signal(signal.SIGINT, signal.default_int_handler)
