"""What is wrong with a command that the program refused, and what would be right."""
from __future__ import annotations

from .errors import Refused
from .limits import GREATEST_POSITION
from .protocol import COMMANDS
from .replies import number_of, words_of


def explained(refused: Refused, events: int = 0) -> Refused:
    """A refusal with a sentence about it, where the log has so many events."""
    return Refused(refused.number, refused.name, refused.command, _sentence(refused, events))


def _sentence(refused: Refused, events: int) -> str:
    words = words_of(refused.command)
    if refused.name == "Range":
        return COMMANDS[words[0]].range
    if refused.name == "TooFar":
        return f"a position is 0 to {GREATEST_POSITION:,}"
    if refused.name == "NoEvent":
        return f"there is no event {words[1]}: " + (f"they are 0 to {events - 1:,}" if events else "the log is empty")
    if refused.name == "Unaligned":
        return f"{words[1]} is no multiple of 4; the word that it is in is at {(number_of(words[1]) or 0) & ~3:#x}"
    if refused.name == "NotMemory":
        return "there is no memory: RAM is 8 MiB from 0x80000000, ROM 256 KiB from 0xbfc00000"
    if refused.name == "NotFound" and words[0] == "find":
        return f"line {words[1]} sent no byte of place {words[2]} before this position"
    if refused.name == "Memory":
        return "the program has no memory left for that"
    return ""
