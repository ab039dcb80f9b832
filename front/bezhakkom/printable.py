"""Text of files, packets and programs as it is shown. Names of symbols and files may come from a stranger, and a terminal obeys control
characters: escape sequences, line ends, and marks that turn the direction of writing. All that the front ends show as text passes through
`printable`, except the bytes that the machine sends on a serial line, which `console` and gdb show as a terminal does."""
from __future__ import annotations

TAB = "\t"  # is kept in lines: sources have tabs


def printable(text: str, kept: str = "") -> str:
    """Returns a text with escapes, such as `\\x1b` and `\\u202e`, in place of all characters that are not printable, except those in
    `kept`. A byte of a file's name that is not UTF-8 becomes `\\xNN`."""
    if text.isprintable():
        return text
    return "".join(it if it.isprintable() or it in kept else _escape(ord(it)) for it in text)


def _escape(code: int) -> str:
    if 0xDC80 <= code < 0xDD00:  # how Python decodes a byte that is not UTF-8
        code -= 0xDC00
    return f"\\x{code:02x}" if code < 0x100 else f"\\u{code:04x}" if code < 0x1_0000 else f"\\U{code:08x}"


def show(line: str) -> None:
    """Prints one line."""
    print(printable(line, TAB))
