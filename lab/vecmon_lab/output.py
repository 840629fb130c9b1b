"""Output of bytes past the buffer of standard output, and foreign text that is safe for a terminal."""

import os
import sys


def write_out(data: bytes) -> None:
    """Write bytes to standard output at once, past its buffer."""
    while data:
        data = data[os.write(sys.stdout.fileno(), data) :]


def terminal_text(text: str) -> str:
    """Return a text with `?` in place of characters that could control a terminal. Newlines and tabs are preserved."""
    return "".join(letter if letter.isprintable() or letter in "\n\t" else "?" for letter in text)
