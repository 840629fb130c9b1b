"""The lines of the monitor: which lines may be sent, and which are read-only.

A line is a prefix, `1 ` to `8 ` for a user or `* ` for the operator, and a command.
"""

import functools
import re

from .. import LabError

DIGITS = "12345678"  # the users' digits, with which their lines begin
LOOKS = {f"{digit} {word}" for digit in DIGITS for word in "regs vcsr vreg dis peek state breaks trace".split()}
LOOKS |= {"* list", "* stats"}

_USER = re.compile("[1-8*] ")
_ODD = re.compile("[^ -~]")
_LINE = re.compile("[1-8*] [ -~]{0,1022}")


class BadLine(LabError, ValueError):
    """A line that isn't sent: its prefix, a character or its length is wrong, or it isn't read-only where it has to be."""


def check_line(line: str) -> None:
    """Raise BadLine unless a line has the prefix `1 ` to `8 ` or `* `, and then at most 1,022 printable ASCII characters."""
    if isinstance(line, str) and _is_line(line):
        return
    if isinstance(line, str) and not _USER.match(line):
        raise BadLine(f"a line begins with `1 ` to `8 ` or `* `: {line[:40]!a}")
    check_text(line, 2)


def check_text(text: str, start: int = 0) -> None:
    """Raise BadLine unless a text has at most 1,022 characters from index `start` on, all of them printable ASCII."""
    if not isinstance(text, str):
        raise BadLine("a line is a text")
    if invalid := _ODD.search(text, start):
        raise BadLine(f"character {invalid.start() + 1} of a line, {invalid[0]!a}, isn't printable ASCII")
    if len(text) - start > 1022:
        raise BadLine(f"a line has at most 1,022 characters after its user, and this one has {len(text) - start:,}")


@functools.lru_cache(maxsize=4096)
def _is_line(line: str) -> bool:
    """Return whether a line has the form that `check_line` requires. Most lines are sent many times, so results are cached."""
    return _LINE.fullmatch(line) is not None


def words_of(line: str) -> list[str]:
    """Return the command of a line and its arguments, without the prefix."""
    return line[2:].split()


def command_of(line: str) -> str:
    """Return the name of a line's command, such as `peek`; a command of the operator has its prefix, such as `* run`."""
    return ("* " if line[:1] == "*" else "") + "".join(words_of(line)[:1])


@functools.lru_cache(maxsize=4096)
def is_look(line: str) -> bool:
    """Return whether a line is read-only: it changes nothing, whatever its answer is."""
    return f"{line[:1]} {''.join(words_of(line)[:1])}" in LOOKS
