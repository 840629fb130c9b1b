"""Mistakes of a source, and a compiler's warnings, as messages."""

import re
from collections.abc import Iterable
from typing import Literal, NotRequired, TypedDict

from .line import SourceError, token_length

Severity = Literal["error", "warning"]

_WORD = re.compile(r'"(?:[^"\\]|\\.)*"?|[A-Za-z_]\w*|[0-9][\w.]*|\S')  # a token of C
_OPTION = re.compile(r" \[(-W[^\]\s]+)\]$")
_MEANT = re.compile(r"; did you mean ['‘]([^'’]+)['’]\?")


class Mistake(TypedDict):
    """A mistake or a warning at a place in a source.

    line, column: the place, from 1 on; line 0 for a message without a place, such as a linker's
    length: the number of characters of the word at this place; 0 at the end of a line, or without a place
    code: the compiler's option for a warning, as `-Wunused-variable`, or the code of the machine's refusal, as `E15`
    fix: texts that may replace the word, the nearest one first
    """

    line: int
    column: int
    length: int
    severity: Severity
    message: str
    code: NotRequired[str]
    fix: NotRequired[list[str]]


def mistakes_json(
    errors: Iterable[SourceError], text: str, is_c: bool = False, severity: Severity = "error"
) -> list[Mistake]:
    """Return the mistakes or warnings of a source as messages, in the same order.

    text: the source; is_c: whether it is in C; severity: of all these messages
    """
    lines = text.split("\n")
    return [_mistake(error, lines, is_c, severity) for error in errors]


def _mistake(error: SourceError, lines: list[str], is_c: bool, severity: Severity) -> Mistake:
    line = lines[error.line - 1] if 0 < error.line <= len(lines) else ""
    mistake: Mistake = {
        "line": error.line,
        "column": error.column,
        "length": _word_length(line, error.column) if is_c else token_length(line, error.column),
        "severity": severity,
        "message": error.message,
    }
    option, meant = _OPTION.search(error.message), _MEANT.search(error.message)
    if code := error.code or (option[1] if option else ""):
        mistake["code"] = code
    if fix := [*error.fix] or ([meant[1]] if meant else []):
        mistake["fix"] = fix
    return mistake


def _word_length(line: str, column: int) -> int:
    """Return the length of the C token at a column of a line; 0 if there is none. column: from 1 on; 0 for no column"""
    word = _WORD.match(line, column - 1) if column else None
    return len(word[0]) if word else 0
