"""Divide a source into statements: remove comments, and split lines at semicolons."""

import re
from collections.abc import Iterator

from .line import Line, SourceError

_TEXT = r""""(?:[^"\\\n]|\\[^\n])*"?|'(?:\\[^\n]|[^\\\n])'?"""
_COMMENT = re.compile(rf"(?:{_TEXT})|(?P<LINE>(?:#|//)[^\n]*)|(?P<BLOCK>/\*.*?(?:(?P<END>\*/)|\Z))", re.DOTALL)
_END = re.compile(rf"(?:{_TEXT})|(?P<END>;)")


_BYTE_ORDER_MARK = "\ufeff"
_UTF_16 = re.compile(r"(?:\udcff\udcfe|\udcfe\udcff|\ufffd\ufffd)?(?:(?:\0[^\0]){2}|(?:[^\0]\0){2})")
"""The start of UTF-16 text in ASCII that was decoded as UTF-8: zeros, perhaps after a byte order mark, escaped or replaced."""


def without_comments(text: str) -> tuple[str, SourceError | None]:
    """Return a source with spaces in place of its comments, so that columns don't change, and a mistake or None.

    The mistake is a comment that doesn't end. A byte order mark at the start also becomes a space. For a source in UTF-16, return an
    empty text and a mistake.
    """
    error: SourceError | None = None
    if _UTF_16.match(text):
        return "", SourceError(1, 1, "this file is in UTF-16: save it as UTF-8")
    if text.startswith(_BYTE_ORDER_MARK):
        text = f" {text[1:]}"

    def blank(match: re.Match[str]) -> str:
        nonlocal error
        if match["BLOCK"] is None:
            return "" if match["LINE"] is not None else match[0]
        if match["END"] is None:
            line, column = text.count("\n", 0, match.start()) + 1, match.start() - text.rfind("\n", 0, match.start())
            error = SourceError(line, column, "this comment doesn't end: */ is missing", fix=())
        return re.sub(r"[^\n]", " ", match[0])

    return _COMMENT.sub(blank, text), error


def statements(text: str) -> Iterator[Line]:
    """Yield the statements of a source from which comments were removed."""
    for number, line in enumerate(text.split("\n"), 1):
        yield from split_line(Line(line.removesuffix("\r"), number))


def split_line(line: Line) -> Iterator[Line]:
    """Yield the statements of a line, which semicolons separate."""
    start = 0
    for match in _END.finditer(line.text) if ";" in line.text else ():
        if match["END"]:
            yield line.part(start, match.start())
            start = match.end()
    yield line.part(start) if start else line
