"""Positions in a text: in the Language Server Protocol, and in the lab.

The protocol counts lines from 0, and the place in a line in UTF-16 code units from 0. The lab counts lines and columns from 1, and columns
in characters.
"""

import re
from collections.abc import Sequence
from typing import NotRequired, TypedDict

_LINE_END = re.compile(r"\r\n?|\n")
_BASIC = 0x10000  # the first character that takes two UTF-16 code units


class Position(TypedDict):
    """A position between two characters, in the protocol's form."""

    line: int
    character: int


class Range(TypedDict):
    """The characters between two positions."""

    start: Position
    end: Position


class Change(TypedDict):
    """A change of a document by its editor: the new text of a range, or of the whole document if there is no range."""

    range: NotRequired[Range]
    text: str


class TextEdit(TypedDict):
    """A change of a document that the server proposes: the new text of a range."""

    range: Range
    newText: str


def lines_of(text: str) -> list[str]:
    """Return the lines of a text, without their line ends."""
    return _LINE_END.split(text)


def units(text: str) -> int:
    """Return the length of a text in UTF-16 code units."""
    return len(text) if text.isascii() else sum(1 + (ord(letter) >= _BASIC) for letter in text)


def index_at(line: str, character: int) -> int:
    """Return the index of the character in a line that is `character` UTF-16 code units from its start; at most the line's length."""
    if line.isascii():
        return min(max(character, 0), len(line))
    for index, letter in enumerate(line):
        if character <= 0:
            return index
        character -= 1 + (ord(letter) >= _BASIC)
    return len(line)


def position(lines: Sequence[str], line: int, column: int) -> Position:
    """Return the position of a line and a column, which are counted from 1; the nearest position if the text has none there."""
    number = min(max(line, 1), len(lines))
    before = lines[number - 1][: max(column, 1) - 1] if number == line else ""
    return {"line": number - 1, "character": units(before)}


def range_of(lines: Sequence[str], line: int, column: int, length: int) -> Range:
    """Return the range of a token. line, column: its start, counted from 1; length: the number of its characters

    The range has at least one character, so that an editor can mark it. For a token of length 0 at the end of a line, that is the last character
    of the line that isn't a blank.
    """
    text = lines[line - 1] if 0 < line <= len(lines) else ""
    first = min(column, len(text) + 1)
    if length == 0 and first > len(text):
        first = max(len(text.rstrip()), 1)
    end = min(first + max(length, 1), len(text) + 1)
    return {"start": position(lines, line, first), "end": position(lines, line, end)}


def changed(lines: Sequence[str], change: Change) -> list[str]:
    """Return the lines of a text after a change."""
    if "range" not in change:
        return lines_of(change["text"])
    first, start = _place(lines, change["range"]["start"])
    last, end = _place(lines, change["range"]["end"])
    middle = lines[first][:start] + change["text"] + lines[last][end:]
    return [*lines[:first], *lines_of(middle), *lines[last + 1 :]]


def _place(lines: Sequence[str], where: Position) -> tuple[int, int]:
    """Return the number of a position's line, from 0, and the index in this line. A position after the text is moved to the text's end."""
    if where["line"] >= len(lines):
        return len(lines) - 1, len(lines[-1])
    number = max(where["line"], 0)
    return number, index_at(lines[number], where["character"])
