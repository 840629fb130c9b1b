"""The generated parts of files, for `tools/instructions`: where each one is, and how it is compared and written.

A part is found by lines or texts around it, its anchors, which aren't generated. The file itself has no marks, so that the crates are the
files that were proved.
"""

import re
from collections.abc import Iterable, Sequence
from dataclasses import dataclass
from pathlib import Path
from typing import Protocol

COLUMNS = 120  # of a list that is written anew


class PartError(Exception):
    """The anchors of a part aren't in its file."""


@dataclass(frozen=True)
class Place:
    """A part of a text: the offsets of its first character and of the one after its last."""

    start: int
    end: int


@dataclass(frozen=True)
class Run:
    """Lines that follow each other and start with a prefix; the file has one such run.

    Raises PartError from `place_in` if there is none, or more than one.
    """

    path: str
    prefix: str
    lines: Sequence[str]

    def place_in(self, text: str) -> Place:
        """The place of the lines in a text."""
        found = [*re.finditer(rf"(?:^{re.escape(self.prefix)}.*\n)+", text, re.MULTILINE)]
        if len(found) != 1:
            raise PartError(
                f"{self.path}: {len(found)} runs of lines start with {self.prefix.strip()!r}, instead of one"
            )
        return Place(*found[0].span())

    def written(self, _old: str) -> str:
        """The text of the part."""
        return "".join(f"{line}\n" for line in self.lines)


@dataclass(frozen=True)
class Between:
    """The lines between a line, which follows others in the file, and the next equal to `before`.

    after: lines of the file in this order; the last one is before the part
    """

    path: str
    after: Sequence[str]
    before: str
    lines: Sequence[str]

    def place_in(self, text: str) -> Place:
        """The place of the lines in a text. Raises PartError."""
        at = 0
        for line in self.after:
            at = self._after(text, line, at)
        end = text.find(f"\n{self.before}\n", at - 1)
        if end < 0:
            raise PartError(f"{self.path}: no line {self.before.strip()!r} follows {self.after[-1].strip()!r}")
        return Place(at, end + 1)

    def _after(self, text: str, line: str, start: int) -> int:
        """The offset after the first line of this text from an offset on. Raises PartError."""
        if text.startswith(f"{line}\n", start):
            return start + len(line) + 1
        found = text.find(f"\n{line}\n", start)
        if found < 0:
            raise PartError(f"{self.path}: there is no line {line.strip()!r}")
        return found + len(line) + 2

    def written(self, _old: str) -> str:
        """The text of the part."""
        return "".join(f"{line}\n" for line in self.lines)


@dataclass(frozen=True)
class Items:
    """A list inside a definition: the first group of a pattern. Its line breaks stay while its items are the same.

    items: the items, which the file has between `separator`s, with `end` after them
    """

    path: str
    pattern: str
    items: Sequence[str]
    separator: str = "∷"
    end: str = "∷ []"

    def place_in(self, text: str) -> Place:
        """The place of the list in a text. Raises PartError."""
        found = [*re.finditer(self.pattern, text)]
        if len(found) != 1:
            raise PartError(f"{self.path}: {len(found)} texts fit {self.pattern!r}, instead of one")
        return Place(*found[0].span(1))

    def written(self, old: str) -> str:
        """The text of the list, with the line breaks of the old one if that has the same items."""
        wanted = f" {self.separator} ".join(self.items) + f" {self.end}"
        if " ".join(old.split()) == wanted:
            return old
        return _filled(wanted.split(" "), "    ")


class Part(Protocol):
    """A part of a file."""

    @property
    def path(self) -> str:
        """The file."""

    def place_in(self, text: str) -> Place:
        """The place of the part in a text. Raises PartError."""

    def written(self, old: str) -> str:
        """The text of the part by the records, from the one that the file has."""


def _filled(words: Iterable[str], indent: str) -> str:
    """Words in lines of at most 120 columns; all lines but the first are indented, and none starts with a separator."""
    lines, line = list[str](), ""
    for word in words:
        if len(indent) + len(line) + len(word) + 3 > COLUMNS and word not in ("∷", "[]"):
            lines, line = [*lines, line], word
        else:
            line = f"{line} {word}" if line else word
    return f"\n{indent}".join([*lines, line])


def replaced(text: str, parts: Iterable[Part]) -> str:
    """The text of a file with its parts as the records have them. Raises PartError."""
    for part in parts:
        place = part.place_in(text)
        text = text[: place.start] + part.written(text[place.start : place.end]) + text[place.end :]
    return text


def first_difference(path: Path, has: str, wanted: str) -> str:
    """The file, the line and the texts of the first difference, as a line."""
    have, want = has.split("\n"), wanted.split("\n")
    number = next((at for at, (old, new) in enumerate(zip(have, want)) if old != new), min(len(have), len(want)))
    lines = [texts[number].strip() if number < len(texts) else "the end of the file" for texts in (have, want)]
    return f"{path}:{number + 1}: it has {lines[0]!r}; by the records it is {lines[1]!r}"
