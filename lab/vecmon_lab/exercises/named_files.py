"""Checks of exercise.toml: the named files are in the exercise's folder, and the texts are safe to display."""

import os
import pathlib
import re
import tomllib
from dataclasses import dataclass

from .. import LabError
from ..guest.guest import IMAGE_BYTES

SOURCE_BYTES = 1 << 16  # the largest source for students; a class doesn't accept longer ones from them
FILES = {
    "reference": IMAGE_BYTES,
    "good": IMAGE_BYTES,
    "start": SOURCE_BYTES,
    "start_c": SOURCE_BYTES,
    "lesson": SOURCE_BYTES,
}
"""The keys of an exercise that name a file in its folder, each with the maximum size of the file in bytes."""
MAX_CANDIDATES = 64  # lines that may have the key; the parser is called for each

_CONTROLS = re.compile("[\0-\x1f\x7f-\x9f\u061c\u200e\u200f\u2028-\u202e\u2066-\u2069]")
"""Control characters, separators of lines, and Unicode's bidirectional controls, which reorder the text after them."""


@dataclass(frozen=True)
class KeyPlace:
    """The place of a top-level key in a TOML file, as messages name it: `exercise.toml:3: start`."""

    path: pathlib.Path
    toml: str
    key: str

    def __str__(self) -> str:
        line = self.line()
        return f"{self.path}:{line}: {self.key}" if line else f"{self.path}: {self.key}"

    def line(self) -> int:
        """The line of the key, from 1; 0 if the file doesn't have the key, or if more than MAX_CANDIDATES lines look like it.

        Such a line may be inside a multi-line text. Then the lines before it aren't a whole TOML document, which the parser detects.
        """
        lines = self.toml.split("\n")
        looks_like = re.compile(rf"""\s*["']?{re.escape(self.key)}["']?\s*=""")
        candidates = [number for number, line in enumerate(lines) if looks_like.match(line)]
        return next((number + 1 for number in candidates[:MAX_CANDIDATES] if _is_toml(lines[:number])), 0)


def named_file(folder: pathlib.Path, name: str, limit: int) -> pathlib.Path:
    """Return the path of a file in an exercise's folder. No link below the folder is followed.

    limit: the file's maximum size in bytes

    Raises LabError if the file is elsewhere, isn't a regular file, or is too large; and OSError.
    """
    check_text(name)
    file, home = pathlib.Path(os.path.realpath(folder / name)), pathlib.Path(os.path.realpath(folder))
    if not file.is_relative_to(home):
        raise LabError(f"{name} is outside the exercise's folder: copy the file into {folder}")
    inside = folder / file.relative_to(home)
    if not inside.exists():
        raise LabError(f"there is no file {folder / name}")
    if not inside.is_file():
        raise LabError(f"{folder / name} is no regular file")
    if (size := inside.stat().st_size) > limit:
        raise LabError(f"{folder / name} has {size:,} bytes, and {limit:,} is the maximum")
    return inside


def check_folder(folder: pathlib.Path, name: str) -> None:
    """Raise LabError if a folder in an exercise's folder is a link to another place. The folder may be missing."""
    if not pathlib.Path(os.path.realpath(folder / name)).is_relative_to(os.path.realpath(folder)):
        raise LabError(f"{folder / name} is outside the exercise's folder: copy its files")


def check_source(file: pathlib.Path) -> None:
    """Raise LabError if a source for students isn't text in UTF-8, or has control characters. Raises OSError."""
    try:
        check_text(file.read_text("utf-8"), has_lines=True)
    except UnicodeDecodeError as error:
        raise LabError(
            f"{file} is no text in UTF-8: byte {error.start + 1} is {error.object[error.start]:#04x}"
        ) from error


def check_text(text: str, has_lines: bool = False) -> None:
    """Raise LabError if a text has control or bidirectional characters. has_lines: whether newlines and tabs are allowed"""
    checked = text.replace("\n", "").replace("\t", "") if has_lines else text
    if found := _CONTROLS.search(checked):
        number = f"U+{ord(found[0]):04X}"
        raise LabError(f"it has the character {number}, which controls how text is shown: remove the character")


def _is_toml(lines: list[str]) -> bool:
    """Return whether lines are a whole TOML document."""
    try:
        tomllib.loads("\n".join(lines))
    except tomllib.TOMLDecodeError:
        return False
    return True
