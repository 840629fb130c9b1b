"""Names of students at seats, for their teacher: a class saves them in a separate file, and no machine knows them."""

import csv
import io
import re
import time
import unicodedata
from collections.abc import Iterable

from ...tables.table import spreadsheet_row
from .bad_request import BadRequest

NAMES = "names.json"  # by seat
MAX_LETTERS = 40
ABOVE_OR_BELOW = 200  # the lowest combining class of marks above or below a letter
_PILE = re.compile(r"(?:\^-*){4}")  # four marks above or below one letter, each `^`; other marks are `-`
_FILLERS = [0x115F, 0x1160, 0x3164, 0xFFA0]
_SELECTORS = [*range(0x180B, 0x1810), *range(0xFE00, 0xFE10), *range(0xE0100, 0xE01F0)]
_INVISIBLE = frozenset(map(chr, [0x34F, 0x17B4, 0x17B5, *_FILLERS, *_SELECTORS]))
"""Letters and marks without a shape (Unicode's Default_Ignorable_Code_Point): with them, two names could look alike, or a name empty."""


def has_piled_marks(text: str) -> bool:
    """Return whether a letter has more than three marks above or below it, which may cover the lines around it."""
    kinds = ["-" if unicodedata.category(it)[0] == "M" else " " for it in text]
    marks = "".join("^" if unicodedata.combining(it) >= ABOVE_OR_BELOW else kind for it, kind in zip(text, kinds))
    return _PILE.search(marks) is not None


def checked_text(text: str) -> str:
    """Return a student's text for the teacher. Raises BadRequest if it has too many marks on a letter."""
    if has_piled_marks(text):
        raise BadRequest("a letter has more than 3 marks above or below it: leave some out")
    return text


def checked_name(text: str) -> str:
    """Return a name in Unicode's composed form, without spaces around it. An empty name is allowed.

    A name has visible letters of any script with their marks, digits, spaces and some punctuation. So it is safe in HTML and in a
    table's cell. Raises BadRequest for any other name, and for one that is too long.
    """
    name = unicodedata.normalize("NFC", text).replace("’", "'").strip(" ")
    kinds = [unicodedata.category(letter) for letter in name]
    is_fit = all(kind[0] in "LM" or kind == "Nd" or letter in " -'." for letter, kind in zip(name, kinds))
    is_fit = is_fit and _INVISIBLE.isdisjoint(name) and not has_piled_marks(name)
    if not is_fit or len(name) > MAX_LETTERS or name and kinds[0][0] != "L":
        raise BadRequest(f"a name begins with a letter, and has {MAX_LETTERS} letters, digits, spaces or -'. at most")
    return name


def local_time(seconds: float) -> str:
    """Return the local date and time of a time in seconds since 1970."""
    return time.strftime("%Y-%m-%d %H:%M:%S", time.localtime(seconds))


def as_csv(rows: Iterable[Iterable[object]]) -> bytes:
    """Return rows as CSV for spreadsheets, in which no cell is a formula."""
    text = io.StringIO()
    csv.writer(text).writerows(map(spreadsheet_row, rows))
    return text.getvalue().encode("utf-8-sig")
