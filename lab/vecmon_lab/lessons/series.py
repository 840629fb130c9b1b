"""A series of lessons: pages with links to one another, and the data of each lesson for the series' index."""

import pathlib
from collections.abc import Mapping
from typing import TypedDict

from .frames import make_frames
from .page import lesson_page
from .script import Script
from .series_links import SeriesLesson
from .strip import Strip, strip_of

Entry = TypedDict("Entry", {"name": str, "title": str, "sentence": str, "strip": Strip})
"""A lesson in an index: the name of its page without the suffix, its title, its sentence and its picture."""


def make_series(
    series: str, program: pathlib.Path, scripts: Mapping[str, tuple[Script, str]]
) -> tuple[list[tuple[str, str, str]], list[Entry]]:
    """Return the pages of a series of lessons (for each a name, a title and the HTML), and the entries of the series' index.

    series: `tour` or `course`
    program: the path of vecmon
    scripts: the script of each lesson and the sentence about it in the index, by the lesson's name, in the order of the series

    Raises LabError as `make_frames` does.
    """
    lessons = [SeriesLesson(name=name, title=script.title) for name, (script, _) in scripts.items()]
    pages, entries = list[tuple[str, str, str]](), list[Entry]()
    for place, (name, (script, sentence)) in enumerate(scripts.items()):
        frames = make_frames(script, program)
        page = lesson_page(script.title, frames, script, {"name": series, "lessons": lessons, "place": place})
        pages.append((name, script.title, page))
        entries.append({"name": name, "title": script.title, "sentence": sentence, "strip": strip_of(frames)})
    return pages, entries
