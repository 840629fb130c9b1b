"""Sources that an author's start page offers: complete programs in assembler and C, each with its title and a sentence."""

import pathlib
import re
from collections.abc import Iterable
from typing import TypedDict

from ...exercises.exercise import OURS
from ...page.build.texts import page_text
from ...places import EXAMPLES
from ...tables.table import read_table
from .languages import C

LESSON = "lesson.s"  # in the folder of an exercise
_OF_LESSONS = re.compile(
    r"^(?:#|//)> *(?:step|go|out)\b.*\n", re.MULTILINE
)  # lines of lessons, which other pages don't execute


class ExampleSource(TypedDict):
    """A source that the start page offers.

    group: the heading above it; name: the name of its file; about: a sentence about it, with backquotes around code
    language: the number of its language
    """

    group: str
    name: str
    title: str
    about: str
    text: str
    language: int


def example_sources() -> list[ExampleSource]:
    """Return the examples in the order of their groups: assembler, with the lessons of the course; sources with flaws; C."""
    lessons = [OURS / name / LESSON for name, _ in read_table("course")]
    groups = {
        page_text("author.assembler"): [*sorted(EXAMPLES.glob("*.s")), *lessons],
        page_text("author.flawed"): sorted(EXAMPLES.glob("unwritten/*.s")),
        page_text("author.c"): sorted(EXAMPLES.glob("kernels/*.c")),
    }
    return [_example(group, path) for group, paths in groups.items() for path in paths]


def _example(group: str, path: pathlib.Path) -> ExampleSource:
    """Return the example in a file. The comments at its start have the title, in a line that begins with ##, and the sentence.

    A lesson of the course gets a file name from its title: the file itself is called `lesson.s`, in the folder of the exercise after it.
    """
    text = path.read_text("utf-8")
    comments = _first_comments(text.splitlines())
    titles = [line.lstrip("/# ") for line in comments if line.startswith(("##", "//#"))]
    about = " ".join(line.lstrip("/# ") for line in comments if not line.startswith(("##", "//#", "//>")))
    title = titles[0] if titles else path.stem.replace("_", " ").capitalize()
    language = C if path.suffix == ".c" else 0
    text = _OF_LESSONS.sub("", text)
    name = _file_name(title) if path.name == LESSON else path.name
    return {"group": group, "name": name, "title": title, "about": about, "text": text, "language": language}


def _file_name(title: str) -> str:
    """Return a file name for a title: the words before the first comma, without an article at the start, such as `losses_halved.s`."""
    words = re.sub("^(The|An?) ", "", title.partition(",")[0])
    return f"{words.lower().replace(' ', '_')}.s"


def _first_comments(lines: Iterable[str]) -> list[str]:
    """Return the comment lines at the start of a source."""
    comments = list[str]()
    for line in lines:
        if not re.match("#(?!include)|//", line):
            return comments
        comments.append(line)
    return comments
