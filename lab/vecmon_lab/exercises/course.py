"""Write the course: a page with its exercises' texts and the command for a class, and the lessons before the exercises."""

import argparse
import pathlib
import re
from collections.abc import Sequence
from dataclasses import dataclass

from ..lessons.series import Entry, make_series
from ..lessons.series_links import lesson_link, read_mark
from ..lessons.strip import strip_picture
from ..machine.program import find_program
from ..page.build.html_elements import Html, content_of, element, joined, prose
from ..page.build.pages import filled_page, write_pages
from ..page.build.texts import html_text, page_text
from ..tables.table import read_table
from .check import script_before
from .exercise import OURS, Exercise, read_exercise


@dataclass(frozen=True)
class CourseEntry:
    """An exercise of the course, the minutes that it takes with its lesson, and the lesson."""

    exercise: Exercise
    minutes: str
    lesson: Entry


def add_arguments(parser: argparse.ArgumentParser) -> None:
    """Add the arguments of `vecmon-lab course`."""
    parser.add_argument(
        "folder", metavar="DIR", type=pathlib.Path, help="the folder of the pages, created if necessary"
    )
    parser.add_argument(
        "--play", metavar="ADDRESS", default="", help="the address of a playground, to which the pages link"
    )


def run(arguments: argparse.Namespace) -> int:
    """Write the pages, and print their paths in the course's order. Raises LabError and OSError."""
    program, folder, minutes = find_program(), arguments.folder, dict(read_table("course"))
    folder.mkdir(parents=True, exist_ok=True)
    exercises = {name: read_exercise(OURS / name) for name in minutes}
    scripts = {name: script_before(exercise) for name, exercise in exercises.items()}
    pages, lessons = make_series("course", program, {name: (it, it.steps[0].note) for name, it in scripts.items()})
    entries = [CourseEntry(it, minutes[lesson["name"]], lesson) for it, lesson in zip(exercises.values(), lessons)]
    title = page_text("course.index")
    write_pages(folder, [*pages, ("index", title, course_page(title, entries, arguments.play))])
    return 0


def course_page(title: str, entries: Sequence[CourseEntry], play: str) -> str:
    """Return the HTML of the page of exercises. play: the address of a playground, or """ ""
    checked = page_text("course.checked-in-playground") if play else page_text("course.checked-in-class")
    command = "" if play else element("pre", "vecmon-lab class DIR --course")
    sections = [_section(number, entry, play) for number, entry in enumerate(entries, 1)]
    return filled_page("course", title, checked=html_text(checked), command=command, exercises=joined(sections))


def _section(number: int, entry: CourseEntry, play: str) -> Html:
    """Return the HTML of an exercise: its lesson with a sentence and a picture, its text, and a link to the playground."""
    lesson = entry.lesson
    about = content_of(
        "course.lesson",
        lesson=lesson_link(lesson, lesson["title"]),
        read=read_mark("course", lesson, page_text("course.read")),
        sentence=prose(lesson["sentence"]),
        minutes=entry.minutes,
    )
    head = [element("h2", f"{number}. {entry.exercise.title}"), element("p", about), strip_picture(lesson["strip"])]
    texts = [_block(text) for text in re.split(r"\n{2,}", entry.exercise.text.strip("\n"))]
    solve = element("a", page_text("course.solve"), href=f"{play}#exercise={lesson['name']}")
    return joined([*head, *texts, *([element("p", solve)] if play else [])])


def _block(text: str) -> Html:
    """Return the HTML of a paragraph, a list or code in an exercise's text, as `blocks.js` shows it."""
    lines = text.split("\n")
    if all(line.startswith("    ") for line in lines):
        return element("pre", "\n".join(line[4:] for line in lines))
    if all(line.startswith("- ") for line in lines):
        return element("ul", *(element("li", prose(line[2:])) for line in lines))
    return element("p", prose(" ".join(lines)))
