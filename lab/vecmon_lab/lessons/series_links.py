"""Links between the lessons of a series in HTML, with marks on the lessons that were read."""

from collections.abc import Sequence
from typing import TypedDict

from ..page.build.html_elements import Html, element, joined
from ..page.build.texts import page_text


class SeriesLesson(TypedDict):
    """A lesson of a series: the name of its page without the suffix, and its title."""

    name: str
    title: str


class Series(TypedDict):
    """The place of a lesson in a series.

    name: `tour` or `course`, under which the browser stores the names of lessons that were read
    lessons: all lessons of the series, in order; place: the index of this lesson
    """

    name: str
    lessons: Sequence[SeriesLesson]
    place: int


def lesson_link(lesson: SeriesLesson, content: str, **attributes: object) -> Html:
    """Return a link to the page of a lesson in the same folder. content: the link's text; attributes: further attributes of the HTML element"""
    return element("a", content, href=f"{lesson['name']}.html", **attributes)


def read_mark(series: str, lesson: SeriesLesson, text: str) -> Html:
    """Return a text that marks a lesson as read. `progress.js` removes it if the lesson wasn't read."""
    return element("span", text, class_="read", data_lesson=f"{series}/{lesson['name']}")


def place_of(series: Series) -> str:
    """Return a text with the number of the lesson in its series, and the number of all lessons."""
    return page_text("lesson.series-place", number=series["place"] + 1, all=len(series["lessons"]))


def marks_of(series: Series) -> Html:
    """Return a link for each lesson of a series, in their order."""
    return joined([_mark(series, number) for number in range(len(series["lessons"]))])


def neighbours_of(series: Series) -> Html:
    """Return links to the lessons before and after this one."""
    texts = {-1: page_text("lesson.previous"), 1: page_text("lesson.following")}
    lessons, places = series["lessons"], {series["place"] + step: text for step, text in texts.items()}
    there = [(lessons[place], text) for place, text in places.items() if 0 <= place < len(lessons)]
    return joined([joined([" ", lesson_link(lesson, text, title=lesson["title"])]) for lesson, text in there])


def _mark(series: Series, place: int) -> Html:
    """Return the link to one lesson of a series. place: the lesson's index"""
    lesson, is_this = series["lessons"][place], place == series["place"]
    text = page_text("lesson.mark", number=place + 1, title=lesson["title"])
    content = element("span", text, read_mark(series["name"], lesson, page_text("lesson.mark-read")), class_="unseen")
    return element("li", lesson_link(lesson, content, title=lesson["title"], aria_current="page" * is_this))
