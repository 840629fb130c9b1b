"""Pages with texts in brackets: any text outside of brackets is data, and not in the table of texts (docs/ADDING.md)."""

import pathlib
from collections.abc import Callable, Iterator, Mapping, Sequence
from dataclasses import replace
from typing import TYPE_CHECKING

import pytest

from support.bracketed_texts import IMPORT, UNBRACKETED, bracketed
from support.class_pages import Explored, Served, Tab
from support.places import EXAMPLES
from vecmon_lab.exercises.course import CourseEntry, course_page
from vecmon_lab.exercises.exercise import OURS, read_exercise
from vecmon_lab.lessons.frames import make_frames
from vecmon_lab.lessons.listings import CompiledListing, listings_page
from vecmon_lab.lessons.page import lesson_page
from vecmon_lab.lessons.script import read_assembled
from vecmon_lab.lessons.series import Entry
from vecmon_lab.lessons.series_links import Series
from vecmon_lab.lessons.strip import Strip
from vecmon_lab.lessons.tour import tour_page
from vecmon_lab.page.build import pages, texts
from vecmon_lab.runs.callers import CallFrame
from vecmon_lab.runs.profile_page import profile_page
from vecmon_lab.runs.tick_profile import Table, TableRow

if TYPE_CHECKING:
    from selenium.webdriver import Chrome

# Elements with data: programs, lines of the monitor and its replies, numbers, registers, and texts of authors and of the lab's core.
DATA = ", ".join(
    [
        "code, kbd, pre, .CodeMirror, #written li, #language, #against, #images, #given-language, #line",
        "#listing tbody td, #listing tbody th, #log li, #bytes tbody td, #registers dt, #registers dd, #variables tbody",
        ".facts dt, .facts dd, .lanes th b, .card b, .card .meaning, .detail b, .detail small",
        "#step > span, #stop, #sentence, #points li, #in-memory li",
        "#entry, #entries, #mistakes, .problems-below",
        "#course-list button, #exercise-text, #hints li, #cases tbody, #verdict p",
        ".teaching #who, .course label, #columns, #seats [title], #shoulder-says",
        "#examples .tile, #recent .tile",
        ".listings thead, .profile tbody, #tables, #summary, #flame, #lengths",  # of the core's tables
        "#lessons a, #lessons p, #course h2, #course a, #course > p, .strip",
    ]
)
STRIP: Strip = {"name": "v1", "text": "vid.v v1", "cells": [("0a", "active"), ("ff", "tail")]}
LESSON: Entry = {"name": "one", "title": "Title", "sentence": "A sentence.", "strip": STRIP}
SERIES: Series = {
    "name": "tour",
    "lessons": [{"name": name, "title": f"⟦{name}⟧"} for name in ("one", "two", "three")],
    "place": 1,
}
EXERCISE = replace(read_exercise(OURS / "doubles"), text="A text.")
ROW: TableRow = ["10000", "main", "main.c:1", "vid.v v1", 1, 9, 8, 0, 0, "100 %"]
FRAMES = [CallFrame("main", 3, 9, (CallFrame("leaf", 6, 6, ()),))]
TABLE = Table("Functions", ["function", "ticks"], 1, [["main", 9]])
LISTING = CompiledListing("gcc", ["1"], [["10000", 1, "", "vid", 1, 8, 0, 0]])
LONE: Mapping[str, Callable[[], str]] = {  # pages without a machine
    "tour": lambda: tour_page("⟦⟧", [LESSON]),
    "course": lambda: course_page("⟦⟧", [CourseEntry(EXERCISE, "5", LESSON)], ""),
    "course in playground": lambda: course_page("⟦⟧", [], "play"),
    "profile": lambda: profile_page("⟦⟧", ["9 ticks"], [TABLE], [("e8, m1", 8, 1)], FRAMES, [ROW]),
    "listings": lambda: listings_page("⟦⟧", "line", [LISTING]),
}


class Bracketed(Served):
    """A class whose pages have texts in brackets."""

    before = IMPORT


class BracketedAuthor(Explored):
    """An author's page, so too."""

    before = IMPORT


def unbracketed(browser: "Chrome") -> Sequence[str]:
    """The texts that a page shows outside of brackets, with their elements, but for data."""
    found: list[str] = browser.execute_script(UNBRACKETED, DATA)
    return found


@pytest.fixture
def opened(
    monkeypatch: pytest.MonkeyPatch, browser: "Chrome", tmp_path: pathlib.Path
) -> Iterator[Callable[[str], Sequence[str]]]:
    """Opens a page, which is built with texts in brackets, and returns the texts outside of them."""
    monkeypatch.setattr(texts, "read_texts", bracketed)

    def show(page: str) -> Sequence[str]:
        (tmp_path / "page.html").write_text(page, "utf-8")
        browser.get("about:blank")
        browser.get((tmp_path / "page.html").as_uri())
        return unbracketed(browser)

    pages._page.cache_clear()
    yield show
    pages._page.cache_clear()


def test_text_outside_of_table_is_found(opened: Callable[[str], Sequence[str]]) -> None:
    page = '<title>⟦a⟧</title><body><p id="a">⟦in <b>side</b>⟧, out</p><p hidden>hidden</p><code>data</code><i title="tip">7</i>'
    assert opened(page) == ["#a: , out", " i. title: tip"]
    assert opened("<title>here</title><body>⟦open") == ["brackets: 1", "title: here"]


@pytest.mark.parametrize("name", LONE)
def test_page_without_machine_shows_texts_of_table(opened: Callable[[str], Sequence[str]], name: str) -> None:
    assert opened(LONE[name]()) == []


def test_lesson_shows_texts_of_table(
    opened: Callable[[str], Sequence[str]], browser: "Chrome", program: pathlib.Path
) -> None:
    """Its first frame, a load, an arithmetic instruction, and the last one."""
    script = read_assembled((EXAMPLES / "strip_mined.s").read_text("utf-8"), "x")
    frames = make_frames(script, program)
    shown = list(opened(lesson_page("⟦⟧", frames, script, SERIES)))
    for place in (5, 7, len(frames)):
        browser.execute_script("document.getElementById('place').value = arguments[0] - 1", place)
        browser.execute_script("document.getElementById('place').dispatchEvent(new Event('input'))")
        shown += unbracketed(browser)
    assert shown == []


def show_student(tab: Tab) -> Iterator[str]:
    """States of a student's page: the first visit, steps, each tab, the past, a problem, a check that fails, a question, a message."""
    tab.wait("!id('exercise').hidden")
    yield "first visit"
    tab.write(
        "li x1, 8\nvsetvli t0, x1, e32, m1, ta, ma\nvid.v v1\nvmsgtu.vi v0, v1, 3\nvadd.vv v2, v1, v1, v0.t\nlw x1, 0(x0)"
    )
    tab.run("id('assemble').click()")
    tab.wait("one('#listing .next')")
    for condition, steps in (("Paused", 5), ("Fault", 1)):
        tab.run("(id('number').value = arguments[0], id('many').click())", steps)
        tab.wait("id('run').dataset.condition === arguments[0]", condition)
        yield f"{steps} steps"
    for name in ("show-reference", "show-problems", "show-output", "show-memory", "show-listing", "backward"):
        tab.run("id(arguments[0]).click()", name)
        yield name
    tab.run("(id('now').click(), all('details').forEach((each) => each.open = true))")
    tab.write("vadd.vv v1, v2\n")
    tab.run("id('go').click()")
    tab.wait("one('#mistakes button')")
    yield "problem"
    tab.run("one('#course-list button').click()")
    tab.wait("!id('check').disabled")
    tab.write((OURS / "doubles" / "wrong" / "always_eight.s").read_text("utf-8"))
    tab.run("id('check').click()")
    tab.wait("one('#verdict h3')")
    yield "check"
    tab.run("id('new').click()")
    yield "question"


def test_class_shows_texts_of_table(tabs: "Chrome", program: pathlib.Path, tmp_path: pathlib.Path) -> None:
    """The page for a code, the pages of a student and of the teacher, before and after the student's work, and the wall."""
    served = Bracketed(tmp_path / "class", program, "--course")
    try:
        tabs.get(f"http://127.0.0.1:{served.port}/")
        shown = {"join": unbracketed(tabs)}
        tabs.get_log("browser")  # which says that the form has the focus already
        teacher = Tab(tabs, served, "teacher")
        shown["start"] = unbracketed(teacher.activate())
        student = Tab(tabs, served, "A1")
        shown |= {state: unbracketed(student.activate()) for state in show_student(student)}
        teacher.click("tr[data-seat='A1'] .look")
        teacher.wait("one('#listing tbody tr')")
        shown["shoulder"] = unbracketed(teacher.activate())
        for name in ("open-settings", "open-join", "open-exercises", "show-keys"):
            teacher.run("(id(arguments[0]).click(), 0)", name)
            shown[name] = unbracketed(teacher.activate())
            teacher.run("all('dialog[open]').forEach((each) => each.close())")
        shown["wall"] = unbracketed(Tab(tabs, served, "wall").activate())
        assert [f"{state}: {text}" for state, found in shown.items() for text in found] == []
    finally:
        served.end()


def test_page_of_author_shows_texts_of_table(tabs: "Chrome", program: pathlib.Path, tmp_path: pathlib.Path) -> None:
    """The start page, and the bench with search and replacement in the editor."""
    served = BracketedAuthor(tmp_path / "author", program, None)
    try:
        tab = Tab(tabs, served, "A1")
        shown = [*unbracketed(tab.activate())]
        tab.run("id('new-program').click()")
        for command in ("find", "replaceAll"):
            tab.run("code().execCommand(arguments[0])", command)
            tab.wait("one('.CodeMirror-dialog')")
            shown += tabs.execute_script(UNBRACKETED, DATA.replace(", .CodeMirror,", ", .CodeMirror-lines,"))
        assert shown == []
    finally:
        served.end()
