"""A page's free program is a work of its own next to the exercises; the work of two tabs joins; a text that wasn't saved comes back."""

import json
import pathlib
from collections.abc import Mapping
from typing import Any

import pytest

from playground.test_page_desk import SOURCE, Page
from vecmon_lab.classes.core.progress import Start
from vecmon_lab.playground import page_desk
from vecmon_lab.playground.kept_texts import KeptTexts
from vecmon_lab.playground.page_source import PageSource

START = "an answer\n"
OF_2_0 = {
    "A1.s": ["nop\n", 5.0],
    "drafts/A1.doubles.s": ["nop\n", 5.0],
    "sources/A1.1.written@doubles.s": ["nop\n", 5.0],
    "A1.exercise": ["doubles", 5.0],
}
"""The storage of version 2.0 after *New program*, with a text that was typed and assembled."""


@pytest.fixture(autouse=True)
def images_in_a_folder(tmp_path: pathlib.Path, monkeypatch: pytest.MonkeyPatch) -> None:
    monkeypatch.setattr(page_desk, "ROOM", tmp_path / "images")


def source_of(page: Page) -> tuple[str, str]:
    """The exercise of the source that the page shows, "" for the free program, and its text."""
    source: Any = page.desk.hello()["patch"]
    return source["source"]["exercise"], source["source"]["text"]


def versions_of(page: Page) -> set[tuple[str, str]]:
    """The exercises and texts of the versions."""
    own = page.desk.student.source
    return {(version["exercise"], own.version(version["number"]).text) for version in own.versions}


def draft(page: Page, text: str) -> None:
    """Types a text."""
    page.ask("draft", text=text, number=page.desk.student.source.number)


def test_free_program_and_exercise_are_separate_works(program: pathlib.Path, tmp_path: pathlib.Path) -> None:
    """Each is there again when it is opened, also in a page that is opened later."""
    page = Page(program, tmp_path)
    assert source_of(page) == ("", "")
    page.ask("source", text=SOURCE)
    assert versions_of(page) == {("", SOURCE)}
    page.ask("open", exercise="doubles")
    assert source_of(page) == ("doubles", "")
    draft(page, START)
    page = Page(program, tmp_path, page.close())
    assert source_of(page) == ("doubles", START)
    page.ask("open", exercise="")
    assert source_of(page) == ("", SOURCE)
    page = Page(program, tmp_path, page.close())
    assert source_of(page) == ("", SOURCE)
    page.ask("open", exercise="doubles")
    assert source_of(page) == ("doubles", START)
    page.close()


def test_free_program_of_2_0_is_no_answer(program: pathlib.Path, tmp_path: pathlib.Path) -> None:
    """Version 2.0 saved it as the source of exercise 1, without a time at which that was opened."""
    page = Page(program, tmp_path, OF_2_0)
    assert source_of(page) == ("", "nop\n") and versions_of(page) == {("doubles", "nop\n")}
    page.ask("open", exercise="doubles")
    assert source_of(page) == ("doubles", "")
    page = Page(program, tmp_path, page.close())
    page.ask("open", exercise="")
    assert source_of(page) == ("", "nop\n")
    page.close()


def test_free_program_of_2_0_is_no_answer_once_another_exercise_was_opened() -> None:
    """Version 2.0 has no free program; it isn't known whether exercise 1 was opened. An answer was tried, or has a line of its start."""
    start = "# a0: address of the doubles\n        ret\n"
    own = {"A1.exercise": ["sums 7", 9.0], "A1.s": ["# sums\n", 9.0], "drafts/A1.sums.s": ["# sums\n", 9.0]}

    def opened(doubles: str, more: Mapping[str, Any] = {}) -> dict[str, str]:
        """The texts of the works in a page that is opened with an exercise 1 of this text, and opened again."""
        texts = KeptTexts(own | {"drafts/A1.doubles.s": [doubles, 5.0]} | more)
        for _ in range(2):
            source = PageSource("A1", texts, {"doubles": [Start(text=start, language=0)]})
            source.settle(["doubles", "sums"])
            source.save()
        found = {source.exercise: source.own.text}
        for exercise in ("", "doubles"):
            source.open(exercise)
            found[exercise] = source.own.text
        return found

    free = "        li t0, 3\n        ret\n"
    assert opened(free) == {"sums": "# sums\n", "": free, "doubles": ""}
    answer = f"li t0, 3\n{start}"
    assert opened(answer) == {"sums": "# sums\n", "": "", "doubles": answer}
    tried = opened(free, {"answers/A1.doubles.1.json": ["{", 5.0]})
    later = opened(free, {"free/A1.s": ["", 5.0]})
    assert tried == later == {"sums": "# sums\n", "": "", "doubles": free}


def test_own_program_is_offered_if_there_is_one(program: pathlib.Path, tmp_path: pathlib.Path) -> None:
    def is_offered(page: Page) -> bool:
        hello: Any = page.desk.hello()
        return bool(hello["patch"]["source"]["own_program"])

    page = Page(program, tmp_path)
    page.ask("open", exercise="doubles")
    draft(page, START)
    assert not is_offered(page)
    page.ask("open", exercise="")
    draft(page, SOURCE)
    page.ask("open", exercise="doubles")
    assert is_offered(page)
    assert is_offered(Page(program, tmp_path, page.close()))


def test_answer_of_2_0_stays_one(program: pathlib.Path, tmp_path: pathlib.Path) -> None:
    """Its student had opened the exercise, or an answer was checked; an exercise that the page doesn't have is no work of it."""
    opened = Page(program, tmp_path, OF_2_0 | {"A1.exercise": ["doubles 7", 5.0]})
    assert source_of(opened) == ("doubles", "nop\n")
    opened.close()
    tried = Page(program, tmp_path, OF_2_0 | {"answers/A1.doubles.1.json": ["{", 5.0]})
    assert source_of(tried) == ("doubles", "nop\n")
    tried.close()
    other = Page(program, tmp_path, {"A1.exercise": ["other 7", 5.0], "drafts/A1.other.s": ["nop\n", 5.0]})
    assert source_of(other) == ("", "nop\n")
    other.close()


@pytest.mark.parametrize("exercise", ["", "doubles"], ids=["free", "exercise"])
def test_work_of_two_tabs_joins(program: pathlib.Path, tmp_path: pathlib.Path, exercise: str) -> None:
    """Both began with one text. The text of each, the versions of both and all tries are there afterwards, and after a reload."""
    first = Page(program, tmp_path)
    first.ask("open", exercise=exercise)
    first.ask("source", text="li t0, 0\n")
    before = dict(first.close())
    tabs = [Page(program, tmp_path, before) for _ in range(2)]
    for tab, number in zip(tabs, "12"):
        tab.ask("source", text=f"li t0, {number}\n")
        tab.ask("check", exercise="doubles", text=f"li t0, {number}\nret\n")
        tab.desk.turn()
        tab.ask("open", exercise=exercise)
        draft(tab, f"li t0, {number}{number}\n")
    theirs = {name: entry for name, entry in tabs[0].close().items() if before.get(name) != entry}
    done = json.loads(theirs["answers/A1.doubles.1.json"][0])
    theirs["answers/A1.doubles.1.json"] = [json.dumps({**done, "time": done["time"] - 9}), 5.0]
    news: Any = tabs[1].desk.join(theirs)
    assert source_of(tabs[1]) == (exercise, "li t0, 22\n") and "versions" in news["patch"]["source"]
    last = tabs[1].desk.exercises.progress("A1", "doubles")
    assert last.source.text == "li t0, 2\nret\n", "the newest try is the last one"
    again = Page(program, tmp_path, tabs[1].close())
    assert source_of(again) == (exercise, "li t0, 22\n") and again.desk.lost == []
    texts = {text for work, text in versions_of(again) if work == exercise}
    assert texts >= {"li t0, 0\n", "li t0, 1\n", "li t0, 11\n", "li t0, 2\n"}
    tries = [again.ask("answer", exercise="doubles", number=number)["text"] for number in (1, 2)]
    assert tries == ["li t0, 1\nret\n", "li t0, 2\nret\n"] and again.view["exercises"]["doubles"]["tries"] == 2
    again.close()


def test_work_that_only_the_other_tab_has_opened_joins(program: pathlib.Path, tmp_path: pathlib.Path) -> None:
    page = Page(program, tmp_path)
    draft(page, SOURCE)
    theirs: dict[str, list[object] | None] = {
        "drafts/A1.doubles.s": [START, 5.0],
        "A1.exercise": ["doubles 5", 5.0],
        "images/sum": ["AAAA", 5.0],
        "answers/A1.doubles.1.json": ["{", 5.0],
        "A.script": None,
    }
    page.desk.join(theirs)
    assert source_of(page) == ("", SOURCE)
    page.ask("open", exercise="doubles")
    assert source_of(page) == ("doubles", START)
    kept = page.close()
    assert kept["images/sum"][0] == "AAAA" and kept["damaged/answers-A1.doubles.1.json"][0] == "{"


def test_unsaved_text_comes_back(program: pathlib.Path, tmp_path: pathlib.Path) -> None:
    """That of the open work is its source, unless a newer one is saved; any other becomes a version, and a damaged one is left out."""
    page = Page(program, tmp_path)
    page.ask("source", text=SOURCE)
    kept = page.close()
    saved = kept["free/A1.s"][1]
    unsaved: dict[str, Any] = {"text": "nop\n", "language": 0, "exercise": ""}
    cases: list[tuple[dict[str, Any], float, tuple[str, str], bool]] = [
        ({}, saved + 1, ("", "nop\n"), False),
        ({}, saved - 1, ("", SOURCE), True),
        ({"exercise": "doubles"}, saved + 1, ("", SOURCE), True),
        ({"language": 99}, saved + 1, ("", SOURCE), False),
        ({"exercise": "../a"}, saved + 1, ("", SOURCE), False),
    ]
    for change, when, expected, version in cases:
        again = Page(program, tmp_path, kept | {"A1.unsaved": [json.dumps(unsaved | change), when]})
        assert source_of(again) == expected
        assert "A1.unsaved" not in again.kept and again.desk.lost == []
        assert (((unsaved | change)["exercise"], "nop\n") in versions_of(again)) == version
        assert (again.kept["free/A1.s"][0] == "nop\n") == (expected[1] == "nop\n")
        again.close()


def test_text_of_a_waiting_tab_becomes_a_version(program: pathlib.Path, tmp_path: pathlib.Path) -> None:
    """Of its own work, once, also if another tab takes it up; an equal one and a damaged one don't."""
    page = Page(program, tmp_path)
    page.ask("source", text=SOURCE)
    kept = page.close()
    texts = {"a": ("", "nop\n"), "b": ("doubles", "ret\n"), "c": ("", "nop\n"), "d": ("../a", "x\n"), "e": ("", SOURCE)}
    waiting = {
        f"A1.unsaved.{page}": [json.dumps({"text": text, "language": 0, "exercise": exercise}), 5.0]
        for page, (exercise, text) in texts.items()
    }
    again = Page(program, tmp_path, kept | waiting)
    expected = {("", SOURCE), ("", "nop\n"), ("doubles", "ret\n")}
    assert source_of(again) == ("", SOURCE) and versions_of(again) == expected
    assert len(again.desk.student.source.versions) == len(expected)
    assert not any(name.startswith("A1.unsaved") for name in again.close())
    joined = Page(program, tmp_path, kept)
    joined.desk.join(waiting)
    assert source_of(joined) == ("", SOURCE) and versions_of(joined) == expected
    joined.close()
