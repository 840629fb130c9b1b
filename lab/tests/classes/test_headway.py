"""Students who make no headway at an exercise and never press Check; by a clock that the tests set."""

import pathlib

import pytest

from support.class_tabs import served
from vecmon_lab.classes.server import headway
from vecmon_lab.classes.server.headway import Headway

START = 1_796_000_000.0


class Clock:
    """A clock that a test sets, in seconds since 1970."""

    def __init__(self) -> None:
        self.now = START

    def __call__(self) -> float:
        return self.now


def test_new_lines_stops_and_cases_are_headway() -> None:
    """Nothing that a student had before counts: text that was deleted and typed again, a stop at the same place, fewer cases."""
    clock = Clock()
    student = Headway(clock)
    steps = [
        ("doubles", "vsetvli", "", 0, True),
        ("doubles", "vsetvli\n  ret", "", 0, True),
        ("doubles", "vsetvli", "", 0, False),
        ("doubles", "ret", "10000", 0, True),
        ("doubles", "ret", "10004", 0, True),
        ("doubles", "ret", "10000", 0, False),
        ("doubles", "ret", "10000", 2, True),
        ("doubles", "ret", "10000", 2, False),
        ("filter", "ret", "10000", 0, True),
    ]
    for exercise, text, pc, best, is_headway in steps:
        clock.now += 599
        before = student.since
        student.follow(exercise, text, pc, best)
        assert (student.since == clock.now) == is_headway and is_headway == (student.since != before)


def test_ten_minutes_without_headway_count() -> None:
    clock = Clock()
    student = Headway(clock)
    student.follow("doubles", "ret", "", 0)
    clock.now += 599
    student.follow("doubles", "ret\n# ret", "", 0)
    clock.now = START + 599 + 599
    student.follow("doubles", "ret", "", 0)
    assert student.stuck_since() is None
    clock.now += 1
    assert student.stuck_since() == START + 599 + 600
    student.restart()
    assert student.stuck_since() is None


@pytest.mark.asyncio
async def test_student_without_headway_needs_help(tmp_path: pathlib.Path, monkeypatch: pytest.MonkeyPatch) -> None:
    """With a tab, at an exercise that isn't solved; the teacher sees it without a request, and its end."""
    async with served(tmp_path / "class", exercises=[pathlib.Path("doubles")]) as room:
        tab, teacher = await room.sit("A1"), await room.sit("teacher")
        assert room.members
        clock = Clock()
        for name in ("A1", "A2"):
            room.members.stuck._headway[name] = Headway(clock)
        room.members.save()
        clock.now += headway.NO_HEADWAY_SECONDS
        await teacher.until(lambda view: view["machines"]["A"]["seats"]["1"]["stuck"])
        seats = teacher.view["machines"]["A"]["seats"]
        assert seats["1"]["stuck_since"] == START + 600 and not seats["2"]["stuck"]
        await tab.ask("draft", text="vsetvli t0, a2, e32, m1, ta, ma", number=tab.view["source"]["number"])
        await teacher.until(lambda view: not view["machines"]["A"]["seats"]["1"]["stuck"])
        clock.now += headway.NO_HEADWAY_SECONDS
        await teacher.until(lambda view: view["machines"]["A"]["seats"]["1"]["stuck"])
        await tab.socket.close()
        await teacher.until(lambda view: not view["machines"]["A"]["seats"]["1"]["stuck"])
