"""Checks of a class that fail on the server's side: they are no try and no mark, and the teacher sees the cause."""

import asyncio
import contextlib
import os
import pathlib
import signal
import time
from typing import Any

import pytest

from support.class_tabs import SECONDS, Served, Tab, passed, served
from vecmon_lab.exercises.exercise import OURS

pytestmark = pytest.mark.asyncio

GOOD = (OURS / "doubles" / "good.s").read_text("utf-8")
UNCHECKED = {"unchecked": "The answer couldn't be checked, which isn't your fault. Nothing was counted."}
DOUBLES = [pathlib.Path("doubles")]


async def check(tab: Tab) -> Any:
    """Checks the good answer to `doubles`; the exercise as the tab shows it then."""
    before = tab.view["exercises"]["doubles"]["tries"]
    assert "error" not in await tab.ask("check", exercise="doubles", text=GOOD)
    await tab.until(lambda view: not view["exercises"]["doubles"]["checking"])
    shown = tab.view["exercises"]["doubles"]
    assert shown["tries"] in (before, before + 1)
    return shown


def checkers() -> set[int]:
    """The processes of this one that check an answer."""
    found = set[int]()
    for task in pathlib.Path("/proc/self/task").glob("*/children"):
        for child in map(int, task.read_text().split()):
            with contextlib.suppress(OSError):  # it has ended
                if b"vecmon_lab.exercises.check" in pathlib.Path(f"/proc/{child}/cmdline").read_bytes():
                    found.add(child)
    return found


async def kill_checkers(number: int) -> None:
    """Kills checkers one after the other, as they start."""
    killed = set[int]()
    async with asyncio.timeout(SECONDS):
        while len(killed) < number:
            for child in checkers() - killed:
                os.kill(child, signal.SIGKILL)
                killed.add(child)
            await asyncio.sleep(0.01)


async def check_not_counted(room: Served, shown: Any, cause: str) -> None:
    """Compares what a seat, the teacher and the folder have of a check that failed."""
    assert (shown["told"], shown["tries"], shown["hints"], shown["passed"]) == (UNCHECKED, 0, [], False)
    assert not [*room.folder.glob("answers/*")]
    teacher = await room.sit("teacher")
    assert teacher.view["exercises"]["doubles"]["seats"] == {}
    [failure] = teacher.view["failures"]
    assert (failure["seat"], failure["exercise"]) == ("A1", "doubles")
    assert int((room.folder / "codes.json").stat().st_mtime) <= failure["time"] <= time.time()  # since the class began
    assert cause in failure["cause"]


async def test_check_time_limit_starts_when_process_starts(
    tmp_path: pathlib.Path, monkeypatch: pytest.MonkeyPatch
) -> None:
    """A right answer that waits behind a full queue for longer than a check may take passes."""
    monkeypatch.setattr("vecmon_lab.classes.server.checks.PLACES", 1)
    monkeypatch.setattr("vecmon_lab.classes.server.checks.SECONDS", 0.5)
    async with served(tmp_path / "class", exercises=DOUBLES) as room:
        tab = await room.sit("A1")
        assert room.members
        async with room.members.checks._workers._places:
            waiting = asyncio.create_task(check(tab))
            await asyncio.sleep(2.0)
            assert not waiting.done()
            room.members.checks._workers._seconds = SECONDS  # as other tests may take all cores
        shown = await waiting
    assert (passed(shown["told"]), shown["tries"], shown["passed"]) == ([True] * 5, 1, True)


async def test_check_repeats_after_killed_checker(tmp_path: pathlib.Path, monkeypatch: pytest.MonkeyPatch) -> None:
    """The check runs once more."""
    async with served(tmp_path / "class", exercises=DOUBLES) as room:
        tab, teacher = await room.sit("A1"), await room.sit("teacher")
        shown, _ = await asyncio.gather(check(tab), kill_checkers(1))
        assert (passed(shown["told"]), shown["tries"], shown["passed"]) == ([True] * 5, 1, True)
        await teacher.until(lambda view: view["exercises"]["doubles"]["seats"])
        assert teacher.view["failures"] == []


async def test_check_fails_after_two_killed_checkers(tmp_path: pathlib.Path, monkeypatch: pytest.MonkeyPatch) -> None:
    async with served(tmp_path / "class", exercises=DOUBLES) as room:
        tab = await room.sit("A1")
        shown, _ = await asyncio.gather(check(tab), kill_checkers(2))
        await check_not_counted(room, shown, "was ended by the signal SIGKILL")
        assert passed((await check(tab))["told"]) == [True] * 5  # as soon as the cause is gone
    async with served(tmp_path / "class") as room:
        assert (await room.sit("A1")).view["exercises"]["doubles"]["tries"] == 1


async def test_check_fails_after_time_limit(tmp_path: pathlib.Path, monkeypatch: pytest.MonkeyPatch) -> None:
    monkeypatch.setattr("vecmon_lab.classes.server.checks.SECONDS", 0.01)
    async with served(tmp_path / "class", exercises=DOUBLES) as room:
        await check_not_counted(room, await check(await room.sit("A1")), "took more than 0.01 s")


async def test_late_lesson_says_what_to_do(tmp_path: pathlib.Path, monkeypatch: pytest.MonkeyPatch) -> None:
    monkeypatch.setattr("vecmon_lab.classes.server.checks.SECONDS", 0.01)
    async with served(tmp_path / "class", exercises=DOUBLES) as room:
        status, text = await room.get("lesson/doubles")
    assert (status, text.decode().partition(": ")[2]) == (
        503,
        "it took more than 0.01 s. The server may be busy: wait a minute, then reload the page.",
    )


async def test_check_fails_if_programs_cannot_start(tmp_path: pathlib.Path, monkeypatch: pytest.MonkeyPatch) -> None:
    """Neither Python's nor the machine's program is there: the teacher is shown which."""
    for kind in ("python", "vecmon"):
        async with served(tmp_path / kind, exercises=DOUBLES) as room:
            tab = await room.sit("A1")
            assert room.members
            with monkeypatch.context() as broken:
                if kind == "python":
                    broken.setattr("sys.executable", "/nowhere/python")
                else:
                    broken.setattr(room.members.store, "program", pathlib.Path("/nowhere/vecmon"))
                shown = await check(tab)
            await check_not_counted(room, shown, f"{kind} can't be started: No such file or directory")
            assert "nowhere" not in str(tab.view)
