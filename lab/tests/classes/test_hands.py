"""Raised hands: in the student's and the teacher's views, and in the class's folder."""

import json
import pathlib
import time

import pytest

from support.class_tabs import served
from vecmon_lab.classes.server.folder_report import folder_report

pytestmark = pytest.mark.asyncio


async def test_hand_is_up_until_it_is_lowered(tmp_path: pathlib.Path) -> None:
    """It is up since it was raised first, and after a restart; the teacher lowers it too."""
    folder = tmp_path / "class"
    async with served(folder) as room:
        tab, other, teacher = await room.sit("A1"), await room.sit("A2"), await room.sit("teacher")
        assert "hand" not in tab.view and "hand" not in teacher.view["machines"]["A"]["seats"]["1"]
        started = int(time.time())
        await tab.ask("hand", up=True, text="Why is v8 empty?")
        since = tab.view["hand"]["since"]
        assert started <= since <= time.time() and tab.view["hand"]["text"] == "Why is v8 empty?"
        await teacher.until(lambda view: view["machines"]["A"]["seats"]["1"].get("hand") == tab.view["hand"])
        await other.ask("hand", up=True)
        assert other.view["hand"]["text"] == "" and tab.view["hand"]["text"]
    stored = json.loads((folder / "hands.json").read_text())
    assert stored["A1"] == {"since": since, "text": "Why is v8 empty?"} and [*stored] == ["A1", "A2"]
    async with served(folder) as room:
        tab, teacher = await room.sit("A1"), await room.sit("teacher")
        assert tab.view["hand"] == stored["A1"]
        await tab.ask("hand", up=True, text="v9 as well")
        assert tab.view["hand"] == {"since": since, "text": "v9 as well"}
        await tab.ask("hand", up=False)
        assert "hand" not in tab.view
        await teacher.ask("hand", seat="A2")
        assert all("hand" not in seat for seat in teacher.view["machines"]["A"]["seats"].values())
    assert json.loads((folder / "hands.json").read_text()) == {}


async def test_invalid_hand_is_refused(tmp_path: pathlib.Path) -> None:
    async with served(tmp_path / "class") as room:
        tab, teacher = await room.sit("A1"), await room.sit("teacher")
        for text in ("x" * 401, "two\nlines", 5):
            assert "1 to 400 characters" in (await tab.ask("hand", up=True, text=text))["error"]
        piled = "Z\u0335\u0301\u034f" + "\u0301\u0335" * 3
        assert "more than 3 marks" in (await tab.ask("hand", up=True, text=piled))["error"]
        assert "no such seat" in (await teacher.ask("hand", seat="Z9"))["error"] and "hand" not in tab.view


@pytest.mark.parametrize("text", ['{"A1": {"since": "1", "text": ""}}', '{"A1": 5}', "[]", "x"])
async def test_damaged_hands_are_set_aside(tmp_path: pathlib.Path, program: pathlib.Path, text: str) -> None:
    folder = tmp_path / "class"
    async with served(folder):
        pass
    (folder / "hands.json").write_text(text)
    report, has_lost = folder_report(folder, program)
    assert has_lost and any(line.startswith("lost: hands.json is damaged") for line in report)
    async with served(folder) as room:
        assert "hand" not in (await room.sit("A1")).view
        assert "hands.json" in (await room.sit("teacher")).view["trouble"]
    assert (folder / "hands.json.damaged").read_text() == text
