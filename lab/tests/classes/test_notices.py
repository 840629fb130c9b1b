"""Messages of the teacher's, and sources that are offered: in views, by seat, and in the class's folder."""

import json
import pathlib
import time
from typing import Any

import pytest

from support.class_tabs import served
from vecmon_lab.classes.server.folder_report import folder_report
from vecmon_lab.classes.server.notices import MAX_NOTICES

pytestmark = pytest.mark.asyncio


async def test_message_is_unread_until_read(tmp_path: pathlib.Path) -> None:
    """It survives a restart of the server; a seat marks only its own, in all its tabs, and the teacher sees who has read it."""
    folder, started = tmp_path / "class", int(time.time())
    async with served(folder) as room:
        tab, teacher = await room.sit("A1"), await room.sit("teacher")
        await teacher.ask("write", seat="", text="Save your work.")
        await teacher.ask("write", seat="A1", text="Come to me.")
        await tab.until(lambda view: len(view["messages"]) == 2)
        first, second = tab.view["messages"].values()
        assert started <= first.pop("time") <= second.pop("time") <= time.time()
        assert first == {"text": "Save your work.", "read": False} and second == {"text": "Come to me.", "read": False}
    async with served(folder) as room:
        tab, again, other = await room.sit("A1"), await room.sit("A1"), await room.sit("A2")
        teacher = await room.sit("teacher")
        assert [*tab.view["messages"]] == ["1", "2"] and [*other.view["messages"]] == ["1"]
        assert "error" not in await tab.ask("read", number=1)
        await again.until(lambda view: view["messages"]["1"]["read"])
        assert not again.view["messages"]["2"]["read"] and not other.view["messages"]["1"]["read"]
        await teacher.until(lambda view: view["sent"]["1"]["read"] == ["A1"])
        assert teacher.view["sent"]["1"]["to"] == [f"A{number}" for number in range(1, 9)]
        assert (teacher.view["sent"]["2"]["to"], teacher.view["sent"]["2"]["read"]) == (["A1"], [])
        for number in (2, 9):
            assert "there is no such message" in (await other.ask("read", number=number))["error"]
        assert "error" in await tab.ask("read", number="1") and "error" in await tab.ask("read")
    async with served(folder) as room:
        tab, teacher = await room.sit("A1"), await room.sit("teacher")
        assert [message["read"] for message in tab.view["messages"].values()] == [True, False]
        assert teacher.view["sent"]["1"]["read"] == ["A1"]
        await teacher.ask("write", seats=["A1"], text="Once more.")
        await tab.until(lambda view: view["messages"].get("3", {}).get("text") == "Once more.")


async def test_offered_source_replaces_only_when_opened(tmp_path: pathlib.Path) -> None:
    folder = tmp_path / "class"
    async with served(folder) as room:
        tab, other, teacher = await room.sit("A1"), await room.sit("A2"), await room.sit("teacher")
        third = await room.sit("A3")
        await tab.ask("draft", text="mine", number=0)
        words = {"text": "nop", "language": 0, "title": "A start"}
        assert (await teacher.ask("give", seats=["A2", "A1", "A2"], how="offer", **words))["replaced"] == 0
        await tab.until(lambda view: view["messages"])
        assert tab.view["source"]["text"] == "mine" and "given" not in teacher.view and third.view["messages"] == {}
        offer = tab.view["messages"]["1"]
        assert (offer["offer"], offer["read"]) == ({"title": "A start", "text": "nop", "language": 0}, False)
        assert teacher.view["sent"]["1"]["to"] == ["A2", "A1"]
    async with served(folder) as room:
        tab, other, teacher = await room.sit("A1"), await room.sit("A2"), await room.sit("teacher")
        await other.ask("read", number=1)
        assert "error" not in await tab.ask("open", number=1)
        await tab.until(lambda view: view["source"]["text"] == "nop" and view["messages"]["1"]["read"])
        await teacher.until(lambda view: view["sent"]["1"]["opened"] == ["A1"])
        assert teacher.view["sent"]["1"]["read"] == ["A2", "A1"]
        versions = [(each["number"], each["why"]) for each in tab.view["source"]["versions"]]
        assert versions == [(1, "typed"), (2, "given")] and (await tab.ask("version", number=1))["text"] == "mine"
        assert (await teacher.ask("take-back", seat=""))["replaced"] == 0 and tab.view["source"]["text"] == "nop"
        await teacher.ask("write", seat="A1", text="Done?")
        assert "no source" in (await tab.ask("open", number=2))["error"]
        assert "no such message" in (await other.ask("open", number=2))["error"]


async def test_source_is_given_to_several_seats(tmp_path: pathlib.Path) -> None:
    async with served(tmp_path / "class") as room:
        tab, other, teacher = await room.sit("A1"), await room.sit("A2"), await room.sit("teacher")
        await tab.ask("draft", text="mine", number=0)
        assert (await teacher.ask("give", seats=["A1", "A3"], how="replace", text="nop"))["replaced"] == 1
        await tab.until(lambda view: view["source"]["text"] == "nop")
        assert other.view["source"]["text"] == "" and teacher.view["given"] == {"seats": ["A1", "A3"], "replaced": 1}
        assert (await teacher.ask("take-back", seats=["A1", "A3"]))["replaced"] == 1
        await tab.until(lambda view: view["source"]["text"] == "mine")
        invalid: list[dict[str, Any]] = [
            {"seats": []},
            {"seats": "A1"},
            {"seats": ["A1", 2]},
            {"seats": [""]},
            {"seats": ["A1"], "seat": "A1"},
        ]
        for words in invalid:
            assert "one or more names of seats" in (await teacher.ask("write", text="x", **words))["error"]
        for ask in ("write", "give", "take-back"):
            assert "no such seat" in (await teacher.ask(ask, text="x", seats=["A1", "Z9"]))["error"]
        assert "replace or offer" in (await teacher.ask("give", seat="A1", text="x", how="drop"))["error"]
        assert "1 to 400" in (await teacher.ask("give", seat="A1", text="x", how="offer", title="x" * 401))["error"]
        assert "empty" in (await teacher.ask("give", seat="A1", text=" ", how="offer"))["error"]
        assert tab.view["messages"] == {} and tab.view["source"]["text"] == "mine"


async def test_unsent_message_stays_where_it_was_read(tmp_path: pathlib.Path) -> None:
    async with served(tmp_path / "class") as room:
        tab, other, teacher = await room.sit("A1"), await room.sit("A2"), await room.sit("teacher")
        await teacher.ask("write", seats=["A1", "A2", "A3"], text="Now exercise 2.")
        await other.until(lambda view: view["messages"])
        await other.ask("read", number=1)
        assert (await teacher.ask("unsend", number=1))["read"] == ["A2"]
        await tab.until(lambda view: view["messages"] == {})
        assert [*other.view["messages"]] == ["1"] and teacher.view["sent"]["1"]["to"] == ["A2"]
        assert "taken it back" in (await tab.ask("read", number=1))["error"]
        await teacher.ask("write", seat="A3", text="Unread.")
        assert (await teacher.ask("unsend", number=2))["read"] == [] and [*teacher.view["sent"]] == ["1"]
        assert "no such message" in (await teacher.ask("unsend", number=2))["error"]
        assert "no such request" in (await tab.ask("unsend", number=1))["error"]


async def test_seat_has_its_last_messages(tmp_path: pathlib.Path) -> None:
    """The oldest read one goes before unread ones, and of another seat none."""
    async with served(tmp_path / "class") as room:
        tab, other, teacher = await room.sit("A1"), await room.sit("A2"), await room.sit("teacher")
        for number in range(1, MAX_NOTICES + 1):
            await teacher.ask("write", seats=["A1", "A2"] if number < 3 else ["A1"], text=f"{number}")
        await tab.until(lambda view: len(view["messages"]) == MAX_NOTICES)
        await tab.ask("read", number=2)
        await teacher.ask("write", seat="A1", text="next")
        await tab.until(lambda view: "21" in view["messages"])
        assert [*tab.view["messages"]] == [f"{number}" for number in range(1, 22) if number != 2]
        assert teacher.view["sent"]["2"]["to"] == ["A2"] and teacher.view["sent"]["2"]["read"] == []
        await teacher.ask("write", seat="A1", text="last")
        await tab.until(lambda view: "22" in view["messages"])
        assert [*tab.view["messages"]] == [f"{number}" for number in range(3, 23)]
        await other.until(lambda view: [*view["messages"]] == ["1", "2"])


async def test_messages_by_seat_are_read(tmp_path: pathlib.Path, program: pathlib.Path) -> None:
    """As earlier versions saved them, with only the open messages."""
    folder = tmp_path / "class"
    async with served(folder):
        pass
    save, come = {"number": 7, "time": 1795782600, "text": "Save."}, {"number": 9, "time": 1795782700, "text": "Come."}
    (folder / "notices.json").write_text(json.dumps({"A1": [save, come], "A2": [save]}))
    report, has_lost = folder_report(folder, program)
    assert not has_lost and any("unread messages: 3" in line for line in report)
    async with served(folder) as room:
        tab, teacher = await room.sit("A1"), await room.sit("teacher")
        assert tab.view["messages"] == {
            "7": {"time": 1795782600, "text": "Save.", "read": False},
            "9": {"time": 1795782700, "text": "Come.", "read": False},
        }
        assert teacher.view["sent"]["7"]["to"] == ["A1", "A2"] and teacher.view["trouble"] == ""
        await tab.ask("read", number=7)
    stored = json.loads((folder / "notices.json").read_text())
    assert stored["7"] == {"time": 1795782600, "text": "Save.", "to": ["A1", "A2"], "read": ["A1"], "opened": []}


SENT: dict[str, Any] = {"time": 1, "to": ["A1"], "read": [], "opened": []}


@pytest.mark.parametrize(
    "value",
    [
        {"A1": [{"number": "1", "time": 1, "text": "x"}]},
        {"A1": [5]},
        {"1": 5},
        {"1": SENT},
        {"1": {**SENT, "text": "x", "offer": {"title": "", "text": "", "language": 0}}},
        {"1": {**SENT, "offer": {"title": "", "text": "", "language": 99}}},
        {"1": {**SENT, "text": "x", "to": "A1"}},
        {"1": {**SENT, "text": "x", "read": ["A2"]}},
        {"one": {**SENT, "text": "x"}},
        [],
    ],
)
async def test_damaged_messages_are_set_aside(tmp_path: pathlib.Path, program: pathlib.Path, value: object) -> None:
    folder = tmp_path / "class"
    async with served(folder):
        pass
    (folder / "notices.json").write_text(json.dumps(value))
    report, has_lost = folder_report(folder, program)
    assert has_lost and any(line.startswith("lost: notices.json is damaged") for line in report)
    async with served(folder) as room:
        assert (await room.sit("A1")).view["messages"] == {}
        assert "notices.json" in (await room.sit("teacher")).view["trouble"]
    assert json.loads((folder / "notices.json.damaged").read_text()) == value
