"""The teacher's messages to seats, and the reset of a seat."""

import pathlib

import pytest

from support.class_tabs import LOOP, served
from vecmon_lab.classes.core import shared_machine as class_room

pytestmark = pytest.mark.asyncio

TAKEN = "!The teacher has taken this machine away. Your source is kept."


async def test_teacher_message_reaches_one_or_all_seats(tmp_path: pathlib.Path) -> None:
    async with served(tmp_path / "class", machines=2) as room:
        tabs = {seat: await room.sit(seat) for seat in ("A1", "A2", "B8")}
        teacher = await room.sit("teacher")
        words = "Schaut auf <b>v1</b> \u2013 `x`!"
        assert "error" not in await teacher.ask("write", seat="A2", text=words)
        assert "error" not in await teacher.ask("write", seat="", text="It ends at noon.")
        for seat, tab in tabs.items():
            while not tab.logs.get(seat, [""])[-1].endswith("noon."):
                await tab.receive()
            expected = [f"!The teacher: {words}"] * (seat == "A2") + ["!The teacher: It ends at noon."]
            assert tab.logs == {seat: expected}
        for text in ("", "x" * 401, "a\nb", "a\0", "\u202e", 5, None):
            assert "1 to 400 characters" in (await teacher.ask("write", seat="A1", text=text))["error"]
        assert (await teacher.ask("write", seat="A9", text="x"))["error"] == "there is no such seat"
        assert (await teacher.ask("reset", seat=""))["error"] == "there is no such seat"
        for ask in ("write", "reset"):
            assert (await tabs["A1"].ask(ask, seat="A2", text="x"))["error"] == "there is no such request for this seat"
        assert (await room.check_replay())[0] == b""


async def test_teacher_resets_seat(tmp_path: pathlib.Path, monkeypatch: pytest.MonkeyPatch) -> None:
    """Whether its program is stopped or runs, or there is none; and when its share is used up."""
    async with served(tmp_path / "class") as room:
        tab, other, teacher = [await room.sit(role) for role in ("A1", "A2", "teacher")]
        await other.do(*LOOP, "step 1")
        await tab.ask("draft", text="nop", number=0)
        cases: list[tuple[list[str], list[str]]] = [(LOOP, ["leave"]), ([*LOOP, "go"], ["stop", "leave"]), ([], [])]
        for lines, left in cases:
            if lines:
                await tab.do(*lines)
            with monkeypatch.context() as patch:
                patch.setattr(class_room, "SEAT_BYTES", 0)
                assert "share of the script is used up" in (await tab.ask("lines", do=["enter"]))["error"]
                assert "error" not in await teacher.ask("reset", seat="A1")
            script = (await room.get("A/script"))[1].decode().splitlines()
            assert script[len(script) - len(left) :] == [f"1 {line}" for line in left]
            while tab.view["state"]["run"] != "absent" or tab.logs["A1"][-1] != TAKEN:
                await tab.receive()
            assert tab.view["source"]["text"] == "nop"
        assert other.view["state"]["run"] == "stopped" and other.logs["A2"][-1].startswith("<2 stepped 1")
        await room.check_replay()
