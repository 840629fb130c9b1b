"""The wall, which only looks, and codes that are shown on demand."""

import json
import pathlib
from collections.abc import AsyncIterator
from typing import Any

import pytest
import pytest_asyncio

from support.class_tabs import LOOP, Message, Served, served
from vecmon_lab.__main__ import arguments_of
from vecmon_lab.classes.server import room as class_room

pytestmark = pytest.mark.asyncio


@pytest_asyncio.fixture  # type: ignore[misc]
async def room(tmp_path: pathlib.Path) -> AsyncIterator[Served]:
    """A class of two machines that is served in this process."""
    async with served(tmp_path / "class", machines=2) as room:
        yield room


def codes(room: Served) -> dict[str, str]:
    """The codes that hold now, by name."""
    stored: dict[str, str] = json.loads((room.folder / "codes.json").read_text())
    return stored


async def test_wall_shows_seat(room: Served) -> None:
    wall, teacher = await room.sit("wall"), await room.sit("teacher")
    assert wall.view == {"seat": "", "stop": "", "trouble": ""} and teacher.view["wall"] == ""
    for seat in ("A1", "B8"):
        tab = await room.sit(seat)
        await tab.do(*LOOP, "step 3")
        await teacher.ask("wall", seat=seat)
        await wall.until(lambda view: view["seat"] == seat)
        await wall.until(lambda view: view["state"] == tab.view["state"])
        await tab.do("step 1", "break 10000")
        await wall.until(lambda view: view["state"] == tab.view["state"] and view["state"]["breaks"] == ["10000"])
        assert not wall.logs and wall.view.keys() == {"seat", "state", "stop", "trouble"}
    assert teacher.view["wall"] == "B8"
    await teacher.ask("wall", seat="")
    await wall.until(lambda view: view == {"seat": "", "stop": "", "trouble": ""})
    for other in ("A9", "wall", "teacher", "A", "\0"):
        assert (await teacher.ask("wall", seat=other))["error"] == "there is no such seat"


async def test_wall_frame_contains_no_code(room: Served) -> None:
    """Whatever teacher and students do meanwhile, and whatever the wall asks."""
    frames, before = list[str](), codes(room)
    wall = await room.open(before["wall"])

    async def listen(condition: Any) -> Message:
        while True:
            reply = await wall.receive()
            frames.append(json.dumps(reply))
            if condition(reply):
                return reply

    await listen(lambda reply: reply["kind"] == "hello")
    teacher, tab, other = await room.sit("teacher"), await room.sit("A1"), await room.sit("A2")
    await teacher.ask("wall", seat="A1")
    await teacher.ask("shoulder", seat="A1")
    assert (await teacher.ask("codes", seat=""))["codes"] == {k: v for k, v in before.items() if k != "teacher"}
    for seat in ("A2", "B3"):
        assert (await teacher.ask("renew", seat=seat))["codes"] == {seat: codes(room)[seat]}
    await tab.do(*LOOP, "step 1", "dance")
    await other.socket.close()
    asks: list[dict[str, Any]] = [
        *({"ask": ask, "machine": "A", "seat": "A1", "text": "nop"} for ask in ("lines", "source", "clock", "rights")),
        *({"ask": ask, "seat": seat} for ask in ("renew", "shoulder", "wall", "codes") for seat in ("A1", "wall", "")),
        {"ask": "lines", "do": ["step 1"]},
        {"ask": "lines", "look": ["regs"]},
    ]
    script = (await room.get("A/script"))[1]
    for number, ask in enumerate(asks):
        await wall.socket.send_json({"id": number, **ask})
        reply = await listen(lambda reply: reply["kind"] == "answer")
        assert (reply["id"], reply["error"]) == (number, "the wall only looks"), ask
    assert (await room.get("A/script"))[1] == script
    for path in ("A/script", "A/transcript", "A1/home"):
        assert (await room.get(path, "wall"))[0] == 404
    await tab.do("step 1")
    await listen(
        lambda reply: wall.view.get("state", {}).get("x", {}).get("5") == "1" and wall.view["state"]["pc"] == "10000"
    )
    others = {code for stored in (before, codes(room)) for name, code in stored.items() if name != "wall"}
    assert len(others) == 19 and len(frames) > len(asks)
    assert not [code for code in others for frame in frames if code in frame]


async def test_codes_are_sent_on_request(room: Served) -> None:
    """The teacher's view has none; a student receives none; a new code for the wall ends its tabs."""
    teacher, tab, wall = await room.sit("teacher"), await room.sit("A1"), await room.sit("wall")
    assert not [code for code in codes(room).values() if code in json.dumps(teacher.view)]
    assert (await teacher.ask("codes", seat="A3"))["codes"] == {"A3": codes(room)["A3"]}
    for name in ("teacher", "A9", "C1"):
        assert (await teacher.ask("codes", seat=name))["error"] == "there is no such seat"
    for ask in ("codes", "wall"):
        assert (await tab.ask(ask, seat="A1"))["error"] == "there is no such request for this seat"
    old = codes(room)["wall"]
    assert (await teacher.ask("renew", seat="wall"))["codes"] == {"wall": codes(room)["wall"]} != {"wall": old}
    with pytest.raises(EOFError) as closed:
        await wall.until(lambda view: False)
    assert closed.value.args == (4403,)


async def test_sheet_has_qr_codes(room: Served) -> None:
    """Each is of another address. A server without an address makes none."""
    teacher = await room.sit("teacher")
    assert (await teacher.ask("codes", seat="", pictures=True))["pictures"] == {}
    assert room.members
    room.members.address = "http://class.school.example/"
    pictures = (await teacher.ask("codes", seat="", pictures=True))["pictures"]
    assert len(pictures) == 18 == len(set(pictures.values())) and "" in pictures  # the address without a code
    assert all(picture.startswith("data:image/svg+xml;") and len(picture) < 4000 for picture in pictures.values())
    assert (await teacher.ask("codes", seat="A1"))["pictures"] == {}


async def test_class_address_is_normalized() -> None:
    for host in ("192.168.1.20:8765", "class.school.example", "[fe80::1]:80"):
        for scheme in ("http://", "https://"):
            for slash in ("", "/"):
                reply = arguments_of(["class", "monday", "--address", f"{scheme}{host}{slash}"]).address
                assert reply == f"{scheme}{host}/"
    for other in (
        "",
        "10.0.0.1",
        "ftp://x/",
        "http://",
        "http:///",
        "http://x/y",
        "http://x/?y",
        "http://x#y",
        "http://x y",
    ):
        with pytest.raises(SystemExit, match="2"):
            arguments_of(["class", "monday", "--address", other])
    assert arguments_of(["class", "monday"]).address is None


async def test_running_program_is_shown_on_wall(room: Served, monkeypatch: pytest.MonkeyPatch) -> None:
    """Though nobody else looks at it."""
    monkeypatch.setattr(class_room, "WATCH_SECONDS", 0.02)
    teacher, tab = await room.sit("teacher"), await room.sit("A1")
    await tab.do(*LOOP, "go")
    await teacher.ask("wall", seat="A1")
    await tab.socket.close()
    await teacher.ask("clock", machine="A", on=True, slices=10, ms=10)
    wall, seen = await room.sit("wall"), set[str]()
    while len(seen) < 4:
        await wall.receive()
        assert wall.view["state"]["run"] == "running"
        seen.add(wall.view["state"].get("x", {}).get("5", ""))
