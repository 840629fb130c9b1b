"""Connections that are lost: a request that a page sends again is executed once, and a beat is answered past others."""

import asyncio
import json
import pathlib
from typing import Any

from support.class_tabs import LOOP, Served, Tab, served

PAGE = "0123456789abcdef" * 2


async def _open(room: Served, page: object = PAGE) -> tuple[Tab, dict[str, Any]]:
    """A socket of a page with a name, and its greeting."""
    socket = await room.session.ws_connect(room.url + "socket", max_msg_size=0)
    await socket.send_json({"code": room.codes["A1"], "page": page})
    tab = Tab(socket)
    return tab, await tab.receive()


async def _answer(tab: Tab, number: int) -> dict[str, Any]:
    while (reply := await tab.receive())["kind"] != "answer":
        pass
    assert reply["id"] == number
    return reply


def _run(test: Any, folder: pathlib.Path) -> None:
    async def whole() -> None:
        async with served(folder) as room:
            await test(room)

    asyncio.run(whole())


def test_request_is_executed_once(tmp_path: pathlib.Path) -> None:
    """Sent again on a new connection, it has the first answer, and the script has its line once; a new number is another request."""

    async def test(room: Served) -> None:
        tab, hello = await _open(room)
        assert "resumed" not in hello
        await tab.do(*LOOP)
        step = {"id": 7, "ask": "lines", "do": ["step 1"]}
        await tab.socket.send_json(step)
        first = await _answer(tab, 7)
        await tab.socket.close()
        tab, hello = await _open(room)
        assert hello["resumed"] is True and hello["patch"]["state"]["x"]["5"] == "1"
        await tab.socket.send_json(step)
        again = await _answer(tab, 7)
        assert again["do"] == first["do"] == [["stepped 1 pc=0000000000010004"]] and "patch" not in again
        await tab.socket.send_json(step | {"id": 8})
        assert (await _answer(tab, 8))["do"] == [["stepped 1 pc=0000000000010000"]]
        script, _ = await room.check_replay(is_saved=False)
        assert script.count(b"1 step 1\n") == 2

    _run(test, tmp_path / "class")


def test_request_under_way_has_its_answer_on_new_connection(tmp_path: pathlib.Path) -> None:
    """A program that runs for a while answers `run 1` late: the connection is cut before, and the next one gets the answer."""

    async def test(room: Served) -> None:
        tab, _ = await _open(room)
        await tab.do(*LOOP)
        lines = {"id": 9, "ask": "lines", "do": ["step 100"] * 200}
        await tab.socket.send_json(lines)
        transport = tab.socket.get_extra_info("socket")
        transport.shutdown(2)  # without a closing handshake
        tab, hello = await _open(room)
        assert hello["resumed"]
        await tab.socket.send_json(lines)
        assert len((await _answer(tab, 9))["do"]) == 200
        script, _ = await room.check_replay(is_saved=False)
        assert script.count(b"1 step 100\n") == 200

    _run(test, tmp_path / "class")


def test_unknown_pages_are_not_resumed(tmp_path: pathlib.Path) -> None:
    """A page with another name, or one that is none, starts anew: the same number is another request."""

    async def test(room: Served) -> None:
        for page in ("f" * 32, "F" * 32, "f" * 31, 5, None, [PAGE]):
            for _ in range(2 if page != "f" * 32 else 1):
                tab, hello = await _open(room, page)
                assert "resumed" not in hello
                await tab.socket.send_json({"id": 1, "ask": "name", "name": "Ada"})
                assert "patch" in await _answer(tab, 1) or tab.view["name"] == "Ada"
                await tab.socket.close()

    _run(test, tmp_path / "class")


def test_beat_is_answered_past_others(tmp_path: pathlib.Path) -> None:
    """While requests execute and wait; it changes nothing."""

    async def test(room: Served) -> None:
        tab, _ = await _open(room)
        await tab.do(*LOOP)
        for number in range(20, 30):
            await tab.socket.send_json({"id": number, "ask": "lines", "do": ["step 100"] * 50})
        await tab.socket.send_str('{"ask":"beat"}')
        kinds = list[str]()
        while "beat" not in kinds:
            kinds.append((await tab.receive())["kind"])
        assert kinds.count("answer") < 10
        for number in range(20 + kinds.count("answer"), 30):
            await _answer(tab, number)
        assert json.dumps(tab.view["state"]["x"]["5"]) == '"61a8"'  # 25,000 of 50,000 instructions

    _run(test, tmp_path / "class")
