"""Requests of pages are checked against the schema by the server of these tests, which needs no browser here."""

import asyncio
import json
import pathlib

import aiohttp
import pytest

from support.class_pages import Served


async def _ask(served: Served, **words: object) -> dict[str, object]:
    """The answer to a request of seat A1."""
    async with aiohttp.ClientSession() as session, session.ws_connect(
        f"http://127.0.0.1:{served.port}/socket"
    ) as socket:
        await socket.send_json({"code": served.codes["A1"]})
        await socket.receive_str()  # the server's greeting, before which it takes no other frame
        await socket.send_json({"id": 1, **words})
        while (message := json.loads(await socket.receive_str()))["kind"] != "answer":
            pass
        found: dict[str, object] = message
        return found


def test_invalid_request_fails_a_test(program: pathlib.Path, tmp_path: pathlib.Path) -> None:
    """The server takes a request without its key, as false; the schema doesn't."""
    served = Served(tmp_path / "class", program)
    assert "error" not in asyncio.run(_ask(served, ask="hand", up=True, text="Why?"))
    assert "error" in asyncio.run(_ask(served, ask="unknown"))  # which is no request to check
    assert served.invalid_requests() == []
    assert "error" not in asyncio.run(_ask(served, ask="hand"))
    with pytest.raises(AssertionError, match="no alternative of StudentRequest"):
        served.end()
