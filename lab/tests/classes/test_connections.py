"""Connections of clients that want to keep others out: without a code, without an end of requests, and without reading."""

import asyncio
import contextlib
import logging
import pathlib
import re
import socket
import zlib
from collections.abc import AsyncIterator, Sequence
from types import SimpleNamespace
from typing import Any

import aiohttp
import pytest
import pytest_asyncio
from aiohttp import http_parser

from support.class_tabs import SECONDS, Served, served
from vecmon_lab.classes.server import connections
from vecmon_lab.classes.server import server as class_server

pytestmark = pytest.mark.asyncio
TABLE = pathlib.Path("/proc/self/net/tcp")


@pytest_asyncio.fixture  # type: ignore[misc]
async def room(tmp_path: pathlib.Path, monkeypatch: pytest.MonkeyPatch) -> AsyncIterator[Served]:
    monkeypatch.setattr(class_server, "UNKNOWN", 3)
    monkeypatch.setattr(class_server, "IDLE_SECONDS", SECONDS)
    async with served(tmp_path / "class") as room:
        yield room


async def connection(room: Served, data: bytes) -> socket.socket:
    """A connection that has sent this and reads nothing; its own buffer is small."""
    own = socket.socket()
    own.setsockopt(socket.SOL_SOCKET, socket.SO_RCVBUF, 4096)
    own.setblocking(False)
    await asyncio.get_running_loop().sock_connect(own, ("127.0.0.1", room.port))
    await asyncio.get_running_loop().sock_sendall(own, data)
    return own


async def until_closed(room: Served, own: socket.socket) -> None:
    """Waits until the server has closed a connection, which is read no further."""
    ports = [f":{port:04X}" for port in (room.port, own.getsockname()[1])]
    start = asyncio.get_running_loop().time()
    while any(is_established(line.split(), *ports) for line in TABLE.read_text("ascii").splitlines()):
        assert asyncio.get_running_loop().time() < start + SECONDS
        await asyncio.sleep(0.05)
    own.close()


def is_established(words: Sequence[str], local: str, remote: str) -> bool:
    """Whether a line of the system's table of connections is of an open one between these ports (Linux, proc_net_tcp)."""
    return words[1].endswith(local) and words[2].endswith(remote) and words[3] == "01"


def request(room: Served) -> bytes:
    """A request of the page."""
    return f"GET / HTTP/1.1\r\nHost: 127.0.0.1:{room.port}\r\n\r\n".encode("ascii")


async def test_pings_prolong_no_wait_for_code(room: Served, monkeypatch: pytest.MonkeyPatch) -> None:
    monkeypatch.setattr(class_server, "CODE_SECONDS", 2.0)
    silent = await room.session.ws_connect(room.url + "socket")
    end, start = asyncio.create_task(silent.receive()), asyncio.get_running_loop().time()
    while not end.done():
        assert asyncio.get_running_loop().time() < start + SECONDS
        with contextlib.suppress(ConnectionError):  # it may just have ended
            await silent.ping()
        await asyncio.wait([end], timeout=0.2)
    assert end.result().data == 4403


async def test_oldest_socket_without_code_makes_room(room: Served) -> None:
    oldest, *_, last = [await room.session.ws_connect(room.url + "socket") for _ in range(4)]
    assert (await asyncio.wait_for(oldest.receive(), SECONDS)).type is aiohttp.WSMsgType.CLOSED
    await last.send_json({"code": room.codes["A2"]})
    assert (await asyncio.wait_for(last.receive_json(), SECONDS))["who"] == "A2"


async def test_connection_that_takes_no_answer_is_closed(
    tmp_path: pathlib.Path, monkeypatch: pytest.MonkeyPatch
) -> None:
    monkeypatch.setattr(class_server, "READ_SECONDS", 2.0)
    async with served(tmp_path / "class") as room:
        own = await connection(room, request(room) * connections.AHEAD)  # more than the system's buffers hold
        await until_closed(room, own)
        monkeypatch.undo()  # a tab has more time for its answers to pings
        await room.sit("A1")


async def test_oldest_connection_with_unread_answers_makes_room(room: Served) -> None:
    oldest, *others = [await connection(room, request(room) * connections.AHEAD) for _ in range(4)]
    await until_closed(room, oldest)
    await room.sit("A1")
    for each in others:
        each.close()


async def test_oldest_connection_between_requests_makes_room(room: Served) -> None:
    """Three are kept open, for the next request of each."""
    asked = request(room).replace(b"GET / ", b"GET /nowhere ")
    streams = list[tuple[asyncio.StreamReader, asyncio.StreamWriter]]()
    for _ in range(4):  # each asks before the next one connects: three without a whole request are the most, too
        reader, writer = await asyncio.open_connection("127.0.0.1", room.port)
        writer.write(asked)
        await asyncio.wait_for(reader.readuntil(b"404: Not Found"), SECONDS)
        streams.append((reader, writer))
    oldest, *others = streams
    with contextlib.suppress(ConnectionError):
        assert await asyncio.wait_for(oldest[0].read(), SECONDS) == b""
    for reader, writer in others:
        writer.write(asked)
        await asyncio.wait_for(reader.readuntil(b"404: Not Found"), SECONDS)
        writer.close()


class SilentConnection:
    """A connection without a request, and its own transport. A set has the later ones first."""

    def __init__(self, number: int) -> None:
        self.transport, self.number, self.is_aborted = self, number, False
        self._messages = list[object]()

    def __hash__(self) -> int:
        return 8 - self.number

    def get_write_buffer_size(self) -> int:
        return 0

    def get_extra_info(self, name: str) -> tuple[str, int]:
        return ("127.0.0.1", 1024 + self.number)

    def abort(self) -> None:
        self.is_aborted = True


async def test_oldest_of_one_sweep_make_room(monkeypatch: pytest.MonkeyPatch) -> None:
    """Of connections that are seen at the same time for the first time, those that were there first are closed."""
    monkeypatch.setattr(connections, "SWEEP_SECONDS", 0)
    there = [SilentConnection(number) for number in range(8)]
    runner: Any = SimpleNamespace(server=SimpleNamespace(connections=there))
    sweep = asyncio.create_task(connections.Connections(3, SECONDS, SECONDS).sweep(runner))
    while not any(each.is_aborted for each in there) and not sweep.done():
        await asyncio.sleep(0)
    sweep.cancel()
    assert [each.number for each in there if each.is_aborted] == [0, 1, 2, 3, 4]


async def test_connection_with_requests_ahead_is_closed(room: Served) -> None:
    own, loop = await connection(room, b""), asyncio.get_running_loop()
    with pytest.raises(ConnectionError):
        for _ in range(200):
            await asyncio.wait_for(loop.sock_sendall(own, request(room) * 1000), SECONDS)
    own.close()
    await room.sit("A1")


async def answers(room: Served, data: bytes) -> list[bytes]:
    """The status lines of the answers to what a connection sends, up to its end."""
    reader, writer = await asyncio.open_connection("127.0.0.1", room.port)
    writer.write(data)
    received = await asyncio.wait_for(reader.read(), SECONDS)
    writer.close()
    return re.findall(rb"HTTP/1\.1 [^\r]*", received)


async def test_body_is_not_decompressed(room: Served, monkeypatch: pytest.MonkeyPatch) -> None:
    """A few bytes could become gigabytes."""
    decompressed = list[object]()

    def decompressobj(**words: Any) -> Any:
        decompressed.append(words)
        return zlib.decompressobj(**words)

    monkeypatch.setattr(http_parser, "zlib", SimpleNamespace(decompressobj=decompressobj, MAX_WBITS=zlib.MAX_WBITS))
    body = zlib.compress(bytes(1000))
    head = f"GET /nowhere HTTP/1.1\r\nHost: 127.0.0.1:{room.port}\r\nConnection: close\r\nContent-Encoding: deflate\r\n"
    sent = f"{head}Content-Length: {len(body)}\r\n\r\n".encode("ascii") + body
    assert await answers(room, sent) == [b"HTTP/1.1 404 Not Found"] and not decompressed


async def test_nothing_is_read_after_an_upgrade_to_nothing(room: Served) -> None:
    """Only the WebSocket's path is upgraded. Elsewhere aiohttp stores later data until the answer."""
    asked = request(room).replace(b"GET / ", b"GET /nowhere ")
    upgrade = asked.replace(b"\r\n\r\n", b"\r\nConnection: Upgrade\r\nUpgrade: websocket\r\n\r\n")
    last = asked.replace(b"\r\n\r\n", b"\r\nConnection: close\r\n\r\n")
    assert await answers(room, asked + last) == [b"HTTP/1.1 404 Not Found"] * 2
    assert await answers(room, upgrade + asked * 3 + last) == [b"HTTP/1.1 404 Not Found"]


async def test_lost_connection_is_no_fault_in_the_log() -> None:
    """Anyone can end a connection while an answer is sent: its traceback would fill the log."""
    for error, is_logged in ((ConnectionResetError("Cannot write to closing transport"), False), (KeyError("x"), True)):
        record = logging.LogRecord("aiohttp.server", logging.ERROR, "", 0, "", (), (type(error), error, None))
        assert class_server._is_ours(record) == is_logged
