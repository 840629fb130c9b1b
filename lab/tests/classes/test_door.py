"""The door of a class's server: the order and the rate in which connections are served, and how many wait."""

import asyncio
import contextlib
import pathlib
import resource
import socket
from collections.abc import AsyncIterator, Callable

import pytest

from support.class_tabs import SECONDS, served
from vecmon_lab.classes.server import door as class_door
from vecmon_lab.classes.server import server as class_server
from vecmon_lab.classes.server.connections import Crowd
from vecmon_lab.classes.server.door import Door
from vecmon_lab.classes.server.tls import kind_of_start

NEVER = 1e-6  # connections in a second


def test_newest_of_address_is_first_and_addresses_take_turns() -> None:
    crowd = Crowd[str](10, print)
    for name in ("flood 1", "flood 2", "school 1", "flood 3", "school 2"):
        crowd.add(name, name.split()[0])
    crowd.discard("flood 2")
    order = [crowd.pop_newest() for _ in range(4)]
    assert order == [("flood 3", "flood"), ("school 2", "school"), ("flood 1", "flood"), ("school 1", "school")]
    assert not crowd and not list(crowd)


def test_oldest_of_address_with_most_ends() -> None:
    ended = list[str]()
    crowd = Crowd[str](4, ended.append)
    for name in ("school 1", "flood 1", "flood 2", "flood 3", "flood 4", "school 2"):
        crowd.add(name, name.split()[0])
    assert ended == ["flood 1", "flood 2"] and sorted(crowd) == ["flood 3", "flood 4", "school 1", "school 2"]


@contextlib.asynccontextmanager
async def opened(waiting: int = 100) -> AsyncIterator[tuple[Callable[[], socket.socket], list[int]]]:
    """A door with its clients, and the clients' ports of the connections that were served."""
    listener, ports = socket.create_server(("127.0.0.1", 0)), list[int]()

    async def serve(connection: socket.socket) -> None:
        ports.append(connection.getpeername()[1])
        connection.close()

    def recognize(head: bytes) -> tuple[str | None, str]:
        return head.decode() if head.startswith(b"seat") else None, f"{len(head)}"

    def connect() -> socket.socket:
        return socket.create_connection(listener.getsockname(), timeout=SECONDS)

    door = Door(listener, serve, recognize, waiting, 100)
    try:
        yield connect, ports
    finally:
        door.close()
        await asyncio.wait_for(door.wait_closed(), SECONDS)


async def until(condition: Callable[[], object]) -> None:
    """Let the door work until a condition holds."""
    async with asyncio.timeout(SECONDS):
        while not condition():
            await asyncio.sleep(0.01)


@pytest.mark.asyncio
async def test_connections_beyond_the_rate_wait(monkeypatch: pytest.MonkeyPatch) -> None:
    """They aren't closed, since their clients would connect again. Later the newest one is first."""
    monkeypatch.setattr(class_door, "AT_ONCE", 3)
    monkeypatch.setattr(class_door, "A_SECOND", NEVER)
    async with opened() as (connect, ports):
        first = [connect() for _ in range(3)]
        await until(lambda: len(ports) == 3)
        others = [connect() for _ in range(20)]
        await asyncio.sleep(0.1)
        assert len(ports) == 3
        for own in others:
            own.setblocking(False)
            with pytest.raises(BlockingIOError):  # it is open
                own.recv(1)
    for own in [*first, *others]:
        own.close()


@pytest.mark.asyncio
async def test_newest_connection_is_served_next(monkeypatch: pytest.MonkeyPatch) -> None:
    """One that its client has closed meanwhile takes nobody's turn."""
    monkeypatch.setattr(class_door, "AT_ONCE", 4)
    monkeypatch.setattr(class_door, "A_SECOND", NEVER)
    async with opened() as (connect, ports):
        own = [connect() for _ in range(8)]  # before the door does anything
        order = [each.getsockname()[1] for each in own]
        own[5].close()
        own[6].close()
        await until(lambda: len(ports) == 4)
        assert ports == [order[number] for number in (7, 4, 3, 2)]
    for each in own:
        each.close()


@pytest.mark.asyncio
async def test_connections_with_a_code_go_first(monkeypatch: pytest.MonkeyPatch) -> None:
    """Also if nobody else is served; of one code's only a number."""
    monkeypatch.setattr(class_door, "AT_ONCE", 0)
    monkeypatch.setattr(class_door, "A_SECOND", NEVER)
    monkeypatch.setattr(class_door, "OF_CODE_AT_ONCE", 2)
    monkeypatch.setattr(class_door, "OF_CODE_A_SECOND", NEVER)
    async with opened() as (connect, ports):
        own = [connect() for _ in range(9)]
        for each, data in zip(own, (b"x", b"seat 1", b"", b"seat 1", b"x", b"seat 1", b"seat 2", b"x", b"")):
            each.sendall(data)
        order = [each.getsockname()[1] for each in own]
        await until(lambda: len(ports) == 3)
        await asyncio.sleep(0.1)
        assert ports == [order[number] for number in (1, 3, 6)]
        own[2].sendall(b"seat 2")  # later
        await until(lambda: len(ports) == 4)
        assert ports[3] == order[2]
    for each in own:
        each.close()


@pytest.mark.asyncio
async def test_kinds_are_recognized(tmp_path: pathlib.Path) -> None:
    """Requests of the page and others, and TLS handshakes (RFC 8446, section 5.1) and others."""
    async with served(tmp_path / "class") as room:
        assert room.members
        server, code = class_server.Server(room.members, set()), room.codes["A1"]
        head = b"GET /socket HTTP/1.1\r\nHost: x\r\nsec-websocket-protocol: vecmon, vecmon-code."
        assert server.recognize(head + code.encode() + b"\r\n\r\n") == ("A1", "other")
        for other in (head, head + b"a" * 14, head + code.encode()[:-1], code.encode(), head + code.upper().encode()):
            assert server.recognize(other + b"\r\n") == (None, "other")
        assert server.recognize(b"GET / HTTP/1.1\r\n") == (None, "page")
    assert kind_of_start(b"\x16\x03\x01") == (None, "TLS")
    assert kind_of_start(b"GET / ") == kind_of_start(b"") == (None, "other")


@pytest.mark.asyncio
async def test_kinds_of_connections_take_turns(monkeypatch: pytest.MonkeyPatch) -> None:
    """Newer connections of another kind don't keep one waiting."""
    monkeypatch.setattr(class_door, "AT_ONCE", 1)
    monkeypatch.setattr(class_door, "A_SECOND", 20)
    async with opened() as (connect, ports):
        page = connect()
        page.sendall(b"GET / HTTP/1.1\r\n\r\n")
        sockets = [connect() for _ in range(20)]
        for each in sockets:
            each.sendall(b"GET /socket HTTP/1.1\r\n\r\n")
        await until(lambda: len(ports) > 4)
        assert page.getsockname()[1] in ports[:4]
    for each in [page, *sockets]:
        each.close()


@pytest.mark.asyncio
async def test_page_with_a_code_passes_those_that_wait(tmp_path: pathlib.Path, monkeypatch: pytest.MonkeyPatch) -> None:
    monkeypatch.setattr(class_door, "AT_ONCE", 0)
    monkeypatch.setattr(class_door, "A_SECOND", NEVER)
    async with served(tmp_path / "class") as room:
        strangers = [asyncio.create_task(room.open("a" * 14)), asyncio.create_task(room.open(None))]
        await room.sit("A1")
        await room.sit("teacher")
        assert not any(each.done() for each in strangers)
        for each in strangers:
            each.cancel()


@pytest.mark.asyncio
async def test_later_requests_of_a_connection_wait(tmp_path: pathlib.Path, monkeypatch: pytest.MonkeyPatch) -> None:
    """So one that stays open doesn't pass the door's rate; new connections go on."""
    monkeypatch.setattr(class_server, "LATER_AT_ONCE", 3)
    monkeypatch.setattr(class_server, "LATER_A_SECOND", NEVER)
    async with served(tmp_path / "class") as room:
        reader, writer = await asyncio.open_connection("127.0.0.1", room.port)
        asked = f"GET /nowhere HTTP/1.1\r\nHost: 127.0.0.1:{room.port}\r\n\r\n".encode("ascii")
        for _ in range(4):
            writer.write(asked)
            await asyncio.wait_for(reader.readuntil(b"404: Not Found"), SECONDS)
        writer.write(asked)
        waiting = asyncio.create_task(reader.read(1))
        await room.sit("A1")
        assert (await room.get("", None))[0] == 200 and not waiting.done()
        writer.close()
        await asyncio.gather(waiting, return_exceptions=True)


@pytest.mark.asyncio
async def test_oldest_of_too_many_that_wait_is_closed(monkeypatch: pytest.MonkeyPatch) -> None:
    monkeypatch.setattr(class_door, "AT_ONCE", 0)
    monkeypatch.setattr(class_door, "A_SECOND", NEVER)
    async with opened(waiting=5) as (connect, ports):
        own = [connect() for _ in range(7)]
        loop = asyncio.get_running_loop()
        for each in own:
            each.setblocking(False)
        for each in own[:2]:
            assert await asyncio.wait_for(loop.sock_recv(each, 1), SECONDS) == b""
        for each in own[2:]:
            with pytest.raises(BlockingIOError):
                each.recv(1)
    for each in own:
        each.close()
    assert not ports


@pytest.mark.asyncio
async def test_burst_of_connections_loses_none(tmp_path: pathlib.Path) -> None:
    """A client whose connection the kernel drops waits for a second, three or seven. The server is busy meanwhile."""
    count = min(1000, int(pathlib.Path("/proc/sys/net/core/somaxconn").read_text()) - 100)
    async with served(tmp_path / "class") as room:
        own = [socket.socket() for _ in range(count)]
        for each in own:
            each.setblocking(False)
            each.connect_ex(("127.0.0.1", room.port))
        states = [each.getsockopt(socket.IPPROTO_TCP, socket.TCP_INFO, 1)[0] for each in own]
        assert states.count(1) == count  # all are established
        for each in own:
            each.close()
        await room.sit("A1")


def test_limits_are_shares_of_the_files(monkeypatch: pytest.MonkeyPatch) -> None:
    """A process that may have few files leaves some for seats."""
    for files, count in ((1 << 20, 1500), (20_000, 1500), (4096, 307), (1024, 76)):
        monkeypatch.setattr(resource, "getrlimit", lambda kind: (files, files))
        assert class_server._share_of_files(class_server.UNKNOWN) == count
