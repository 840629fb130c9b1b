"""Floods of frames: before the code, with a code, and how their bytes are counted; by RFC 6455 and a clock of the test's own."""

import asyncio
import base64
import os
import pathlib
import struct
from collections.abc import AsyncIterator, Coroutine
from typing import Any

import pytest
import pytest_asyncio
from aiohttp.http import WebSocketError

from support.class_tabs import LOOP, SECONDS, Served, served
from vecmon_lab.classes.server.connections import excess, network_of
from vecmon_lab.classes.server.frame_limits import FrameLimits, Rate
from vecmon_lab.classes.server.seat_budget import SeatBudget
from vecmon_lab.classes.server.tab_socket import BEAT

TEXT, CONTINUATION, PING = 0x1, 0x0, 0x9
FINAL = 0x80


def frame(opcode: int, payload: bytes = b"", is_final: bool = True, is_masked: bool = True) -> bytes:
    """A client's frame (RFC 6455, section 5.2), whose mask is 0."""
    size, mask = len(payload), FINAL if is_masked else 0
    lengths = bytes([mask | min(size, 126 if size < 1 << 16 else 127)])
    lengths += struct.pack(">H" if size < 1 << 16 else ">Q", size) if size >= 126 else b""
    return bytes([opcode | (FINAL if is_final else 0)]) + lengths + (bytes(4) if is_masked else b"") + payload


class Clock:
    """A clock that the test sets."""

    def __init__(self) -> None:
        self.now = 100.0

    def __call__(self) -> float:
        return self.now


def test_frames_are_followed_across_reads() -> None:
    """Of each length's form, cut anywhere; one that isn't masked is refused in each place."""
    frames = [frame(TEXT, b"a" * size) for size in (0, 1, 125, 126, 65_535, 65_536)]
    data, bad = b"".join(frames), frame(TEXT, b"a", is_masked=False)
    for step in (1, 3, 7, 4096, len(data)):
        limits = FrameLimits(Clock())
        limits.has_code = True
        for start in range(0, len(data), step):
            limits.follow(data[start : start + step])
        with pytest.raises(WebSocketError, match="a client's frames are masked"):
            limits.follow(bad)


def test_rate_of_frames_is_limited() -> None:
    """1,000 frames at once, 500 a second; 60 and 20 of control frames."""
    for opcode, at_once, a_second in ((CONTINUATION, 1000, 500), (PING, 60, 20)):
        clock = Clock()
        limits = FrameLimits(clock)
        limits.has_code = True
        limits.follow(frame(opcode) * at_once)
        clock.now += 1
        limits.follow(frame(opcode) * a_second)
        with pytest.raises(WebSocketError, match="too many frames in a second"):
            limits.follow(frame(opcode))


@pytest.mark.parametrize(
    "data",
    [
        frame(TEXT, b"a", is_final=False),
        frame(CONTINUATION),
        frame(TEXT, b"a" * 1025),
        frame(TEXT, b"a" * 70_000),
        frame(TEXT, b"a") * 2,
        frame(0x2, b"a"),
        frame(PING) * 17,
    ],
    ids=["fragment", "continuation", "long", "very long", "second", "binary", "pings"],
)
def test_one_small_text_comes_before_code(data: bytes) -> None:
    FrameLimits(Clock()).follow(frame(PING) * 16 + frame(TEXT, b"a" * 1024))
    with pytest.raises(WebSocketError, match="before the code|one small message with the code comes first"):
        FrameLimits(Clock()).follow(data)


def test_rate_refills_up_to_its_limit() -> None:
    clock = Clock()
    rate = Rate(2, 10, clock)
    assert rate.take(12) == -2
    clock.now += 3
    assert rate.take(0) == 4
    clock.now += 100
    assert rate.take(1) == 9


@pytest.mark.asyncio
async def test_seat_pays_for_its_requests() -> None:
    """A quarter of a core: after 7 s of processor, where 5 are there at once, the seat waits 8 s. Time of waiting is free."""
    clock, processor = Clock(), Clock()
    budget = SeatBudget(0.25, clock, processor)

    async def work() -> str:
        processor.now += 3
        await asyncio.sleep(0)
        processor.now += 4
        return "done"

    task = asyncio.create_task(_waited(budget, work()))
    await asyncio.sleep(0)
    assert budget.delay == 0 and await task == "done"
    assert budget.delay == 8
    clock.now += 8
    assert budget.delay == 0
    with pytest.raises(asyncio.CancelledError):
        cancelled = asyncio.create_task(_waited(budget, asyncio.sleep(SECONDS, "")))
        await asyncio.sleep(0)
        cancelled.cancel()
        await cancelled


async def _waited(budget: SeatBudget, work: Coroutine[Any, Any, str]) -> str:
    """The result of metered work."""
    return await budget.metered(work)


@pytest.mark.asyncio
async def test_seat_pays_for_greetings_news_and_beats(room: Served, monkeypatch: pytest.MonkeyPatch) -> None:
    """Each tab of a seat gets them, so one request may cost as much as eight."""
    paid = list[str]()

    def metered(budget: SeatBudget, work: Coroutine[Any, Any, None]) -> Coroutine[Any, Any, None]:
        paid.append(work.__name__)
        return work

    monkeypatch.setattr(SeatBudget, "metered", metered)
    tab, other = await room.sit("A1"), await room.sit("A1")
    await tab.ask("name", name="Ada")
    await other.until(lambda view: view["name"] == "Ada")
    await tab.socket.send_str(BEAT)
    while (await tab.receive())["kind"] != "beat":
        pass
    assert {"_greet", "_execute", "_send_news", "_send"} <= {*paid} and paid.count("_greet") == 2


def test_oldest_of_largest_address_ends() -> None:
    """Others keep theirs, however old they are; a network of IPv6 counts as one address."""
    old = [("school", number) for number in range(3)]
    flood = [("flood", number) for number in range(10)]
    assert excess([*old, *flood], lambda it: it[0], 12) == {("flood", 0)}
    assert excess([*old, *flood], lambda it: it[0], 13) == set()
    assert network_of("192.168.1.20") == "192.168.1.20"
    assert network_of("2001:db8:1:2:3::4") == network_of("2001:db8:1:2:ffff::") != network_of("2001:db8:1:3::")
    assert network_of("fe80::1%eth0") == network_of("fe80::2")


@pytest_asyncio.fixture  # type: ignore[misc]
async def room(tmp_path: pathlib.Path) -> AsyncIterator[Served]:
    async with served(tmp_path / "class") as room:
        yield room


async def flood(room: Served, code: str, data: bytes) -> bytes:
    """The code with which the server closes a socket that sends these bytes after its code, or right after the handshake."""
    reader, writer = await asyncio.open_connection("127.0.0.1", room.port)
    key = base64.b64encode(os.urandom(16)).decode()
    head = f"GET /socket HTTP/1.1\r\nHost: 127.0.0.1:{room.port}\r\nUpgrade: websocket\r\nConnection: Upgrade\r\n"
    writer.write(
        f"{head}Sec-WebSocket-Version: 13\r\nSec-WebSocket-Key: {key}\r\n\r\n".encode() + (b"" if code else data)
    )
    await asyncio.wait_for(reader.readuntil(b"\r\n\r\n"), SECONDS)
    if code:
        writer.write(frame(TEXT, f'{{"code": "{code}"}}'.encode()))
        await asyncio.wait_for(reader.readuntil(b'"hello"'), SECONDS)
        writer.write(data)
    received = bytearray()
    while part := await asyncio.wait_for(reader.read(1 << 16), SECONDS):
        received += part
    writer.close()
    return bytes(received[received.rindex(b"\x88") :][2:4])


@pytest.mark.asyncio
@pytest.mark.parametrize("opcode", [CONTINUATION, PING])
async def test_flood_is_closed_and_others_go_on(room: Served, opcode: int) -> None:
    """By 1008, also where the frames come with the handshake's request; by 1002, frames without a mask."""
    other, policy = await room.sit("A2"), struct.pack(">H", 1008)
    await other.do(*LOOP)
    frames = frame(TEXT, is_final=False) + frame(opcode, is_final=opcode == PING) * 40_000
    for code in ("", room.codes["A1"]):
        assert await flood(room, code, frames) == policy
        assert await other.do("step 1") != []
    assert await flood(room, room.codes["A1"], frame(TEXT, b"{}", is_masked=False)) == struct.pack(">H", 1002)
