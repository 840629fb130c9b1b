"""Flood a class's server, and measure how long a student waits meanwhile.

`VECMON=PATH .venv/bin/python lab/tools/flood_class.py [SECONDS]`, by default 20. Of clients without a code two send empty fragments and
pings without end, and others open sockets, 1,200 at once (`--sockets N`), all from the students' address. With `--churn` the others close
each socket themselves after its handshake, and open another one. A student whose connection ends connects again after a pause, as a page
does. The server has the limits that users have. The status is 1 unless each student sits down within a second, and the median of `state` is
below 50 ms: limits for four idle cores. The server's share of a core, while flooded, is printed for hosts that aren't idle.
"""

import argparse
import asyncio
import contextlib
import os
import pathlib
import statistics
import sys
import tempfile
import time
from multiprocessing import Process

from support.class_tabs import Served, Tab, process

SECONDS, SOCKETS, STUDENTS = 20.0, 1200, 12
SIT_SECONDS, MEDIAN_SECONDS = 1.0, 0.050
FIRST_PAUSE = 0.5  # seconds; of a page after its connection has ended (page/web/common/connection.js)
RELOAD_SECONDS = 5.0
CLOSE = {"Connection": "close"}
FRAGMENTS = b"\x01\x80\0\0\0\0" + b"\x00\x80\0\0\0\0" * 10_000
PINGS = b"\x89\x80\0\0\0\0" * 10_000


async def open_socket(port: int) -> tuple[asyncio.StreamReader, asyncio.StreamWriter]:
    """A connection after the handshake of a WebSocket, without a code."""
    reader, writer = await asyncio.open_connection("127.0.0.1", port)
    head = f"GET /socket HTTP/1.1\r\nHost: 127.0.0.1:{port}\r\nUpgrade: websocket\r\nConnection: Upgrade\r\n"
    writer.write(f"{head}Sec-WebSocket-Version: 13\r\nSec-WebSocket-Key: {'A' * 22}==\r\n\r\n".encode())
    await reader.readuntil(b"\r\n\r\n")
    return reader, writer


async def send_without_end(port: int, frames: bytes) -> None:
    """Send frames on one socket after the other."""
    while True:
        try:
            _, writer = await open_socket(port)
            while not writer.is_closing():
                writer.write(frames)
                await writer.drain()
        except (OSError, asyncio.IncompleteReadError):
            await asyncio.sleep(0.01)


async def occupy(port: int, churn: bool) -> None:
    """Keep one socket open without a code, and open another one once it is closed. churn: close it after the handshake"""
    while True:
        try:
            reader, writer = await open_socket(port)
            if churn:
                writer.transport.abort()
            await reader.read()
        except (OSError, asyncio.IncompleteReadError):
            await asyncio.sleep(0.01)


async def flood(port: int, sockets: int, churn: bool) -> None:
    """Do all of it until the process is killed."""
    floods = [send_without_end(port, frames) for frames in (FRAGMENTS, PINGS)]
    await asyncio.gather(*floods, *(occupy(port, churn) for _ in range(sockets)))


def flood_apart(port: int, sockets: int, churn: bool) -> None:
    """As `flood`, in a process of its own."""
    asyncio.run(flood(port, sockets, churn))


async def sit_down(room: Served, seat: str) -> Tab:
    """Return the tab of a student who sits down, with a new connection each time the server ends one."""
    while True:
        try:
            return await room.sit(seat)
        except (EOFError, OSError):
            await asyncio.sleep(FIRST_PAUSE)


async def load_page(room: Served) -> None:
    """Load the page, and again each time it doesn't come in time, as a student who reloads it."""
    while True:
        with contextlib.suppress(asyncio.TimeoutError):
            async with asyncio.timeout(RELOAD_SECONDS), room.session.get(room.url, headers=CLOSE) as page:
                await page.read()
                return


async def measure(room: Served, seconds: float) -> tuple[list[float], list[float], list[float]]:
    """How long students take to sit down, how long `state` takes, and how long the page, in seconds."""
    sits, states, pages = list[float](), list[float](), list[float]()
    end = time.monotonic() + seconds
    seats = [f"{machine}{digit}" for machine in "AB" for digit in range(1, 9)][:STUDENTS]
    while time.monotonic() < end:
        start = time.monotonic()
        tab = await sit_down(room, seats[len(sits) % STUDENTS])
        sits.append(time.monotonic() - start)
        await tab.do("enter")
        for _ in range(10):
            start = time.monotonic()
            await tab.ask("lines", look=["state"])
            states.append(time.monotonic() - start)
        await tab.socket.close()
        if len(sits) % 10 == 1:
            start = time.monotonic()
            await load_page(room)
            pages.append(time.monotonic() - start)
    return sits, states, pages


def processor_seconds(room: Served) -> float:
    """The processor time of the server's process, without those of its children."""
    assert room.server
    fields = pathlib.Path(f"/proc/{room.server.pid}/stat").read_text().rpartition(")")[2].split()
    return (int(fields[11]) + int(fields[12])) / os.sysconf("SC_CLK_TCK")


async def main(seconds: float, sockets: int, churn: bool) -> int:
    """Print the times without a flood and with it; return the exit status."""
    with tempfile.TemporaryDirectory() as folder:
        async with process(pathlib.Path(folder, "class"), "--machines", "2", raises_limits=False) as room:
            flooder = Process(target=flood_apart, args=(room.port, sockets, churn))
            times = [await measure(room, seconds / 4)]
            flooder.start()
            try:
                start, spent = time.monotonic(), processor_seconds(room)
                times.append(await measure(room, seconds))
                share = (processor_seconds(room) - spent) / (time.monotonic() - start)
            finally:
                flooder.kill()
                flooder.join()
            await room.end()
    print(f"server   {share:.2f} of a core while flooded, {len(times[1][0])} students")
    for name, kinds in zip(("idle", "flooded"), times):
        values = [value for kind in kinds for value in (statistics.median(kind), max(kind))]
        form = "{:8} sit down {:.3f} s, at most {:.3f} s; state {:.4f} s, at most {:.4f} s; page {:.3f} s, at most {:.3f} s"
        print(form.format(name, *values))
    sits, states, _ = times[1]
    return int(max(sits) > SIT_SECONDS or statistics.median(states) > MEDIAN_SECONDS)


if __name__ == "__main__":
    parser = argparse.ArgumentParser()
    parser.add_argument("seconds", nargs="?", type=float, default=SECONDS)
    parser.add_argument("--sockets", type=int, default=SOCKETS)
    parser.add_argument("--churn", action="store_true")
    arguments = parser.parse_args()
    sys.exit(asyncio.run(main(arguments.seconds, arguments.sockets, arguments.churn)))
