"""A served class, and tabs without a browser."""

import asyncio
import hashlib
import json
import pathlib
import re
import signal
import subprocess
import sys
from collections.abc import AsyncIterator, Callable, Iterable, Mapping
from contextlib import asynccontextmanager
from typing import Any

import aiohttp

from support.busy_host import PATIENCE
from support.message_schema import check_message, check_request, check_view
from support.places import TOP
from vecmon_lab.classes.server import server as class_server
from vecmon_lab.classes.server.builds import Builds
from vecmon_lab.classes.server.script_file import script_name
from vecmon_lab.classes.server.store import Store
from vecmon_lab.classes.server.served_class import Class
from vecmon_lab.machine.program import find_program

LOOP = ["enter", "map 10000 1 rwx", "asm 10000 addi x5, x5, 1", "asm 10004 jal x0, -4", "setpc 10000"]
SECONDS = float(PATIENCE)

Message = dict[str, Any]


def patched(value: Any, patch: Any) -> Any:
    """The value after a merge patch: the pseudo-code of RFC 7396, section 2."""
    if not isinstance(patch, dict):
        return patch
    result = dict(value) if isinstance(value, dict) else {}
    for key, part in patch.items():
        if part is None:
            result.pop(key, None)
        else:
            result[key] = patched(result.get(key), part)
    return result


def passed(result: Message) -> list[bool]:
    """Whether an answer passes each case, by the result of its check."""
    return [case["passed"] for case in result["cases"]]


class Tab:
    """A tab: its view, its logs, and the messages that came, each checked against the schema.

    From the first `receive` on a task reads the socket, as a browser does: aiohttp answers the server's pings only while
    it reads.
    """

    def __init__(self, socket: aiohttp.ClientWebSocketResponse) -> None:
        self.socket = socket
        self.who = ""
        self.view: Message = {}
        self.logs: dict[str, list[str]] = {}
        self._number = 0
        self._received = asyncio.Queue[aiohttp.WSMessage]()
        self._reader: asyncio.Task[None] | None = None

    async def _read(self) -> None:
        """Queue the messages that arrive; the last one is that of the end."""
        is_open = True
        while is_open:
            message = await self.socket.receive()
            is_open = message.type is aiohttp.WSMsgType.TEXT
            self._received.put_nowait(message)

    async def receive(self) -> Message:
        """The next message, taken up. Raises EOFError with the code where the server has closed."""
        self._reader = self._reader or asyncio.create_task(self._read())
        message = await asyncio.wait_for(self._received.get(), SECONDS)
        if message.type is not aiohttp.WSMsgType.TEXT:
            self._received.put_nowait(message)  # for the next call
            is_close = message.type is aiohttp.WSMsgType.CLOSE
            raise EOFError(message.data if is_close else self.socket.close_code)
        reply: Message = json.loads(message.data)
        check_message(reply)
        self.who = reply.get("who", self.who)
        self.view = patched(self.view, reply.get("patch", {}))
        check_view(self.who, self.view, None if reply["kind"] == "hello" else reply.get("patch", {}))
        for name, entries in reply.get("logs", {}).items():
            self.logs.setdefault(name, []).extend(entries)
        return reply

    async def ask(self, kind: str, **words: Any) -> Message:
        """The answer to a request."""
        self._number += 1
        request = {"id": self._number, "ask": kind, **words}
        await self.socket.send_json(request)
        while (reply := await self.receive())["kind"] != "answer":
            pass
        assert reply["id"] == self._number
        if "error" not in reply:
            check_request(self.who, json.loads(json.dumps(request)))
        return reply

    async def do(self, *lines: str, **words: Any) -> list[list[str]]:
        """The answers to lines."""
        reply = await self.ask("lines", do=lines, **words)
        assert "error" not in reply, reply
        answers: list[list[str]] = reply["do"]
        return answers

    async def until(self, wanted: Callable[[Message], object]) -> None:
        """Takes messages until the view is as wanted."""
        while not wanted(self.view):
            await self.receive()


class Served:
    """A class that is served, in this process or in one of its own."""

    def __init__(self, folder: pathlib.Path, port: int, session: aiohttp.ClientSession) -> None:
        self.folder, self.port, self.session = folder, port, session
        self.url = f"http://127.0.0.1:{port}/"
        self.codes: dict[str, str] = json.loads((folder / "codes.json").read_text())
        self.server: asyncio.subprocess.Process | None = None
        self.members: Class | None = None

    async def open(self, code: Any, **headers: str) -> Tab:
        """A socket that has sent a code and waits for what comes."""
        shown = ("vecmon", f"vecmon-code.{code}") if re.fullmatch("[a-z0-9]+", f"{code}") else ()
        socket = await self.session.ws_connect(self.url + "socket", protocols=shown, headers=headers, max_msg_size=0)
        await socket.send_json({"code": code})
        return Tab(socket)

    async def sit(self, role: str) -> Tab:
        """A tab of a seat, or the teacher's, that was greeted."""
        tab = await self.open(self.codes[role])
        assert (await tab.receive())["who"] == role
        return tab

    async def get(self, path: str, role: str | None = "teacher") -> tuple[int, bytes]:
        """The status and the body of an answer."""
        headers = {"Authorization": f"Bearer {self.codes[role]}"} if role else {}
        async with self.session.get(self.url + path, headers=headers) as answer:
            return answer.status, await answer.read()

    def machine(self) -> int:
        """The process of the one machine of a server's process."""
        assert self.server
        tasks = pathlib.Path(f"/proc/{self.server.pid}/task").glob("*/children")
        children = [int(word) for path in tasks for word in path.read_text().split()]
        is_python = {each: pathlib.Path(f"/proc/{each}/comm").read_text().startswith("python") for each in children}
        (child,) = (each for each in children if not is_python[each])  # the others make checkpoints
        return child

    async def end(self, sign: signal.Signals = signal.SIGTERM) -> int:
        """Ends the server's process; its status."""
        assert self.server
        self.server.send_signal(sign)
        return await asyncio.wait_for(self.server.wait(), SECONDS)

    async def check_replay(self, machine: str = "A", is_saved: bool = True) -> tuple[bytes, bytes]:
        """Script and transcript: a plain run of the script gives the same answers as the class and its files."""
        teacher = await self.sit("teacher")
        script = (await self.get(f"{machine}/script"))[1]
        images = [f"{name}={self.folder}/images/{name}.elf" for name in teacher.view["images"]]
        command = [str(find_program()), "--quantum", str(teacher.view["quantum"]), "/dev/stdin", *images]
        completed = subprocess.run(command, input=script, stdout=subprocess.PIPE, check=True)
        assert hashlib.sha256(completed.stdout).hexdigest() == teacher.view["machines"][machine]["digest"]
        assert (await self.get(f"{machine}/transcript"))[1] == completed.stdout
        name = script_name(machine, teacher.view["machines"][machine]["scripts"])
        assert not is_saved or (self.folder / name).read_bytes() == script
        await teacher.socket.close()
        return script, completed.stdout


@asynccontextmanager
async def served(
    folder: pathlib.Path,
    images: Mapping[str, pathlib.Path] = {},
    machines: int = 1,
    name: str = "class",
    quantum: int | None = None,
    clock: bool = False,
    exercises: Iterable[pathlib.Path] = (),
    builds: Builds | None = None,
) -> AsyncIterator[Served]:
    """A class that is served in this process."""
    store = Store(folder, find_program(), images, quantum, machines)
    members = Class(store, SECONDS, clock=clock, exercises=exercises, builds=builds)
    async with class_server.served(
        members, class_server.listening("127.0.0.1", 0), {name}
    ) as port, _session() as session:
        room = Served(folder, port, session)
        room.members = members
        yield room


def command(folder: pathlib.Path, *words: str, makes_checkpoints: bool = True, raises_limits: bool = True) -> list[str]:
    """The command that serves a class. raises_limits: with the limits by the clock for tests"""
    limits = "from support.busy_host import raise_limits; raise_limits(); " if raises_limits else ""
    spares = (
        "" if makes_checkpoints else "from vecmon_lab.classes.server import scripts; scripts.SHORTEN_SECONDS = 1e9; "
    )
    start = f"{limits}{spares}import vecmon_lab.__main__ as lab; raise SystemExit(lab.main())"
    return [sys.executable, "-c", start, "class", str(folder), *words, "--port", "0", "--no-clock"]


@asynccontextmanager
async def process(
    folder: pathlib.Path, *words: str, makes_checkpoints: bool = True, raises_limits: bool = True, **options: Any
) -> AsyncIterator[Served]:
    """A class that a process of its own serves; `server` in it. What is still there at the end is killed."""
    call = command(folder, *words, makes_checkpoints=makes_checkpoints, raises_limits=raises_limits)
    server = await asyncio.create_subprocess_exec(*call, cwd=TOP, stdout=subprocess.PIPE, **options)
    assert server.stdout
    try:
        line = await asyncio.wait_for(server.stdout.readline(), SECONDS)
        found = re.fullmatch(rb"teacher: http://[^/]+:(\d+)/#([a-z2-9]{14})\n", line)
        assert found, line
        async with _session() as session:
            room = Served(folder, int(found[1]), session)
            room.server = server
            assert room.codes["teacher"] == found[2].decode()
            yield room
    finally:
        if server.returncode is None:
            server.kill()
            await server.wait()


def _session() -> aiohttp.ClientSession:
    return aiohttp.ClientSession(connector=aiohttp.TCPConnector(limit=0))
