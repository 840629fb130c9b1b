"""Turns at a machine, without a transport, a clock, or the machine: a substitute waits until a test lets it go on."""

import asyncio
import pathlib
import threading
from collections.abc import Sequence
from typing import Any

import pytest

from vecmon_lab.classes.server import scripts
from vecmon_lab.classes.server.worker_pool import WorkerPool
from vecmon_lab.classes.core.bad_request import BadRequest
from vecmon_lab.classes.core.requests import LinesRequest
from vecmon_lab.classes.server.builds import Builds
from vecmon_lab.classes.server.room import Room, RoomCalls
from vecmon_lab.classes.core.seats import Seat
from vecmon_lab.classes.server.script_file import ScriptFile
from vecmon_lab.machine.lines import is_look
from vecmon_lab.machine.session import Session

pytestmark = pytest.mark.asyncio


class StandIn:
    """A machine at which nobody is there; it waits before each line that does something, which is on the disk then."""

    def __init__(self, path: pathlib.Path) -> None:
        self.path = path
        self.order: list[str] = []
        self.quantum = 100
        self.go = threading.Semaphore(0)
        self.size, self.lines, self.weight, self.losses = 0, 0, 0.0, list[str]()
        self.digest = self.script_digest = ""

    def do_all(self, lines: Sequence[str]) -> list[list[str]]:
        if all(map(is_look, lines)):
            return [self.look(line) for line in lines]
        self.go.acquire()
        assert self.path.read_text("ascii").endswith("".join(f"{line}\n" for line in lines))
        self.order.append(lines[0][0])
        return [[f"{line[0]} E05" if line[0] != "*" else "* granted 0"] for line in lines]

    def look(self, line: str) -> list[str]:
        assert is_look(line)
        return [f"{line[0]} E05"]

    def end(self) -> None:
        ...

    close = end


class RunningRoom:
    """A room with a fake machine."""

    def __init__(self, folder: pathlib.Path) -> None:
        self.session: Any = StandIn(folder / "A.script")
        session: Session = self.session
        calls = RoomCalls(lambda names: None, set, lambda notes: False, Builds(), WorkerPool(1), WorkerPool(1))
        self.room = Room("A", session, ScriptFile(folder, "A"), calls)

    def ask(self, seat: Seat, *lines: str) -> "asyncio.Task[Any]":
        """A request that is under way."""
        return asyncio.create_task(self.room.lines(seat, LinesRequest(list(lines)), []))

    async def order(self, count: int, *tasks: "asyncio.Task[Any]") -> str:
        """The users whose lines were executed, in order, after this number of turns."""
        for _ in range(5):
            await asyncio.sleep(0)  # so that each has begun to wait
        self.session.go.release(count)
        await asyncio.gather(*tasks)
        self.room.end()
        return "".join(self.session.order)


async def test_seat_with_many_requests_gets_one_turn(tmp_path: pathlib.Path) -> None:
    machine = RunningRoom(tmp_path)
    seats = machine.room.seats.users
    greedy = [machine.ask(seats["1"], "step 1") for _ in range(20)]
    await asyncio.sleep(0)
    others = [machine.ask(seats[digit], "step 1") for digit in "2345678"]
    assert (await machine.order(27, *greedy, *others)) == "12345678" + "1" * 19


async def test_turns_rotate_among_seats(tmp_path: pathlib.Path) -> None:
    machine = RunningRoom(tmp_path)
    tasks = [machine.ask(machine.room.seats.users[digit], "step 1", "step 1") for digit in "312" for _ in range(3)]
    assert await machine.order(9, *tasks) == "312" * 3


async def test_clock_gets_turn(tmp_path: pathlib.Path) -> None:
    machine = RunningRoom(tmp_path)
    machine.room.seats.users["8"].state = {"run": "running", "pc": "0"}
    machine.room.set_clock({"on": True, "ms": 10})
    greedy = [machine.ask(machine.room.seats.users["1"], "step 1") for _ in range(4)]
    clock = asyncio.create_task(machine.room.clock.run())
    machine.session.go.release(1)
    while "*" not in machine.session.order:
        machine.session.go.release(1)
        await asyncio.sleep(0.02)
    clock.cancel()
    machine.session.go.release(9)
    await asyncio.gather(*greedy)
    machine.room.end()
    assert machine.session.order.index("*") <= 4


async def test_slices_wait_for_late_checkpoint(tmp_path: pathlib.Path, monkeypatch: pytest.MonkeyPatch) -> None:
    """A student who presses on gets a message; the clock skips; students' lines go on; a checkpoint ends the wait."""
    monkeypatch.setattr(scripts, "MAX_BEHIND", 3.0)
    machine = RunningRoom(tmp_path)
    room, session = machine.room, machine.session
    room.seats.users["8"].state = {"run": "running", "pc": "0"}
    makes = asyncio.create_task(room.shorten())
    await asyncio.sleep(0)
    session.weight = 3.5  # of a script that gets a checkpoint from 1 on
    for seat, request in (
        (room.seats.operator, LinesRequest(["slices 1000"])),
        (room.seats.users["8"], LinesRequest(slices=5)),
    ):
        with pytest.raises(BadRequest, match="slices wait"):
            await room.lines(seat, request, [])
    room.set_clock({"on": True, "ms": 10})
    clock = asyncio.create_task(room.clock.run())
    await asyncio.sleep(0.1)
    assert session.order == [] and not room.is_busy()
    assert await room.lines(room.seats.operator, LinesRequest(look=["list"]), []) == [["E05"]]
    room.seats.users["8"].state = {"run": "running", "pc": "0"}
    session.weight = 0.5
    while not room.is_busy():
        await asyncio.sleep(0.02)
    makes.cancel()
    clock.cancel()
    assert await machine.order(9, machine.ask(room.seats.users["1"], "step 1")) == "*1"


async def test_overview_does_not_wait_for_machine(tmp_path: pathlib.Path) -> None:
    machine = RunningRoom(tmp_path)
    task = machine.ask(machine.room.seats.users["1"], "step 1")
    while not machine.room.is_busy():
        await asyncio.sleep(0)
    assert machine.room.notes().lines == 0
    assert await machine.order(1, task) == "1"
