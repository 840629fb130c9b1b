"""Checkpoints of a class: a machine that is killed is back soon, and a class goes on in a new script."""

import asyncio
import os
import pathlib
import signal

import pytest

from support.class_tabs import LOOP, Served, served
from support.places import SUM
from vecmon_lab import LabError
from vecmon_lab.classes.core.live import is_servers
from vecmon_lab.classes.server.solo import solo
from vecmon_lab.classes.server.store import Store
from vecmon_lab.machine.program import find_program

pytestmark = pytest.mark.asyncio

SUM_LINES = ["enter", "load sum", "step 3", "policy ones", "break 11190"]


async def test_killed_process_restarts_from_checkpoint(tmp_path: pathlib.Path) -> None:
    async with served(tmp_path / "class", {"sum": SUM}) as room:
        assert room.members
        machine = room.members.rooms["A"]
        tab, other, teacher = await room.sit("A1"), await room.sit("A2"), await room.sit("teacher")
        await tab.do(*LOOP, "go")
        await other.do("enter", "load sum", "step 3", "policy ones")
        await teacher.do(*["slices 1000"] * 9, machine="A")
        for _ in range(2):  # the second one is a checkpoint of lines that the first one begins
            making = asyncio.create_task(machine.make_checkpoint())
            await other.do("step 1")
            await making
            assert b"* slices 1000" not in machine.session.short_script
            assert machine.session.short_script.partition(b"2 policy ones\n")[2].count(b"2 step 1\n") == 1
            process = machine.session.process
            assert process
            os.kill(process, signal.SIGKILL)
            assert (await tab.do("stop"))[0][0].startswith("stopped pc=")
            assert machine.session.process != process
            await tab.do("step 1", "go")
            await teacher.do("slices 1000", machine="A")
        await tab.do("stop")
        await room.check_replay()


async def start_next_script(room: Served) -> bytes:
    """Two students do something, and the class goes on in another script; the first one."""
    assert room.members
    machine = room.members.rooms["A"]
    tab, other, teacher = await room.sit("A1"), await room.sit("A2"), await room.sit("teacher")
    await other.do(*SUM_LINES)
    await (await room.sit("A3")).do(*LOOP, "asm 10000 ebreak", "go")
    await teacher.do("run 3", machine="A")
    await tab.do(*LOOP, "go")
    await teacher.do("slices 999", machine="A")
    await tab.do("stop")
    await machine.make_checkpoint()
    await other.do("step 1")
    first = machine.session.script
    (room.folder / "A.2.script").write_text("1 ent")  # as a server leaves it that is killed while it writes
    with pytest.MonkeyPatch.context() as patch, pytest.raises(LabError, match="notes of the script aren't saved"):
        patch.setattr(machine, "save", lambda notes: False)  # as where the disk is full
        await machine.begin_script()
    await room.check_replay()
    await machine.begin_script()
    assert (room.folder / "A.script").read_bytes() == first != (room.folder / "A.2.script").read_bytes()
    await tab.do("go", "stop")
    await teacher.do("run 1", "stats", machine="A")
    return first


async def test_class_continues_in_next_script(tmp_path: pathlib.Path) -> None:
    async with served(tmp_path / "class", {"sum": SUM}) as room:
        first = await start_next_script(room)
        _, transcript = await room.check_replay()
        assert [await room.get(place) for place in ("A.1/script", "A.2/script", "A.2/transcript")] == [
            (200, first), (200, (room.folder / "A.2.script").read_bytes()), (200, transcript)
        ]  # fmt: skip
        assert (await room.get("A.1/transcript"))[1].startswith(b"2 entered\n2 loaded pc=")
        assert (await room.get("A.3/script"))[0] == 404
        tab = await room.sit("A1")
        assert await tab.do("state") == [["state stopped pc=0000000000010000"]] and tab.view["share"]["used"] == 20
        assert room.members
        room.members.save()
        room.members.store.texts.flush()
        store = Store(room.folder, find_program(), is_reading=True)  # while the class runs
        assert solo(store, "A2") == [f"2 {line}" for line in (*SUM_LINES, "step 1")]
        own = [f"1 {line}" for line in (*LOOP, "go", "stop", "go", "stop")]
        own.insert(len(LOOP) + 1, "* slices 999")
        assert [line for line in solo(store, "A1") if not is_servers(line)] == own


async def test_class_restarts_from_next_script(tmp_path: pathlib.Path) -> None:
    async with served(tmp_path / "class", {"sum": SUM}) as room:
        await start_next_script(room)
        registers = await (await room.sit("A2")).do("regs")
        ended = (await room.sit("A3")).view
    async with served(tmp_path / "class") as room:
        tab, other, teacher = await room.sit("A1"), await room.sit("A2"), await room.sit("teacher")
        assert teacher.view["machines"]["A"]["scripts"] == 2 and tab.view["share"]["used"] == 20
        assert tab.logs["A1"] == [
            ">1 go",
            "<1 running pc=0000000000010000",
            ">1 stop",
            "<1 stopped pc=0000000000010000",
        ]
        assert "A2" not in other.logs and other.view["state"]["breaks"] == ["11190"]
        assert await other.do("regs") == registers
        third = await room.sit("A3")
        assert third.view["condition"] == ended["condition"] == "Ended"
        assert third.view["state"]["stop"] == ended["state"]["stop"]
        assert teacher.view["machines"]["A"]["seats"]["3"]["status"]["kind"] == "ebreak"
        await room.check_replay()
    async with served(tmp_path / "class") as room:
        assert (await room.sit("A3")).view["condition"] == "Ended"
