"""The files that a student takes home."""

import asyncio
import io
import json
import pathlib
import re
import subprocess
import zipfile

import pytest

from support.class_tabs import served
from support.places import SUM
from vecmon_lab.classes.server import room as class_room
from vecmon_lab.classes.server.take_home import MAX_FRAMES, steps_of, zipped
from vecmon_lab.machine.program import find_program

SOURCE = (
    "main:\n# A vector of indices.\n  vsetivli x0, 4, e32, m1, ta, ma\n  vid.v v1\nloop: addi x5, x5, 1\n  j loop\n"
)


@pytest.mark.asyncio
async def test_archive_contains_seat_files(tmp_path: pathlib.Path, monkeypatch: pytest.MonkeyPatch) -> None:
    monkeypatch.setattr(class_room, "WATCH_SECONDS", 1e9)  # so that the script has no looks of the server's
    folder = tmp_path / "class"
    async with served(folder, {"sum": SUM}) as room:
        tab, other, _ = await room.sit("A3"), await room.sit("A4"), await room.sit("teacher")
        await other.do("enter", "load sum", "step 2")
        assert (await tab.ask("source", text=SOURCE))["mistakes"] == []
        await tab.do("step 1", "step 2", "go", slices=4)
        await tab.do("stop")
        for name in ("A3.s", "A3.written.s"):
            (folder / name).write_text(SOURCE)
        status, data = await room.get("A3/home", "A3")
        packed = zipfile.ZipFile(io.BytesIO(data))
        assert status == 200 and packed.namelist() == ["A3/A3.script", "A3/A3.html", "A3/A3.s", "A3/playground.json"]
        assert packed.read("A3/A3.s").decode() == SOURCE
        alone = subprocess.run([find_program(), "/dev/stdin"], input=packed.read("A3/A3.script"), capture_output=True)
        registers = (await tab.do("regs"))[0]
        assert alone.stdout.decode().splitlines()[-2:] == [f"3 stopped {registers[0].replace('pc ', 'pc=')}", "3 out 0"]
        page = packed.read("A3/A3.html").decode()
        lesson = json.loads(re.findall(r'<script type="application/json"[^>]*>(.*?)</script>', page, re.DOTALL)[0])
        assert [frame["line"] for frame in lesson["frames"]][-5:] == [
            "3 step 1", "3 step 2: instruction 1", "3 step 2: instruction 2", "3 go", "3 stop"
        ]  # fmt: skip
        assert "loop" in str(lesson["labels"]) and lesson["lines"]["1000c"] == "j loop"
        assert "A vector of indices." in [frame["note"] for frame in lesson["frames"]]
        status, data = await room.get("A4/home")  # to the teacher
        assert zipfile.ZipFile(io.BytesIO(data)).read("A4/sum.elf") == SUM.read_bytes()
        assert [(await room.get(place, role))[0] for place, role in (("A4/home", "A3"), ("A3/home", None))] == [
            404,
            404,
        ]
        reply = await asyncio.gather(*(room.get("A5/home", role) for role in ("A5", "teacher")))
        assert {words for status, words in reply if status == 503} == {
            b"nothing was done at seat A5", b"it is being made already"
        }  # fmt: skip


def test_lesson_frames_are_limited() -> None:
    lines = ["3 enter", *["3 step 1"] * 400, "3 go", *["* slices 1000"] * 900, "3 out ", "3 stop", *["3 step 99"] * 2]
    steps = steps_of(lines)
    assert [line for step in steps for line in step.lines] == lines
    assert len(steps) + 2 * 98 == MAX_FRAMES and steps[1].lines == ["3 step 1"] and len(steps[-4].lines) == 902
    assert len(steps_of(lines[:300])) == 300 and steps_of([]) == []


@pytest.mark.parametrize("seconds, date", [(0.0, (1980, 1, 1, 0, 0, 0)), (5e9, (2107, 12, 31, 23, 59, 58))])
def test_archive_is_made_whatever_the_clock_says(seconds: float, date: tuple[int, ...]) -> None:
    """A computer without a battery starts in 1970."""
    packed = zipfile.ZipFile(io.BytesIO(zipped({"A3/A3.s": "nop", "A3/sum.elf": b"\x7fELF"}, seconds)))
    assert [(each.filename, each.date_time) for each in packed.infolist()] == [("A3/A3.s", date), ("A3/sum.elf", date)]
    assert packed.testzip() is None and packed.read("A3/A3.s") == b"nop"
