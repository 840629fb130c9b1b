"""Files that version 1.0.0 wrote: the folder of a class, archives to take home, lessons and a course, all still readable."""

import json
import pathlib
import re
import shutil
import subprocess
import zipfile
from typing import Any

import pytest

from support.class_tabs import Served, served
from support.places import DATA
from vecmon_lab.classes.server.solo import solo
from vecmon_lab.classes.server.store import Store

WRITTEN = DATA / "version_1_0"
COURSE = [path.stem for path in (WRITTEN / "course").glob("*.html") if path.stem != "index"]
ARCHIVES = {
    "A1": ["A1.script", "A1.html", "A1.s", "answers/doubles.s"],
    "A2": ["A2.script", "A2.html", "A2.O0.c", "answers/byte_sum.O2.c", "answers/doubles.O2.c"],
    "A3": ["A3.script", "A3.html", "sum.elf", "squares.elf"],
}
SUM_OF_SQUARES = f"{sum(i * i for i in range(100)).to_bytes(4, 'little').hex()}"  # of the kernel in C that A2 ran


@pytest.fixture
def folder(tmp_path: pathlib.Path) -> pathlib.Path:
    """A copy of the class's folder, which names the program of version 1.0.0."""
    return pathlib.Path(shutil.copytree(WRITTEN / "class", tmp_path / "class"))


def data_of(page: str) -> Any:
    """The data in a page that the lab wrote."""
    [data] = re.findall(r'<script type="application/json"[^>]*>(.*?)</script>', page, re.DOTALL)
    return json.loads(data)


def replay(program: pathlib.Path, script: str, images: dict[str, pathlib.Path] = {}) -> list[str]:
    """The transcript of a script, by line."""
    command = [str(program), "--quantum", "100", "/dev/stdin", *(f"{name}={path}" for name, path in images.items())]
    completed = subprocess.run(command, input=script.encode(), stdout=subprocess.PIPE, check=True)
    return completed.stdout.decode().splitlines()


def check_lesson(program: pathlib.Path, page: pathlib.Path) -> list[dict[str, Any]]:
    """Compares the answers that a lesson shows with those of the present program; its frames."""
    frames: list[dict[str, Any]] = data_of(page.read_text("utf-8"))["frames"]
    entries = [entry for frame in frames for entry in frame["log"]]
    script = "".join(f"{entry[1:]}\n" for entry in entries if entry[0] == ">")
    assert replay(program, script) == [entry[1:] for entry in entries if entry[0] == "<"]
    return frames


async def check_seats(room: Served) -> None:
    """Compares the seats and the teacher's table with what was done in the class."""
    one, two, three = [await room.sit(seat) for seat in ("A1", "A2", "A3")]
    teacher = await room.sit("teacher")
    assert one.view["source"]["text"].startswith("## Counts") and len(one.view["source"]["versions"]) == 2
    assert two.view["source"]["text"] == (WRITTEN / "class" / "A2.O0.c").read_text()
    assert one.view["state"]["x"]["5"] == "86" and two.view["state"]["run"] != "absent"
    assert three.view["name"] == "Zoë O'Neil" and sorted(teacher.view["images"]) == ["squares", "sum"]
    assert (await room.sit("A4")).view["source"]["text"] == "first: j first\n"
    seats = {name: table["seats"] for name, table in teacher.view["exercises"].items()}
    results = {
        (name, seat): (it["tries"], it["passed"], it["best"]) for name in seats for seat, it in seats[name].items()
    }
    assert results == {("doubles", "A1"): (2, 2, 5), ("doubles", "A2"): (1, 0, 1), ("byte_sum", "A2"): (1, 1, 7)}


@pytest.mark.asyncio
async def test_class_of_1_0_continues(folder: pathlib.Path) -> None:
    """Seats, names, sources, tries and the transcript are those of the class; new lines are added and saved."""
    async with served(folder) as room:
        await check_seats(room)
        assert (await room.get("A/transcript"))[1] == (WRITTEN / "transcript").read_bytes()
        four = await room.sit("A4")
        assert (await four.do("vreg v8 16"))[0][0].split()[-16:] == [f"{i:04x}" for i in [*range(8), *[0] * 8]]
        assert await four.do("step 1") == [["ebreak pc=0000000000010008"]]
        script, _ = await room.check_replay()
        assert script == (WRITTEN / "class" / "A.script").read_bytes() + b"4 step 1\n4 out \n"
    async with served(folder) as room:
        await check_seats(room)


@pytest.mark.parametrize("seat", ARCHIVES)
def test_archive_of_1_0_opens(tmp_path: pathlib.Path, program: pathlib.Path, folder: pathlib.Path, seat: str) -> None:
    """Its script replays to the answers of its lesson, and is the seat's part of the class's script."""
    packed = zipfile.ZipFile(WRITTEN / "archives" / f"{seat}.zip")
    assert packed.namelist() == [f"{seat}/{name}" for name in ARCHIVES[seat]]
    packed.extractall(tmp_path)
    images = {path.stem: path for path in (tmp_path / seat).glob("*.elf")}
    script = (tmp_path / seat / f"{seat}.script").read_text("ascii")
    transcript = replay(program, script, images)
    last = [entry[1:] for entry in data_of((tmp_path / seat / f"{seat}.html").read_text("utf-8"))["frames"][-1]["log"]]
    answers = [entry for entry in last if entry in transcript]
    assert transcript[-len(answers) :] == answers and answers
    assert seat != "A2" or transcript[-1] == f"2 out 4 {SUM_OF_SQUARES}"
    assert "".join(f"{line}\n" for line in solo(Store(folder, program, is_reading=True), seat)) == script


@pytest.mark.parametrize("name", ["lesson", "lesson_in_c"])
def test_lesson_of_1_0_is_reproduced(program: pathlib.Path, name: str) -> None:
    assert check_lesson(program, WRITTEN / f"{name}.html")


def test_course_of_1_0_is_reproduced(program: pathlib.Path) -> None:
    """Its index lists the twelve exercises, and the lesson before each replays."""
    entries = data_of((WRITTEN / "course" / "index.html").read_text("utf-8"))
    assert len(entries) == 12 and sorted(entry["name"] for entry in entries) == sorted(COURSE)
    for entry in entries:
        page = WRITTEN / "course" / f"{entry['name']}.html"
        assert f"<title>{entry['lesson']}" in page.read_text("utf-8") and len(check_lesson(program, page)) > 5
