"""The state of seats, as their teacher sees it."""

import pathlib
import time

import pytest

from vecmon_lab.classes.server.student_view import student_view

from support.class_tabs import LOOP, Message, Tab, served
from vecmon_lab.__main__ import arguments_of
from vecmon_lab.classes.core import progress
from vecmon_lab.classes.server import room as class_room
from vecmon_lab.classes.core.seat_status import problems_status, status_of
from vecmon_lab.exercises.exercise import OURS
from vecmon_lab.page.state import State

pytestmark = pytest.mark.asyncio

DOUBLES = (OURS / "doubles" / "good.s").read_text()
FAULT = """
        vsetivli x0, 8, e32, m1, ta, ma
        li x10, 0x11fec
        vle32.v v1, (x10)
        .data
        .byte 0
"""


def seat(teacher: Tab, digit: str) -> Message:
    """The row of a seat of machine A in the teacher's table."""
    reply: Message = teacher.view["machines"]["A"]["seats"][digit]
    return reply


async def test_seat_status_follows_program(tmp_path: pathlib.Path) -> None:
    started = int(time.time())
    async with served(tmp_path / "class") as room:
        tab, teacher = await room.sit("A1"), await room.sit("teacher")

        async def until(kind: str, text: str, is_stuck: bool, **parts: object) -> None:
            expected = (dict(kind=kind, text=text, **parts), is_stuck)
            await teacher.until(lambda view: (seat(teacher, "1")["status"], seat(teacher, "1")["stuck"]) == expected)

        assert (seat(teacher, "2")["status"], seat(teacher, "2")["stuck"]) == (
            {"kind": "none", "text": "not begun"},
            False,
        )
        assert started <= seat(teacher, "2")["since"] <= time.time()
        await tab.ask("source", text="frob x1, x2\nadd x1, x2")
        await until("problems", "2 problems", True, count=2)
        _, table = await room.get("seats.csv")
        assert b"\r\nA1,,no machine,2 problems," in table
        await tab.ask("source", text=FAULT)
        await until("paused", "paused: vsetivli", False, instruction="vsetivli")
        await tab.do("step 9")
        await until("fault", "fault: vle32.v, element 5", True, instruction="vle32.v", element=5)
        assert tab.view["state"]["vstart"] == 5
        since = seat(teacher, "1")["since"]
        await tab.do("set x11 1")
        await until("fault", "fault: vle32.v, element 5", True, instruction="vle32.v", element=5)
        assert seat(teacher, "1")["since"] == since
        await tab.do("leave", *LOOP)
        await until("paused", "paused: addi", False, instruction="addi")
        await tab.do("break 10004", "go", slices=1)
        await until("breakpoint", "at a breakpoint", False, instruction="jal")
        await tab.do("go")
        await teacher.until(lambda view: seat(teacher, "1")["run"] == "running")
        await until("running", "running", False)


async def test_one_problem_is_singular() -> None:
    assert problems_status(1) == {"kind": "problems", "text": "1 problem", "count": 1}


async def test_long_run_without_stop_is_shown(tmp_path: pathlib.Path, monkeypatch: pytest.MonkeyPatch) -> None:
    monkeypatch.setattr(class_room, "WATCH_SECONDS", 0.02)
    async with served(tmp_path / "class") as room:
        tab, teacher = await room.sit("A1"), await room.sit("teacher")
        await teacher.ask("clock", machine="A", on=True, slices=100, ms=10, limit=200_000)
        await tab.do(*LOOP, "go")
        await teacher.until(lambda view: seat(teacher, "1")["stuck"])
        assert seat(teacher, "1")["status"] == {"kind": "limit", "text": "stopped at the limit"}


@pytest.mark.parametrize(
    "last, expected",
    [
        ("", {"kind": "paused", "text": "paused: vse32.v", "instruction": "vse32.v"}),
        ("break pc=0000000000010008", {"kind": "paused", "text": "paused: vse32.v", "instruction": "vse32.v"}),
        ("ebreak pc=0000000000010004", {"kind": "ebreak", "text": "ended", "instruction": "vse32.v"}),
        (
            "outfull pc=0000000000010004",
            {"kind": "output", "text": "waits: its output is full", "instruction": "vse32.v"},
        ),
        ("exit 0 pc=0000000000010004", {"kind": "ended", "text": "ended", "exit": 0, "instruction": "vse32.v"}),
        (
            "exit 3 pc=0000000000010004",
            {"kind": "ended", "text": "ended with status 3", "exit": 3, "instruction": "vse32.v"},
        ),
        (
            "fault cause=7 pc=0000000000010004 value=0000000000030000",
            {"kind": "fault", "text": "fault: vse32.v, element 6", "instruction": "vse32.v", "element": 6},
        ),
        (
            "fault cause=2 pc=0000000000010004 value=000000000205640a",
            {"kind": "fault", "text": "fault: vse32.v", "instruction": "vse32.v"},
        ),
    ],
)
async def test_status_of_stops(last: str, expected: Message) -> None:
    """Stop lines as docs/COMMANDS.md has them; the instruction is at the program counter."""
    state: State = {
        "run": "stopped",
        "pc": "10004",
        "vtype": "d0",
        "vstart": 6,
        "code": {"10004": "02056427 vse32.v v8, (x10)"},
    }
    assert status_of(state, last) == expected


async def test_unknown_instruction_has_no_name() -> None:
    state: State = {"run": "stopped", "pc": "10004", "vtype": "d0", "vstart": 0, "code": {}}
    assert status_of(state, "") == {"kind": "paused", "text": "paused"}
    assert status_of(state, "fault cause=1 pc=0000000000010004 value=0000000000010004") == {
        "kind": "fault",
        "text": "fault",
    }
    assert status_of({"run": "absent"}, "") == {"kind": "none", "text": "not begun"}


async def test_requests_and_open_exercise_have_times(tmp_path: pathlib.Path) -> None:
    """An exercise is open since the student opens it, also the first one; it stays open since then when it is opened again."""
    started = int(time.time())
    async with served(tmp_path / "a class", exercises=[pathlib.Path("doubles"), pathlib.Path("filter")]) as room:
        tab, teacher = await room.sit("A1"), await room.sit("teacher")
        assert (teacher.view["class_title"], tab.view["class_title"], tab.view["title"]) == ("a class", "a class", "")
        assert (seat(teacher, "1")["active"], seat(teacher, "1")["exercise"]) == (0, "doubles")
        await tab.ask("run", text="nop")  # a first try of the machine, before any exercise
        assert room.members and seat(teacher, "1")["exercise_since"] == 0
        await tab.ask("open", exercise="doubles")
        await teacher.until(lambda view: started <= seat(teacher, "1")["exercise_since"] <= time.time())
        room.members.students["A1"].source.opened = 1.0
        await tab.ask("open", exercise="doubles")
        await teacher.until(lambda view: seat(teacher, "1")["exercise_since"] == 1)
        await tab.ask("open", exercise="filter")
        await teacher.until(lambda view: seat(teacher, "1")["exercise"] == "filter")
        assert started <= seat(teacher, "1")["exercise_since"] <= time.time()
        assert started <= seat(teacher, "1")["active"] <= time.time()
        assert seat(teacher, "2")["active"] == seat(teacher, "2")["exercise_since"] == 0


async def test_checked_exercise_is_open(tmp_path: pathlib.Path) -> None:
    """A check opens the first exercise; a choice of exercises opens one only at seats where another one was open."""
    started = int(time.time())
    async with served(tmp_path / "class", exercises=[pathlib.Path("doubles"), pathlib.Path("filter")]) as room:
        tab, teacher = await room.sit("A1"), await room.sit("teacher")
        await tab.ask("check", exercise="doubles", text="ret")
        await teacher.until(lambda view: seat(teacher, "1")["exercise_since"] >= started)
        assert room.members
        room.members.students["A1"].source.opened = 1.0
        await tab.until(lambda view: view["exercises"]["doubles"]["tries"] == 1)
        await teacher.ask("exercises", on=["filter"])
        await teacher.until(lambda view: seat(teacher, "1")["exercise"] == seat(teacher, "2")["exercise"] == "filter")
        assert seat(teacher, "1")["exercise_since"] >= started and seat(teacher, "2")["exercise_since"] == 0


async def test_exercise_stays_open_over_restart(tmp_path: pathlib.Path) -> None:
    """Its time is that of the student, and not of the server; a seat where none was opened has none."""
    folder, exercises = tmp_path / "class", [pathlib.Path("doubles"), pathlib.Path("filter")]
    async with served(folder, exercises=exercises) as room:
        tab = await room.sit("A1")
        await tab.ask("open", exercise="filter")
        assert room.members
        room.members.students["A1"].source.opened = 1_796_000_000.75
        room.members.save()
    async with served(folder) as room:
        teacher = await room.sit("teacher")
        found = {digit: (seat(teacher, digit)["exercise"], seat(teacher, digit)["exercise_since"]) for digit in "12"}
        assert found == {"1": ("filter", 1_796_000_000), "2": ("doubles", 0)}


async def test_long_work_with_failed_tries_is_stuck(tmp_path: pathlib.Path, monkeypatch: pytest.MonkeyPatch) -> None:
    """Three tries at an exercise that has been open for ten minutes; a try that passes ends it."""
    async with served(tmp_path / "class", exercises=[pathlib.Path("doubles")]) as room:
        tab, teacher = await room.sit("A1"), await room.sit("teacher")
        assert room.members
        source = room.members.students["A1"].source
        source.opened = opened = time.time() - 599

        async def check(text: str, tries: int) -> None:
            await tab.ask("check", exercise="doubles", text=text)
            await tab.until(lambda view: view["exercises"]["doubles"]["tries"] == tries)

        for number in (1, 2, 3):
            await check("ret", number)
        assert not seat(teacher, "1")["stuck"]
        monkeypatch.setattr(progress, "STUCK_SECONDS", 10)  # as if the time had passed
        await teacher.until(lambda view: seat(teacher, "1")["stuck"])  # without a request
        third = teacher.view["exercises"]["doubles"]["seats"]["A1"]["time"]
        assert seat(teacher, "1")["stuck_since"] == third > opened + 10
        await check(DOUBLES, 4)
        await teacher.until(lambda view: not seat(teacher, "1")["stuck"])
        assert "stuck_since" not in seat(teacher, "1")


async def test_class_title_is_one_line() -> None:
    assert arguments_of(["class", "monday"]).title is None
    assert arguments_of(["class", "monday", "--title", "Vectors, Monday"]).title == "Vectors, Monday"
    for other in ("", "a\nb", 81 * "a"):
        with pytest.raises(SystemExit, match="2"):
            arguments_of(["class", "monday", "--title", other])


async def test_used_share_is_reported_from_90_percent(tmp_path: pathlib.Path) -> None:
    async with served(tmp_path / "class") as room:
        assert room.members
        student = room.members.students["A1"]
        for used, sentence in [(1_349_999, ""), (1_350_000, "90 % of the script's room is used up.")]:
            student.seat.used = used
            assert student_view(room.members, student)["trouble"] == sentence
