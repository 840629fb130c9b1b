"""Cases of an exercise on a student's page, and a machine with the inputs of one. Expected numbers are twice those of doubles."""

import pathlib
from collections.abc import Iterator, Mapping
from typing import Any

import pytest

from support.class_tabs import served
from support.desk import Desk, ask
from vecmon_lab.exercises.answer import settled
from vecmon_lab.exercises.exercise import read_exercise


@pytest.fixture
def desk(program: pathlib.Path) -> Iterator[Desk]:
    """A desk with two exercises of the course."""
    names = ("byte_sum", "doubles")
    exercises = {name: settled(program, read_exercise(pathlib.Path(name))) for name in names}
    desk = Desk(program, exercises, 100_000)
    yield desk
    desk.close()


def view(desk: Desk) -> Mapping[str, Any]:
    """The student's view of the exercise `doubles`."""
    return desk.student.exercises.views("A1")["doubles"]


def test_view_has_what_a_case_gives_and_expects(desk: Desk) -> None:
    first, second, *hidden = view(desk)["cases"]
    assert (first["name"], first["hidden"], second["name"]) == ("eight", False, "three, and the bytes after")
    assert [(row["where"], row["numbers"]) for row in first["shown"]["given"]] == [
        ("a0 (x10)", ["0x20100"]),
        ("a1 (x11)", ["0x20000"]),
        ("a2 (x12)", ["8"]),
        ("i32 at 0x20000", [*"12345678"]),
    ]
    (row,) = first["shown"]["expected"]
    assert (row["where"], row["numbers"]) == ("i32 at 0x20100", ["2", "4", "6", "8", "10", "12", "14", "16"])
    assert second["shown"]["expected"][0]["numbers"] == ["20", "-40", "60", "-1", "77", "88"]
    assert any("all ones" in note for note in second["shown"]["notes"])
    assert len(hidden) >= 2 and all([*case] == ["name", "hidden"] and case["hidden"] for case in hidden)


def test_view_counts_hints_and_best_try(desk: Desk) -> None:
    shown = view(desk)
    assert (shown["number"], shown["hint_count"], shown["best"], list(shown["hints"])) == (2, 3, 0, [])
    wrong = "vsetvli x0, a2, e32, m1, ta, ma\nret"
    ask(desk, ask="check", exercise="doubles", text=wrong)
    desk.settle()
    assert view(desk)["tries"] == 1 and view(desk)["best"] == sum(it["passed"] for it in view(desk)["told"]["cases"])
    assert view(desk)["hint_count"] == 3 and len(view(desk)["hints"]) == 1


def test_any_case_that_is_shown_can_be_tried(desk: Desk) -> None:
    """No check comes before it."""
    assert ask(desk, ask="case", exercise="doubles", text="ret", case=1)["mistakes"] == []
    state = desk.seat.state
    assert [int(state["x"][number], 16) for number in ("10", "11", "12")] == [0x20100, 0x20000, 3]
    assert state["pc"] == "10000" and state["memory"]["20000"] == "0a000000ecffffff1e00000028000000"
    assert "instruction" not in state and desk.seat.condition == "Ready"  # the program's own code doesn't set vxrm
    assert state["code"] == {"10000": "00008067 jalr x0, 0(x1)", "10004": "00100073 ebreak"}
    ask(desk, ask="lines", do=["step 1"])
    state = desk.seat.state
    assert state["instruction"] == "10000" and state["code"]["7ffff000"] == "00100073 ebreak"  # where it returns to
    assert [*state["code"]] == ["10000", "10004", "7ffff000"]
    ask(desk, ask="case", exercise="doubles", text="ret", case=0)
    assert int(desk.seat.state["x"]["12"], 16) == 8


def test_case_stays_until_another_source_is_loaded(desk: Desk) -> None:
    """Reset sets it up again, and so does Run after the program has ended."""

    def count() -> int:
        return int(desk.seat.state["x"]["12"], 16)

    ask(desk, ask="case", exercise="doubles", text="addi a2, a2, 1\nret", case=1)
    ask(desk, ask="lines", do=["step 1"])
    assert count() == 4
    ask(desk, ask="again")
    assert (count(), desk.seat.condition) == (3, "Ready")
    ask(desk, ask="lines", do=["step 3"])
    assert (count(), desk.seat.condition) == (4, "Ended")
    ask(desk, ask="run")
    assert (count(), desk.seat.condition) == (3, "Running")
    ask(desk, ask="source", text="ret")
    ask(desk, ask="again")
    assert count() == 0


@pytest.mark.asyncio
async def test_case_stays_after_restart(tmp_path: pathlib.Path) -> None:
    """Reset sets it up again, unless its exercise is off or the file is damaged."""
    folder, exercises = tmp_path / "class", [pathlib.Path("doubles"), pathlib.Path("byte_sum")]
    async with served(folder, exercises=exercises) as room:
        tab = await room.sit("A1")
        for case in (0, 1):
            request = {"exercise": "doubles", "text": "addi a2, a2, 1\nret", "case": case}
            assert (await tab.ask("case", **request))["mistakes"] == []
        await tab.do("step 1")
    assert (folder / "A1.case").read_text() == "doubles 1"
    restarts = ("doubles 1", exercises, "3"), ("doubles 1", exercises[1:], "0"), ("doubles x", exercises, "0")
    for text, chosen, count in restarts:
        (folder / "A1.case").write_text(text)
        async with served(folder, exercises=chosen) as room:
            tab = await room.sit("A1")
            await tab.ask("again")
            assert tab.view["state"]["x"]["12"] == count
            await tab.ask("source", text="addi a2, a2, 1\nret")
        assert "doubles 1" not in (folder / "A1.case").read_text()


@pytest.mark.parametrize(
    "case, expected", [(2, "isn't shown"), (-1, "isn't shown"), (99, "isn't shown"), ("1", "whole")]
)
def test_hidden_and_unknown_cases_are_refused(desk: Desk, case: object, expected: str) -> None:
    assert expected in ask(desk, ask="case", exercise="doubles", text="ret", case=case)["error"]
    assert "no case that is shown has failed" in ask(desk, ask="case", exercise="doubles", text="ret")["error"]
    assert desk.seat.state == {"run": "absent"}
