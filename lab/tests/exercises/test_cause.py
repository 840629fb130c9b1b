"""The cause of a wrong number: by hand, from the instructions of each answer and the policy of the case."""

import pathlib

import pytest

from vecmon_lab.exercises.answer import settled
from vecmon_lab.exercises.check import check
from vecmon_lab.exercises.exercise import OURS, Exercise, read_exercise

DOUBLED = """
    vsetvli t0, a2, e32, m1, {policy}
    vle32.v v8, (a1)
    vadd.vv v8, v8, v8
"""
TAIL = DOUBLED.format(policy="ta, ma")
STORED = """
    vsetivli t0, 8, e32, m1, ta, ma
    vse32.v {register}, (a0)
    ret
"""
COPIED = "vsetivli t0, 8, e32, m1, ta, ma\n vadd.vi v9, v8, 0\n"
MASKED = "vid.v v1\n vmsne.vi v0, v1, 1\n vadd.vi v8, v8, 0, v0.t\n vse32.v v8, (a0)\n ret\n"


@pytest.fixture(scope="module")
def doubles(program: pathlib.Path) -> Exercise:
    """The exercise `doubles`, with expected results. In its case 1 three numbers are doubled under the policy `ones`."""
    return settled(program, read_exercise(OURS / "doubles"))


@pytest.mark.parametrize(
    "answer, number, where, found",
    [
        ("nop\n ret\n", 0, "element 0", "left as it was"),
        (TAIL + STORED.format(register="v8"), 1, "element 4", "tail"),
        (TAIL + COPIED + STORED.format(register="v9"), 1, "element 4", "tail"),
        (TAIL + MASKED, 1, "element 1", "masked off"),
        (DOUBLED.format(policy="tu, ma") + STORED.format(register="v8"), 1, "element 3", None),
        (TAIL + "vadd.vi v8, v8, 1\n" + STORED.format(register="v8"), 0, "element 0", None),
    ],
    ids=["nothing", "tail", "copied tail", "masked off", "undisturbed tail", "active"],
)
def test_cause_of_wrong_number(
    program: pathlib.Path, doubles: Exercise, answer: str, number: int, where: str, found: str | None
) -> None:
    result = check(program, doubles, answer, None, None)
    assert (result["number"], result["reason"].partition(",")[0]) == (number, where)
    assert result.get("cause") == found


@pytest.mark.parametrize("limit, found", [(6, None), (7, "tail")])
def test_long_answer_is_not_executed_again(
    program: pathlib.Path, doubles: Exercise, monkeypatch: pytest.MonkeyPatch, limit: int, found: str | None
) -> None:
    """It has six instructions, and the one at its return address stops it."""
    monkeypatch.setattr("vecmon_lab.exercises.cause.MAX_STEPPED", limit)
    assert check(program, doubles, TAIL + STORED.format(register="v8"), None, None).get("cause") == found


def test_no_cause_without_wrong_number(program: pathlib.Path, doubles: Exercise) -> None:
    """An answer that comes to no end left no number."""
    result = check(program, doubles, "here: j here\n", None, None)
    assert "hasn't ended" in result["reason"] and "cause" not in result
    assert "cause" not in check(program, doubles, (OURS / "doubles" / "good.s").read_text(), None, None)
