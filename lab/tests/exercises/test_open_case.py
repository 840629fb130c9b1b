"""Answers that pass under both policies, and rely on choices between them."""

import pathlib

import pytest

from vecmon_lab.exercises.answer import settled
from vecmon_lab.exercises.check import check
from vecmon_lab.exercises.exercise import OURS, Exercise, read_exercise

TRIMMED = """        vsetvli t0, a2, e32, m1, ta, ma
        vle32ff.v v8, (a1)
        vadd.vv v8, v8, v8
        vse32.v v8, (a0)
        ret
"""
"""The load may load less than vl elements, and nothing reads vl again."""

MIXED = """        vsetivli t0, 8, e32, m1, ta, ma
        vmv.v.i v9, 1
        vsetvli t0, a2, e32, m1, ta, ma
        vle32.v v8, (a1)
        vadd.vv v9, v8, v8
        vse32.v v9, (a0)
        li t3, 3
        bne a2, t3, done
        vsetivli t0, 5, e32, m1, ta, ma
        vslidedown.vi v10, v9, 3
        vmv.s.x v11, zero
        vredsum.vs v11, v10, v11
        vmv.x.s t1, v11
        li t2, 5
        beq t1, t2, done
        li t2, -5
        beq t1, t2, done
        sw zero, 0(a0)
done:   ret
"""
"""Of three numbers: the five elements of the tail are alike under both policies, and otherwise the first number is cleared."""


@pytest.fixture(scope="module")
def doubles(program: pathlib.Path) -> Exercise:
    """The exercise `doubles`, with expected results. Its case 1 has three numbers and the policy `ones`."""
    return settled(program, read_exercise(OURS / "doubles"))


@pytest.mark.parametrize(
    "answer, place",
    [
        (TRIMMED, "the length after a fault-only-first load (line 2, vle32ff.v)"),
        (MIXED, "tail elements (line 5, vadd.vv, element "),
    ],
)
def test_choice_between_policies_fails_case(program: pathlib.Path, doubles: Exercise, answer: str, place: str) -> None:
    result = check(program, doubles, answer, None, None)
    assert [case["passed"] for case in result["cases"]][:2] == [True, False]
    assert result["reason"].startswith(f"the results rely on {place}")


def test_good_answer_relies_on_nothing(program: pathlib.Path, doubles: Exercise) -> None:
    answer = (OURS / "doubles" / "good.s").read_text("utf-8")
    assert all(case["passed"] for case in check(program, doubles, answer, None, None)["cases"])


def test_without_recorder_only_policies_are_checked(
    program: pathlib.Path, doubles: Exercise, monkeypatch: pytest.MonkeyPatch
) -> None:
    monkeypatch.setenv("VECMON_RECORD", "/nowhere/vecmon-record")
    result = check(program, doubles, MIXED, None, None)
    assert all(case["passed"] for case in result["cases"])
