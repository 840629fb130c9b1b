"""The registers in use in the data of lessons; the expected ones are read off the sources by hand."""

import json
import pathlib
import re

import pytest

from vecmon_lab.exercises.answer import settled
from vecmon_lab.exercises.check import lesson
from vecmon_lab.exercises.exercise import OURS, read_exercise
from vecmon_lab.lessons.frames import make_frames
from vecmon_lab.lessons.page import LessonData, lesson_page
from vecmon_lab.lessons.script import read_script
from vecmon_lab.lessons.used_registers import UsedRegisters

START = ["1 enter", "1 map 10000 1 rwx", "1 setpc 10000"]
CASES = {
    "two registers of a group, and the mask": (
        ["vsetvli x6, x0, e16, m2, ta, ma", "vadd.vv v2, v4, v6, v0.t", "vmv.v.x v8, x28"],
        ["1 step 2"],
        {"x": [6], "v": [0, 2, 3, 4, 5, 6, 7]},
    ),
    "a widened sum has twice as many": (
        ["vsetivli x0, 4, e8, m1, ta, ma", "vwadd.vx v4, v2, x9"],
        ["1 step 2"],
        {"x": [9], "v": [2, 4, 5]},
    ),
    "stored registers, and those of a faulting instruction": (
        ["sw x12, 0(x13)"],
        ["1 set x13 10100", "1 step 1", "1 set x13 0", "1 setpc 10000", "1 step 1"],
        {"x": [12, 13], "v": []},
    ),
    "those that an exit reads": (["addi x17, x0, 93", "ecall"], ["1 step 2"], {"x": [10, 17], "v": []}),
    "those that lines name": ([], ["1 set x7 1", f"1 vset v9 {'0' * 64}", "1 vreg v11 8"], {"x": [7], "v": [9, 11]}),
    "not those of refused lines": ([], ["1 set x32 1", "1 set x7", "1 vset v9 0"], {"x": [], "v": []}),
    "a run's are those of the listing": (
        ["addi x5, x6, 1", "ebreak", "add x7, x8, x9"],
        ["1 go", "* slices 1"],
        {"x": [5, 6, 7, 8, 9], "v": []},
    ),
    "not those that were filled before a case": (
        ["addi x5, x5, 1"],
        [
            "1 map 7ffff000 1 rwx",
            "1 set x20 5",
            f"1 vset v20 {'1' * 64}",
            "1 asm 7ffff004 csrrwi x0, vxrm, 1",
            "1 setpc 7ffff004",
            "1 step 1",
            "1 setpc 10000",
            "1 set x10 7",
            "1 step 1",
        ],
        {"x": [5, 10], "v": []},
    ),
    "but those of the machine before it": (
        [],
        ["1 set x20 5", "1 leave", *START, "1 set x21 5", "1 map 7ffff000 1 rwx", "1 asm 7ffff004 csrrwi x0, vxrm, 1"],
        {"x": [20], "v": []},
    ),
}


def data_of(page: str) -> LessonData:
    """The data of a lesson's page."""
    (text,) = re.findall(r'<script type="application/json" id="lesson">(.*?)</script>', page)
    data: LessonData = json.loads(text)
    return data


@pytest.mark.parametrize("instructions, lines, used", CASES.values(), ids=CASES)
def test_registers_in_use_are_named(
    program: pathlib.Path, instructions: list[str], lines: list[str], used: UsedRegisters
) -> None:
    code = [f"1 asm {0x10000 + 4 * place:x} {text}" for place, text in enumerate(instructions)]
    script = read_script("\n".join([*START, *code, *lines]))
    assert data_of(lesson_page("x", make_frames(script, program), script))["used"] == {"1": used}


def test_users_have_their_own(program: pathlib.Path) -> None:
    script = read_script("1 enter\n2 enter\n1 set x5 1\n2 set x6 1\n")
    used = data_of(lesson_page("x", make_frames(script, program), script))["used"]
    assert used == {"1": {"x": [5], "v": []}, "2": {"x": [6], "v": []}}


def test_lesson_of_failed_answer_names_registers_of_the_answer(program: pathlib.Path) -> None:
    """The case fills 27 scalar registers and all vector registers; the answer uses x1, x5 and v8, and is given x10 to x12."""
    exercise = settled(program, read_exercise(OURS / "doubles"))
    assert exercise.junk
    answer = "vsetvli t0, a2, e32, m1, ta, ma\nvle32.v v8, (a1)\nvse32.v v8, (a0)\nret\n"
    data = data_of(lesson(program, exercise, 0, answer, None))
    assert data["used"] == {"1": {"x": [1, 5, 10, 11, 12], "v": [8]}}
    first, *_ = data["frames"]
    state = first["states"]["1"]
    assert isinstance(state, dict) and all(state["v"][f"{number}"].strip("0") for number in range(32))
