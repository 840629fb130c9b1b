"""The equations that lessons of the tour and of the course show, read by an independent reader and compared with the machine's results."""

import pathlib
from collections import Counter
from collections.abc import Iterator
from typing import Any

from support.element_columns import shown_columns
from support.golden_equations import FORMS, bits_of, numbers_problem
from support.shown_equations import Unreadable
from vecmon_lab.exercises.check import script_before
from vecmon_lab.exercises.exercise import OURS, read_exercise
from vecmon_lab.instructions.accesses import REGISTER_BITS, REGISTER_BYTES, vector_instruction
from vecmon_lab.instructions.words import Operand
from vecmon_lab.lessons.frames import make_frames
from vecmon_lab.lessons.script import Script
from vecmon_lab.lessons.tour import tours
from vecmon_lab.page.state import ABSENT, State
from vecmon_lab.tables.table import read_table

LEAST = {"tour": 200, "course": 1000}  # equations
View = dict[str, Any]


def scripts() -> Iterator[tuple[str, Script]]:
    """The scripts of the tour and of the course's lessons, each with the name of its lesson or exercise."""
    yield from (("tour", script) for script in tours().values())
    yield from (("course", script_before(read_exercise(OURS / name))) for name, _ in read_table("course"))


def views(script: Script, program: pathlib.Path) -> Iterator[tuple[View, Operand]]:
    """The states of a lesson's frames whose last instruction has a vector register as its destination, and that operand."""
    earlier = dict[str, State]()
    for frame in make_frames(script, program):
        for user, state in frame.states.items():
            before, earlier[user] = earlier.get(user, ABSENT), state
            line = state.get("code", {}).get(state.get("instruction", ""), "")
            if state is before or not line:
                continue
            instruction = vector_instruction(int(line[:8], 16), int(state["vtype"], 16))
            if instruction and instruction.operands[0].noun == "destination":
                operand = instruction.operands[0]
                count = operand.group * REGISTER_BITS // operand.eew
                yield {"state": state, "before": before, "elements": [*range(count)]}, operand


def problems(view: View, operand: Operand, shown: dict[str, Any], counts: Counter[str], lesson: str) -> Iterator[str]:
    """What is wrong with the equations of a state, which are shown in each form of numbers."""
    registers = (bytes.fromhex(view["state"]["v"].get(f"{number}", "")) for number in range(32))
    v = b"".join(each.ljust(REGISTER_BYTES, b"\0") for each in registers)
    for form, equations in zip(FORMS, shown["equations"], strict=True):
        for element, text in enumerate(equations):
            if not text:
                continue
            counts[lesson] += 1
            expected = bits_of(v, operand.registers.start * REGISTER_BITS + element * operand.eew, operand.eew)
            try:
                problem = numbers_problem(text, form, operand.eew, expected)
            except Unreadable as error:
                problem = f"unreadable: {error}"
            if problem:
                yield f"{text} in {form} numbers: {problem}"


def test_equations_of_tour_and_course_equal_machine_results(program: pathlib.Path, tmp_path: pathlib.Path) -> None:
    """Each frame, each element of its last instruction, and each form of numbers, as the page's modules write them."""
    cases = [(lesson, *each) for lesson, script in scripts() for each in views(script, program)]
    shown = shown_columns([view for _, view, _ in cases], tmp_path)
    counts = Counter[str]()
    wrong = [
        problem
        for (lesson, view, operand), columns in zip(cases, shown, strict=True)
        for problem in problems(view, operand, columns, counts, lesson)
    ]
    assert wrong == [] and all(counts[lesson] > least for lesson, least in LEAST.items()), counts
