"""The cause of a wrong number in the results of an answer, if it is known."""

import contextlib
from collections.abc import Iterator, Sequence
from typing import Literal

from .. import LabError
from ..guest.changes import Stepper
from ..machine.process import Vecmon
from ..runs.dataflow import Cell, Executed, bits_of_scalar, parts
from .answer import ExerciseAnswer, Attempt, ready
from .exercise import Case, Exercise
from .outcome import WrongNumber, wrong_numbers

MAX_STEPPED = 500  # instructions of an answer that is stepped
Cause = Literal["left as it was", "masked off", "tail"]
"""The causes of a wrong number: its place is unchanged, or the number comes from an agnostic element.

Such an element was masked off, or in the tail.
"""


def cause(program: Vecmon, answer: ExerciseAnswer, exercise: Exercise, case: Case, done: Attempt) -> Cause | None:
    """Return the cause of the first wrong number that an answer left in a case; None if it isn't known.

    Under the policy `ones`, the answer is stepped again, if it has at most MAX_STEPPED instructions.

    done: the results of the answer in the case
    """
    wrong = next(wrong_numbers(case.expected, done), None)
    if wrong is None:
        return None
    if wrong.found == wrong.before:
        return "left as it was"
    if case.policy == "ones":
        with contextlib.suppress(LabError):
            return _agnostic_origin(_executed(program, answer, exercise, case), _cells(wrong))
    return None


def _cells(wrong: WrongNumber) -> set[Cell]:
    """Return the bits of the register, or the bytes of memory, that hold a wrong number."""
    return bits_of_scalar(int(wrong.register[1:])) if wrong.register else {("memory", at) for at in wrong.memory}


def _executed(program: Vecmon, answer: ExerciseAnswer, exercise: Exercise, case: Case) -> Sequence[Executed]:
    """Return the instructions that an answer executes in a case; none if there are more than MAX_STEPPED. Raises LabError."""
    with ready(program, answer, exercise, case, lambda data: None) as guest:
        steps = list[Executed]()
        for step in _stepped(Stepper(guest)):
            steps.append(step)
            if step.retired.stop:
                return steps
    return []


def _stepped(stepper: Stepper) -> Iterator[Executed]:
    """Step MAX_STEPPED instructions, and yield each."""
    for _ in range(MAX_STEPPED):
        before = stepper.registers.copy()
        yield Executed(stepper.step(), before)


def _agnostic_origin(steps: Sequence[Executed], places: set[Cell]) -> Cause | None:
    """Return the kind of the agnostic elements that the places' contents come from, after these instructions; None if there are none."""
    for step in reversed(steps):
        matching = [part for part in parts(step) if not places.isdisjoint(part[0])]
        kinds = {kind for _, _, kind in matching}
        if "masked off" in kinds:
            return "masked off"
        if "tail" in kinds:
            return "tail"
        sources = {id(part[1]): part[1] for part in matching}  # all elements of a gather have the same large set
        places = places.difference(*(part[0] for part in matching)).union(*sources.values())
    return None
