"""The cost of an answer that passes: its instructions, and the percentage of active elements."""

from typing import TypedDict

from ..machine.process import Vecmon
from .answer import ExerciseAnswer, ready
from .exercise import Exercise

AnswerCost = TypedDict("AnswerCost", {"instructions": int, "work": int})
"""The cost of an answer in all visible cases: the number of executed instructions, and the percentage of active elements."""


def answer_cost(program: Vecmon, answer: ExerciseAnswer, exercise: Exercise) -> AnswerCost:
    """Return the cost of an answer that passes. Raises LabError if there is no recorder."""
    from ..runs.initial_state import initial_state_at  # needed only for answers that pass
    from ..runs.recorder import record

    instructions, elements = 0, [0, 0, 0]
    for case in exercise.cases:
        if not case.is_hidden:
            with ready(program, answer, exercise, case) as guest:
                image = answer.path if answer.commands is None else None
                counts = record(initial_state_at(guest, image), exercise.limits.ticks)
            instructions += counts.instructions
            elements = [sum(pair) for pair in zip(elements, counts.elements)]
    return {"instructions": instructions, "work": round(100 * elements[0] / max(1, sum(elements)))}
