"""Whether an answer that passes a case relies on what the standard leaves open there: by choices of several seeds."""

import contextlib
from dataclasses import replace

from .. import LabError
from ..instructions.table import row_of
from ..machine.process import Vecmon
from ..machine.program import find_recorder
from .answer import ExerciseAnswer, ready
from .exercise import Case, Exercise

SEEDS = (2, 3, 4, 5)
"""Two pairs: of an element that may be all ones or keep its value, each of a pair makes one of the choices."""


def open_reliance(program: Vecmon, answer: ExerciseAnswer, exercise: Exercise, case: Case) -> str:
    """Return the choice on which an answer's results rely in a case, in a sentence; "" for none, and without a recorder."""
    with contextlib.suppress(LabError, ImportError):
        return _reliance(program, answer, exercise, case)
    return ""


def _reliance(program: Vecmon, answer: ExerciseAnswer, exercise: Exercise, case: Case) -> str:
    """The same. Raises LabError and ImportError without a recorder, as in a browser."""
    from ..open_choices.effects import commit_of
    from ..open_choices.oracle import ProgramOracle
    from ..open_choices.rules import RULES
    from ..open_choices.search import search
    from ..runs.initial_state import initial_state_at
    from ..runs.open_runs import OpenProgram

    find_recorder()
    image = answer.path if answer.commands is None else None
    with ready(program, answer, exercise, replace(case, policy="keep"), lambda data: None) as guest:
        state = initial_state_at(guest, image)
    places = [(place.address, len(place.data)) for place in case.expected.memory]
    registers = [int(name[1:]) for name in case.expected.registers]
    oracle = ProgramOracle(OpenProgram(state, exercise.limits.ticks, places, registers))
    found = next(search(oracle, SEEDS), None)
    if found is None:
        return ""
    rule, where = RULES[found.kind], ""
    with oracle.program.logged(found.without, found.instruction, found.instruction) as lines:
        commit = commit_of(next(lines, ""))
    row = row_of(commit.word or 0) if commit else None
    if commit and row:
        source = answer.source.program if answer.source else None
        line = source.line_at(commit.pc) if source else 0
        where = f"{f'line {line}, ' if line else ''}{row.name}"
        where += f", element {found.elements[0]}" if found.elements else ""
    return f"the results rely on {rule.title}{f' ({where})' if where else ''}. {rule.rule} {rule.fix}"
