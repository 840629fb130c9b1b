"""Check an answer in a class, or write a lesson from it. Each runs in a separate process.

The arguments are the path of vecmon, and the request: `check`; the number of a case, for a lesson that runs the answer in
it; `before`, for the lesson before the exercise; or `settle`, for the pickled exercise with its expected results.

Standard input is a pickled tuple: the exercise with its expected results, the answer's source, the source's compiled form or
None, and the cost of a good answer or None.
"""

import contextlib
import json
import os
import pathlib
import pickle
import sys
from collections.abc import Sequence
from dataclasses import replace
from typing import NamedTuple, NotRequired, TypedDict

from .. import LabError
from ..instructions.table import ABI_NAMES
from ..assembler.mistakes import Mistake, mistakes_json
from ..assembler.source import SourceError, read_source
from ..assembler.trial import all_mistakes
from ..compilers.compiled import CompiledProgram
from ..compilers.failures import ToolError, without_folders
from ..lessons.script import Script, Step, read_assembled
from ..machine.process import Vecmon
from .answer import inputs, read_answer, settled, source_answer
from .exercise import ADDRESSES, Case, Exercise, Results
from .named_files import SOURCE_BYTES, named_file
from .outcome import outcome
from .cause import Cause, cause
from .answer_cost import AnswerCost, answer_cost

NAME = pathlib.Path("answer")
MAX_SHOWN, BEFORE = 48, 4  # the most numbers in a row, and how many of them precede the first wrong one
CPU_SECONDS = 10
UNCHECKED = "The answer couldn't be checked, which isn't your fault. Nothing was counted."


class NumberRow(TypedDict):
    """Numbers of a place in a row.

    where: a description of the place; register: the name of a scalar register, which has one number
    first: the index of the first number that is shown; more: the number of further numbers after those that are shown
    wrong: the indices of wrong numbers among those that are shown
    """

    where: str
    register: NotRequired[str]
    first: int
    numbers: list[str]
    more: int
    wrong: list[int]


class CaseRows(TypedDict):
    """Rows of a case's inputs and expected results, and notes on the state before it."""

    given: list[NumberRow]
    expected: list[NumberRow]
    notes: list[str]


class CaseResult(TypedDict):
    """The result of a case of an exercise. name: the name of the case; passed: whether the answer passes it"""

    name: str
    passed: bool


class CheckResult(TypedDict):
    """The result of a check.

    mistakes: the mistakes of the source; then there are no cases; warnings: a compiler's warnings
    cases: the result of each case; number, reason: the index of the first visible case that fails, and the reason why it fails
    cause: the cause of the first wrong number in this case, if it is known
    given, expected, found: rows of the inputs, the expected results and the results of this case; notes: sentences about the state before it
    taken: the cost of an answer that passes; good: the cost of a good answer, if it is known
    failure: the reason why the check itself failed, which doesn't depend on the source; then there are no cases
    unchecked: a sentence for the student that the source wasn't checked, without the reason
    """

    failure: NotRequired[str]
    unchecked: NotRequired[str]
    mistakes: NotRequired[list[Mistake]]
    warnings: NotRequired[list[Mistake]]
    cases: NotRequired[list[CaseResult]]
    number: NotRequired[int]
    reason: NotRequired[str]
    cause: NotRequired[Cause]
    notes: NotRequired[list[str]]
    given: NotRequired[list[NumberRow]]
    expected: NotRequired[list[NumberRow]]
    found: NotRequired[list[NumberRow]]
    taken: NotRequired[AnswerCost]
    good: NotRequired[AnswerCost]


def check_or_failure(
    program: Vecmon, exercise: Exercise, text: str, compiled: CompiledProgram | None, good: AnswerCost | None
) -> CheckResult:
    """Return the result of `check`. If a tool fails, try once more; after a second failure, return a result without cases."""
    with contextlib.suppress(ToolError):
        return check(program, exercise, text, compiled, good)
    try:
        return check(program, exercise, text, compiled, good)
    except ToolError as error:
        return failed_check(without_folders(f"{error}"))


def failed_check(cause: str) -> CheckResult:
    """Return the result of a check that itself failed, which doesn't count as a try."""
    return {"failure": cause, "unchecked": UNCHECKED}


def check(
    program: Vecmon, exercise: Exercise, text: str, compiled: CompiledProgram | None, good: AnswerCost | None
) -> CheckResult:
    """Check a source as an answer to an exercise that has its expected results. Return the result. Raises ToolError.

    compiled: the compiled form of a C source; good: the cost of the exercise's good answer, if known
    """
    try:
        if len(text.encode()) > exercise.limits.size:
            raise LabError(f"the source has more than {exercise.limits.size:,} bytes")
        answer = source_answer(text, NAME, compiled)
        outcomes = [outcome(program, answer, exercise, case) for case in exercise.cases]
        if outcomes[0].is_refused:
            raise LabError
    except ToolError:
        raise
    except LabError as error:
        of_form = compiled.mistakes if compiled else all_mistakes(read_source(text), program)
        mistakes = of_form or [SourceError(1, 1, f"{error}")]
        return {"mistakes": mistakes_json(mistakes, text, is_c=compiled is not None)}
    pairs = zip(exercise.cases, outcomes)
    reply: CheckResult = {"cases": [{"name": case.name, "passed": not each.reason} for case, each in pairs]}
    if answer.source and answer.source.program and answer.source.program.warnings:
        reply["warnings"] = mistakes_json(answer.source.program.warnings, text, bool(compiled), "warning")
    for number, (case, each) in enumerate(zip(exercise.cases, outcomes)):
        if each.reason and not case.is_hidden:
            done = each.done
            expected, found = _compared(case.expected, done.found if done else case.expected)
            given = _given(case, next((row for row in expected if row["first"]), None))
            reply.update({"number": number, "reason": each.reason, "given": given, "expected": expected})
            reply["notes"] = _notes(exercise, case)
            reply.update({"found": found} if done else {})
            if done and (known := cause(program, answer, exercise, case, done)):
                reply["cause"] = known
            return reply
    if passes_all(reply) and "good" in exercise.files:
        with contextlib.suppress(LabError):  # without a compiler for C, or a recorder
            good = good or answer_cost(program, read_answer(exercise.files["good"], is_own=True), exercise)
            reply.update({"taken": answer_cost(program, answer, exercise), "good": good})
    return reply


def passes_all(result: CheckResult) -> bool:
    """Return whether an answer could be tried, and passes all cases."""
    cases = result.get("cases", [])
    return bool(cases) and all(case["passed"] for case in cases)


def lesson(program: Vecmon, exercise: Exercise, number: int, text: str, compiled: CompiledProgram | None) -> str:
    """Return the HTML of a lesson that runs a source in a case.

    It has a frame that sets up the case, and at most 256 instructions.
    """
    answer, case = source_answer(text, NAME, compiled), exercise.cases[number]
    assert answer.commands is not None and answer.source is not None and answer.source.program is not None
    title, reason = f"{exercise.title}: {case.name}", outcome(program, answer, exercise, case).reason
    source = answer.source.program
    brought = [f"1 {line}" for line in ["enter", *answer.commands, *inputs(exercise, case, source.entry)]]
    steps = [
        Step(brought, f"These lines load the program and set up the case. The answer fails: {reason}"),
        Step(["1 step 256"]),
    ]
    return _page(title, replace(answer.source, steps=steps, said=source.source_lines(text)), program, False)


def script_before(exercise: Exercise) -> Script:
    """Return the script of the lesson before an exercise. Raises LabError, without a path, if its file has changed."""
    file = exercise.files["lesson"]
    try:
        text = named_file(exercise.folder, str(file), SOURCE_BYTES).read_text("utf-8")
    except (LabError, OSError, UnicodeDecodeError) as error:
        raise LabError("the file of this lesson was changed or removed since the exercise was read") from error
    return read_assembled(text, file.name)


def lesson_before(program: Vecmon, exercise: Exercise) -> str:
    """Return the HTML of the lesson before an exercise."""
    script = script_before(exercise)
    return _page(script.title, script, program)


def _page(title: str, script: Script, program: Vecmon, is_introduced: bool = True) -> str:
    """Return the HTML of a script's lesson."""
    from ..lessons.frames import make_frames  # a check doesn't need it
    from ..lessons.page import lesson_page

    return lesson_page(title, make_frames(script, program), script, is_introduced=is_introduced)


def case_rows(exercise: Exercise, case: Case) -> CaseRows:
    """Return the rows of a case's inputs and expected results. Don't use it for hidden cases."""
    expected = [_row(strip) for strip in _strips(case.expected)]
    return {"given": _given(case, None), "expected": expected, "notes": _notes(exercise, case)}


def _notes(exercise: Exercise, case: Case) -> list[str]:
    """Return sentences about the state before a case that the rows of its inputs don't show."""
    agnostic = "Agnostic elements, of a tail or masked off, become all ones here: does the answer use one?"
    junk = "All other registers have arbitrary values."
    return [junk] * exercise.junk + [agnostic] * (case.policy == "ones")


def _given(case: Case, cut: NumberRow | None) -> list[NumberRow]:
    """Return rows of the inputs. If the row of results doesn't start with number 0, start at the corresponding inputs.

    cut: the row of results; None to start with the first number
    """
    first, of = (cut["first"], cut["first"] + len(cut["numbers"]) + cut["more"]) if cut else (0, 1)
    strips = _strips(Results(case.registers, case.memory, None), True)
    return [_row(strip, first * max(1, len(strip.texts) // of)) for strip in strips]


def _compared(expected: Results, found: Results) -> tuple[list[NumberRow], list[NumberRow]]:
    """Return rows of the expected and of the found results. Both start at the same number, and wrong numbers are marked."""
    pairs = []
    for own, other in zip(_strips(expected), _strips(found)):
        wrong = [place for place, pair in enumerate(zip(own.texts, other.texts)) if pair[0] != pair[1]]
        first = max(0, wrong[0] - BEFORE) if wrong and wrong[0] >= MAX_SHOWN - BEFORE else 0
        marks = [place - first for place in wrong if place < first + MAX_SHOWN]
        pairs.append((_row(own, first, []), _row(other, first, marks)))
    return [own for own, _ in pairs], [other for _, other in pairs]


class _Strip(NamedTuple):
    """The numbers of a place, as texts.

    where: a description of the place; register: the ABI name of a register; "" for memory
    """

    where: str
    texts: Sequence[str]
    register: str = ""


def _row(strip: _Strip, first: int = 0, wrong: Sequence[int] = ()) -> NumberRow:
    first = first if first < len(strip.texts) else 0
    shown = list(strip.texts[first : first + MAX_SHOWN])
    more = len(strip.texts) - first - len(shown)
    row = NumberRow(where=strip.where, first=first, numbers=shown, more=more, wrong=list(wrong))
    if strip.register:
        row["register"] = strip.register
    return row


def _strips(results: Results, with_addresses: bool = False) -> list[_Strip]:
    """Return the places of results, with their numbers as texts.

    with_addresses: whether a register's value that may be an address is hexadecimal
    """
    strips = list[_Strip]()
    for name, value in results.registers.items():
        is_address = with_addresses and ADDRESSES <= value < 1 << 48
        text = f"{value:#x}" if is_address else f"{value - (value >> 63 << 64)}"
        strips.append(_Strip(f"{ABI_NAMES[name]} ({name})", [text], ABI_NAMES[name]))
    strips += [_Strip(f"{place.type} at {place.address:#x}", [*map(str, place.numbers)]) for place in results.memory]
    if results.output is not None:
        strips.append(_Strip("output", [repr(results.output.decode("utf-8", "replace"))[:200]]))
    return strips


def main(program: str, what: str) -> None:
    """Write the reply to a request to standard output: JSON, HTML or a pickled exercise.

    program: the path of vecmon; what: the request
    """
    import resource  # the synchronous core doesn't need it

    os.nice(10)
    resource.setrlimit(resource.RLIMIT_CPU, (CPU_SECONDS, CPU_SECONDS))
    (exercise, text, compiled, good), vecmon = pickle.load(sys.stdin.buffer), pathlib.Path(program)
    match what:
        case "check":
            reply = json.dumps(check_or_failure(vecmon, exercise, text, compiled, good)).encode()
        case "before":
            reply = lesson_before(vecmon, exercise).encode("utf-8", "replace")
        case "settle":
            reply = pickle.dumps(settled(vecmon, exercise))
        case number:
            reply = lesson(vecmon, exercise, int(number), text, compiled).encode("utf-8", "replace")
    sys.stdout.buffer.write(reply)


if __name__ == "__main__":
    main(*sys.argv[1:])
