"""Grade answers to an exercise: print a table, or a row of CSV for each answer, and the first mistake of each answer."""

import argparse
import contextlib
import csv
import os
import pathlib
import sys
from collections.abc import Sequence
from concurrent.futures import ThreadPoolExecutor
from functools import partial

from .. import LabError
from ..arguments import check_outputs
from ..compilers.account import account_named, add_account
from ..compilers.compiled import Isolation
from ..compilers.compiler import find_compiler
from ..compilers.container import run_as_nobody, check_container
from ..compilers.failures import ToolError
from ..compilers.sandbox import StartedAsRoot, run_sandboxed, sandboxed_compiler
from ..guest.entries import printable
from ..machine.program import find_program
from ..output import terminal_text
from ..tables.table import spreadsheet_row, table_lines
from .answer import C_SUFFIX, read_answer, settled
from .exercise import OURS, Exercise, read_exercise
from .outcome import outcome
from .reports import Grades, gradescope, junit
from .answer_cost import AnswerCost, answer_cost

COUNTS = ("instructions", "work")  # columns of an answer's cost
Graded = tuple[list[str], AnswerCost | None]
"""For each case the reason why an answer fails, or ""; and the answer's cost, or None if it fails or costs aren't counted."""

EXERCISE = "a folder with a file exercise.toml, or the name of an exercise of the course"


def add_arguments(parser: argparse.ArgumentParser) -> None:
    """Add the arguments of `vecmon-lab grade`."""
    parser.add_argument("exercise", metavar="EXERCISE", type=pathlib.Path, help=EXERCISE)
    parser.add_argument("answers", metavar="ANSWER", type=pathlib.Path, nargs="+", help="an image, source or script")
    form = parser.add_mutually_exclusive_group()
    form.add_argument(
        "--csv", action="store_true", help="print a header and a row of CSV for each answer instead of the table"
    )
    form.add_argument("--rows", action="store_true", help="the same without the header")
    counts = "print the instructions and the share of active elements of answers that pass, over all visible cases"
    parser.add_argument("--counts", action="store_true", help=counts)
    add_account(parser)
    container = "compile C as the user nobody, without a sandbox: for root of a container for one answer"
    parser.add_argument("--no-sandbox", action="store_true", help=container)
    for option, report in (("--junit", "a report in JUnit's XML"), ("--gradescope", "Gradescope's results.json")):
        parser.add_argument(option, metavar="FILE", type=pathlib.Path, help=f"write {report} as well")


def names() -> list[str]:
    """Return the names of the exercises that come with the lab."""
    return sorted(path.parent.name for path in OURS.glob("*/exercise.toml"))


def run(arguments: argparse.Namespace) -> int:
    """Grade the answers in parallel. Return 1 if one of them fails, and 2 if one can't be graded.

    Raises LabError and OSError for bad input, and if C needs the sandbox and it doesn't start.
    """
    if len(arguments.answers) > 1 and (arguments.gradescope or arguments.no_sandbox):
        option = "--gradescope" if arguments.gradescope else "--no-sandbox"
        raise LabError(f"{option} is for one answer, and here are several")
    exercise = read_exercise(arguments.exercise)
    sources = [*arguments.answers, exercise.folder / "exercise.toml", *exercise.files.values()]
    check_outputs([arguments.junit, arguments.gradescope], *sources)
    isolation = _isolation(arguments, exercise)
    program = find_program()
    exercise = settled(program, exercise)
    make = partial(graded_or_failure, program, exercise, isolation, is_counted=arguments.counts)
    with ThreadPoolExecutor(os.cpu_count()) as pool:
        found = [*zip(arguments.answers, pool.map(make, arguments.answers))]
    done = [(path, it) for path, it in found if not isinstance(it, ToolError)]
    if done:
        _report(arguments, exercise, done)
    for path, error in found:
        if isinstance(error, ToolError):
            text = f"vecmon-lab: {printable(str(path))} isn't graded, for a reason that isn't the answer's: {error}"
            print(terminal_text(text), file=sys.stderr)
    return 2 if len(done) < len(found) else int(any(any(outcomes) for _, (outcomes, _) in done))


def _isolation(arguments: argparse.Namespace, exercise: Exercise) -> Isolation:
    """Return the function that compiles answers in C. Raises LabError if they can't be compiled."""
    account = account_named(arguments.account)
    if arguments.no_sandbox and arguments.account:
        raise LabError("--as is for the sandbox, and --no-sandbox compiles as the user nobody: give one of them")
    if not any(path.suffix == C_SUFFIX for path in arguments.answers):
        return run_sandboxed
    if arguments.no_sandbox:
        find_compiler(None)
        check_container(exercise.folder, *exercise.files.values())
        return run_as_nobody
    try:
        sandboxed_compiler(None, account)
    except StartedAsRoot as error:
        raise LabError(f"{error}; in a container for one answer, `grade --no-sandbox` compiles it") from error
    return partial(run_sandboxed, account=account)


def _report(arguments: argparse.Namespace, exercise: Exercise, done: Sequence[tuple[pathlib.Path, Graded]]) -> None:
    """Print the table or the rows of the graded answers, and write the other reports."""
    grades = [(path, outcomes) for path, (outcomes, _) in done]
    more = [_cells(cost) for _, (_, cost) in done] if arguments.counts else [[] for _ in done]
    if arguments.junit:
        arguments.junit.write_text(junit(exercise, grades), "utf-8")
    if arguments.gradescope:
        arguments.gradescope.write_text(gradescope(exercise, grades[0][1]), "utf-8")
    if arguments.csv or arguments.rows:
        _print_rows(exercise, grades, more, arguments.csv)
    else:
        _print_table(exercise, grades, more)


def grade(program: pathlib.Path, exercise: Exercise, path: pathlib.Path, is_own: bool = False) -> list[str]:
    """Return why an answer fails, or "", for each case. Raises ToolError.

    path: the answer; is_own: whether it is your own
    """
    return graded(program, exercise, run_sandboxed, path, is_own)[0]


def graded(
    program: pathlib.Path,
    exercise: Exercise,
    isolation: Isolation,
    path: pathlib.Path,
    is_own: bool = False,
    is_counted: bool = False,
) -> Graded:
    """Return why an answer fails, or "", for each case; and its cost, if it passes and costs are counted. Raises ToolError.

    isolation: compiles C that isn't your own; is_counted: whether costs are counted
    """
    try:
        answer = read_answer(path, exercise.limits.size, is_own, isolation)
    except ToolError:
        raise
    except LabError as error:
        return [terminal_text(str(error))] * len(exercise.cases), None
    outcomes = [outcome(program, answer, exercise, case).reason for case in exercise.cases]
    return outcomes, answer_cost(program, answer, exercise) if is_counted and not any(outcomes) else None


def graded_or_failure(
    program: pathlib.Path, exercise: Exercise, isolation: Isolation, path: pathlib.Path, is_counted: bool
) -> Graded | ToolError:
    """Return the result of `graded`. If a tool fails, try once more; after a second failure, return the error."""
    with contextlib.suppress(ToolError):
        return graded(program, exercise, isolation, path, is_counted=is_counted)
    try:
        return graded(program, exercise, isolation, path, is_counted=is_counted)
    except ToolError as error:
        return error


def _cells(cost: AnswerCost | None) -> list[str]:
    """Return the cost of an answer as cells of a table; empty cells if there is no cost."""
    return [f"{cost['instructions']}", f"{cost['work']} %"] if cost else ["", ""]


def _reasons(exercise: Exercise, outcomes: list[str]) -> list[str]:
    """Return the reasons why cases fail, each with the names of its cases, unless all cases have the same reason.

    The reason of a hidden case is only that it fails.
    """
    if len(set(outcomes)) == 1 and not all(case.is_hidden for case in exercise.cases):
        return outcomes[:1]
    cases: dict[str, list[str]] = {}
    for case, found in zip(exercise.cases, outcomes):
        if found:
            cases.setdefault("fails" if case.is_hidden else found, []).append(case.name)
    return [f"{', '.join(names)}: {reason}" for reason, names in cases.items()]


def _print_rows(exercise: Exercise, grades: Grades, more: Sequence[Sequence[str]], with_header: bool) -> None:
    """Print a row of CSV for each answer. more: further cells for the end of each row"""
    writer = csv.writer(sys.stdout, lineterminator="\n")
    if with_header:
        names = [case.name for case in exercise.cases]
        writer.writerow(spreadsheet_row(["answer", "passed", "of", *names, "reason", *COUNTS[: len(more[0])]]))
    for (path, outcomes), cells in zip(grades, more):
        marks = ["fails" if found else "passes" for found in outcomes]
        reason = next(iter(_reasons(exercise, outcomes)), "")
        writer.writerow(spreadsheet_row([printable(str(path)), outcomes.count(""), len(marks), *marks, reason, *cells]))


def _print_table(exercise: Exercise, grades: Grades, more: Sequence[Sequence[str]]) -> None:
    """Print the table, and below it why cases fail. more: further cells for the end of each row"""
    head = ["answer", *(case.name for case in exercise.cases), "passed"]
    rows = [[*head, *COUNTS[: len(more[0])]]]
    for (path, outcomes), cells in zip(grades, more):
        marks = ["-" if found else "ok" for found in outcomes]
        rows.append([printable(str(path)), *marks, f"{outcomes.count('')} of {len(marks)}", *cells])
    print("\n".join([exercise.title, *table_lines(rows, len(head))]))
    for path, outcomes in grades:
        for reason in filter(None, _reasons(exercise, outcomes)):
            print(f"{printable(str(path))}: {reason}")
