"""Tools for authors of exercises: create a folder with an example, and try an exercise as students will see it."""

import argparse
import pathlib
import shutil
from collections.abc import Iterator

from ..compilers.compiler import find_compilers
from ..compilers.sandbox import check_start
from ..guest.entries import printable
from ..machine.program import find_program
from .answer import C_SUFFIX, settled, source_answer
from .exercise import OURS, Exercise, read_exercise
from .grade import grade
from .named_files import check_folder
from .outcome import outcome
from .reports import reason_shown

SKELETON = OURS / "doubles"
WRONG = "wrong"  # the folder of answers that fail


def add_arguments(parser: argparse.ArgumentParser) -> None:
    """Add the arguments of `vecmon-lab exercise`."""
    help = "new: create a folder with an exercise to change; try: run its good and wrong answers"
    parser.add_argument("what", metavar="new|try", choices=["new", "try"], help=help)
    parser.add_argument("folder", metavar="DIR", type=pathlib.Path, help="the folder of the exercise")


def run(arguments: argparse.Namespace) -> int:
    """Create or try an exercise. Raises LabError and OSError.

    Return 1 if an answer passes that must fail, or fails that must pass; otherwise 0.
    """
    folder = arguments.folder
    if arguments.what == "new":
        shutil.copytree(SKELETON, folder)
        print(f"{folder} has the exercise `doubles`: change its files, and then: vecmon-lab exercise try {folder}")
        return 0
    program = find_program()
    exercise = read_exercise(folder)
    if any(path.suffix == C_SUFFIX for path, _ in _answers(exercise)):
        _check_sandbox()
    exercise = settled(program, exercise)
    print("\n".join([exercise.title, "", exercise.text.strip(), ""]))
    for number, hint in enumerate(exercise.hints, 1):
        print(f"after {number} {'try' if number == 1 else 'tries'}: {hint}")
    _warn_of_free_cases(program, exercise)
    is_fit = True
    for path, should_pass in _answers(exercise):
        if path.suffix == C_SUFFIX and not find_compilers():
            print(f"{_name(exercise, path)}: it isn't tried, since there is no compiler for C")
            continue
        outcomes = grade(program, exercise, path, is_own=True)
        is_fit &= any(outcomes) != should_pass
        print(f"{_name(exercise, path)}: {_verdict(exercise, outcomes)}", end="")
        print("" if any(outcomes) != should_pass else f", and it shall {'pass' if should_pass else 'fail'}")
    return int(not is_fit)


def _check_sandbox() -> None:
    """Raise ToolError if the sandbox for students' C is installed but doesn't start."""
    compilers = find_compilers()
    if compilers and shutil.which("bwrap"):
        check_start(compilers[0])


def _answers(exercise: Exercise) -> Iterator[tuple[pathlib.Path, bool]]:
    """Yield the answers of an exercise, and whether each must pass. The reference isn't among them.

    Raises LabError if the folder of wrong answers is a link to another place.
    """
    for key, should_pass in (("good", True), ("start", False), ("start_c", False)):
        if key in exercise.files:
            yield exercise.files[key], should_pass
    check_folder(exercise.folder, WRONG)
    for path in sorted((exercise.folder / WRONG).glob("*")):
        yield path, False


def _warn_of_free_cases(program: pathlib.Path, exercise: Exercise) -> None:
    """Print a warning with the cases that pass even if an answer only returns, since graders give a point for each case."""
    answer = source_answer("ret\n", pathlib.Path("ret.s"))
    free = [case.name for case in exercise.cases if not outcome(program, answer, exercise, case).reason]
    if free:
        print(f"warning: an answer that only returns passes: {', '.join(free)}")


def _name(exercise: Exercise, path: pathlib.Path) -> str:
    """Return the path of an answer below the exercise's folder, for a terminal."""
    return printable(str(path.relative_to(exercise.folder)))


def _verdict(exercise: Exercise, outcomes: list[str]) -> str:
    """Return a row about an answer: how many cases pass, and the first case that fails, a visible one if there is one, with the reason."""
    failing = [(case, reason) for case, reason in zip(exercise.cases, outcomes) if reason]
    if not failing:
        return f"passes {len(outcomes)} cases"
    first, reason = next((each for each in failing if not each[0].is_hidden), failing[0])
    return f"passes {outcomes.count('')} of {len(outcomes)} cases; {first.name}: {reason_shown(first, reason)}"
