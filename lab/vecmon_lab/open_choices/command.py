"""The command `compare`: whether a program relies on what the standard leaves open, or on what nothing has written."""

import argparse
import json
import pathlib
import sys
from collections.abc import Sequence

from .. import LabError
from ..arguments import add_program, between, image_path
from ..compilers.compiler import C_SUFFIX, CHOICES, choice_for
from ..compilers.compiling import compiled_image
from ..output import terminal_text
from ..runs.choices import KINDS
from ..runs.run import TICKS_RAN_OUT
from .batch import batch_line, compare_all, failed, programs_of
from .compare import SEEDS, TICKS, Comparison, Question
from .known import Known, Pattern, pattern_of, read_known
from .report import RelianceForm, Report, Verdict
from .saved import save
from .text import first_line, last_line, reliance_lines

NOT_RUNNABLE = 125  # as `git bisect run` has it for a commit that can't be tested
STATUSES: dict[Verdict, int] = {"same": 0, "relies": 1, "undecided": TICKS_RAN_OUT, "not runnable": NOT_RUNNABLE}
WORST: Sequence[Verdict] = ("relies", "undecided", "not runnable")
"""The verdicts of a list's programs that decide its status, the first one before the others."""

SCALAR = "O0"
"""The options with which a compiler uses no vectors by itself."""


def add_arguments(parser: argparse.ArgumentParser) -> None:
    """The arguments of `vecmon-lab compare`."""
    add_program(parser, is_needed=False, assembles=True, builds=False)
    parser.set_defaults(named=None)
    number = between(1, 1 << 20)
    parser.add_argument("--seeds", metavar="N", type=number, default=SEEDS, help=f"run N seeds; by default {SEEDS}")
    parser.add_argument("--only", metavar="FUNCTION", default="", help="report only choices in FUNCTION")
    help_text = "compare the memory at SYMBOL at the end, too"
    parser.add_argument("--memory", metavar="SYMBOL", action="append", default=[], help=help_text)
    parser.add_argument("--known", metavar="FILE", type=pathlib.Path, help="accept the reliances that FILE lists")
    help_text = "status 0 if the program relies in this way, and 1 if not"
    parser.add_argument("--expect", metavar="KIND[@MNEMONIC]", type=_pattern, help=help_text)
    help_text = "compile the source without vectors, too, and say whether the compiler or the source is wrong"
    parser.add_argument("--against-scalar", action="store_true", help=help_text)
    parser.add_argument("--json", action="store_true", help="print the result as JSON")
    help_text = "write image, source, logs and command lines to a new folder"
    parser.add_argument("--save", metavar="FOLDER", type=pathlib.Path, help=help_text)
    help_text = "compare the programs of FILE: a path and arguments a line"
    parser.add_argument("--list", metavar="FILE", type=pathlib.Path, help=help_text)
    parser.add_argument("--jobs", metavar="N", type=between(1, 1024), default=1, help="compare N programs at a time")
    parser.add_argument(
        "--ticks", metavar="N", type=between(1, 1 << 63), default=TICKS, help="stop a run after N ticks"
    )


def run(arguments: argparse.Namespace) -> int:
    """Compare the runs of a program or of a list of programs, and return the status. Raises LabError and OSError for bad arguments."""
    _check(arguments)
    known = read_known(arguments.known) if arguments.known else Known()
    question = Question(
        arguments.seeds, arguments.ticks, KINDS, arguments.only, arguments.memory, arguments.expect is None, known
    )
    if arguments.list:
        return _run_list(arguments, question)
    try:
        report = _run_program(arguments, question)
    except (LabError, OSError) as error:
        report = failed(f"{arguments.named}", f"{error}")
        sys.stderr.writelines(f"vecmon-lab: {line}\n" for line in terminal_text(f"{error}").split("\n"))
    if arguments.json:
        print(json.dumps(report))
    elif report["verdict"] != "not runnable":
        print(last_line(report))
    return status_of(report, arguments.expect)


def status_of(report: Report, expected: Pattern | None = None) -> int:
    """Return the exit status for a report. expected: reliances that are looked for, if any"""
    if expected is None or report["verdict"] == "not runnable":
        return STATUSES[report["verdict"]]
    if any(expected.matches(form) for form in report["reliances"]):
        return 0
    return STATUSES["undecided"] if report["verdict"] == "undecided" else 1


def _check(arguments: argparse.Namespace) -> None:
    """Raise LabError for arguments that don't go together."""
    if (arguments.named is None) == (arguments.list is None):
        raise LabError("compare takes an image or a source, or --list FILE")
    if arguments.list and (arguments.save or arguments.against_scalar or arguments.expect or arguments.input):
        raise LabError("--save, --against-scalar, --expect and --in are for one program, without --list")
    if arguments.against_scalar and arguments.named.suffix != C_SUFFIX:
        raise LabError(f"{arguments.named}: --against-scalar is for a source in C")


def _run_program(arguments: argparse.Namespace, question: Question) -> Report:
    """Compare the runs of the program that the arguments name, and print what is found. Raises LabError and OSError."""
    image = image_path(f"{arguments.named}", arguments)
    chosen = {"--cc": arguments.cc, "--options": arguments.options}
    options = [word for option, value in chosen.items() if value for word in (option, value)]
    comparison = Comparison(question, arguments.named, image, arguments.words, arguments.input, options)
    if not arguments.json:
        outcome = comparison.program.outcome()
        print(f"{arguments.named}: {first_line(outcome.what, outcome.output, outcome.instructions)}")
    report = comparison.report((lambda form: None) if arguments.json else _print)
    if arguments.against_scalar and report["verdict"] == "relies":
        report["blamed"] = "source" if _relies_without_vectors(arguments, question) else "compiler"
    if arguments.save:
        is_source = choice_for(arguments.named, arguments.options) is not None or image != arguments.named
        save(arguments.save, comparison, report, arguments.named if is_source else None)
    return report


def _relies_without_vectors(arguments: argparse.Namespace, question: Question) -> bool:
    """Return whether the same source relies on anything if it is compiled without vectors."""
    scalar = next(number for number, choice in enumerate(CHOICES) if choice.name == SCALAR)
    image = compiled_image(arguments.named, arguments.cc, scalar)
    return (
        Comparison(question, arguments.named, image, arguments.words, arguments.input).report()["verdict"] == "relies"
    )


def _run_list(arguments: argparse.Namespace, question: Question) -> int:
    """Compare the programs of a list, print a line for each as it ends, and return the worst status."""

    def compare(words: Sequence[str]) -> Report:
        path, *others = words
        image = image_path(path, arguments)
        return Comparison(question, pathlib.Path(path), image, others).report()

    verdicts = set[Verdict]()
    for report in compare_all(programs_of(arguments.list), arguments.jobs, compare):
        print(batch_line(report, arguments.json), flush=True)
        verdicts.add(report["verdict"])
    return next((STATUSES[verdict] for verdict in WORST if verdict in verdicts), 0)


def _print(form: RelianceForm) -> None:
    """Print a reliance."""
    print(*reliance_lines(form), sep="\n", flush=True)


def _pattern(text: str) -> Pattern:
    """Return the pattern of an argument."""
    try:
        return pattern_of(text)
    except ValueError as error:
        raise argparse.ArgumentTypeError(f"{error}") from error
