"""Comparisons of the programs of a list, several at a time, with a line for each as it ends."""

import json
import pathlib
import shlex
from collections.abc import Callable, Iterator, Sequence
from concurrent.futures import ThreadPoolExecutor, as_completed

from .. import LabError
from .report import Report
from .text import last_line

Compare = Callable[[Sequence[str]], Report]
"""Compares the runs of a program, given by the words of its line: its path and its arguments."""


def programs_of(path: pathlib.Path) -> list[list[str]]:
    """Read a list of programs: a path and arguments a line, as a shell divides it; comments after `#`. Raises LabError, OSError."""
    programs = list[list[str]]()
    for number, line in enumerate(path.read_text("utf-8").splitlines(), 1):
        try:
            words = shlex.split(line, comments=True)
        except ValueError as error:
            raise LabError(f"{path}:{number}: {error}") from error
        programs += [words] if words else []
    if not programs:
        raise LabError(f"{path} lists no program")
    return programs


def compare_all(programs: Sequence[Sequence[str]], jobs: int, compare: Compare) -> Iterator[Report]:
    """The reports of programs, as they end. Of one that can't run the report says why."""
    with ThreadPoolExecutor(jobs) as pool:
        for done in as_completed([pool.submit(_report_of, words, compare) for words in programs]):
            yield done.result()


def _report_of(words: Sequence[str], compare: Compare) -> Report:
    """Return the report of a program."""
    try:
        return compare(words)
    except (LabError, OSError) as error:
        return failed(words[0], f"{error}")


def failed(program: str, reason: str) -> Report:
    """Return the report of a program that can't run."""
    from .. import __version__

    return {
        "version": __version__,
        "program": program,
        "verdict": "not runnable",
        "seeds": 0,
        "runs": 0,
        "reason": reason.replace("\n", " "),
        "reliances": [],
    }


def batch_line(report: Report, is_json: bool) -> str:
    """Return a report as a line."""
    if is_json:
        return json.dumps(report)
    names = ", ".join(form["name"] for form in report["reliances"] if not form["known"])
    return f"{report['program']}: {last_line(report)}{f': {names}' if names else ''}"
