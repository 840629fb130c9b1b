"""The JSON files in the folder of a class, checked as they are read: a damaged file raises ValueError or TypeError."""

import re
from collections.abc import Mapping, Sequence
from dataclasses import dataclass, field
from typing import cast

from ...exercises.check import CaseResult, CheckResult
from ...machine.answers import is_stop
from ..core.codes import LETTERS
from ..core.progress import PendingCheck, Try
from ..core.requests import Settings

MOST = 2**31  # more than any count
SCRIPT_NAME = re.compile(r"([A-L])(?:\.([2-9]|[1-9][0-9]+))?\.script")


@dataclass(frozen=True)
class Facts:
    """The facts with which a class started: the digests of the program and of the images, the quantum, and the number of machines."""

    program: str = ""
    quantum: int = 100
    machines: int = 1
    images: Mapping[str, str] = field(default_factory=dict)

    def __post_init__(self) -> None:
        is_whole = type(self.program) is str and _is_count(self.quantum) and 1 <= self.quantum <= 1000
        if not is_whole or not _is_count(self.machines) or not 1 <= self.machines <= len(LETTERS):
            raise ValueError("no facts of a class")
        texts(**self.images)


@dataclass(frozen=True)
class Notes:
    """The notes on a machine and its last script.

    lines: the number of answered lines of the last script; answers: the digest of their answers
    clock, own_slices: the clock's settings by name, and whether students may grant slices; the teacher sets them
    scripts: for each script, the number of lines at its start that set the machine up as the script before left it
    stops: the last stops of users when the last script started, by digit
    script: the digest of the answered lines; "" in notes of version 2.0 and earlier
    """

    lines: int = 0
    answers: str = ""
    clock: Mapping[str, int] = field(default_factory=dict)
    own_slices: bool = True
    scripts: Sequence[int] = field(default_factory=lambda: [0])
    stops: Mapping[str, str] = field(default_factory=dict)
    script: str = ""

    def __post_init__(self) -> None:
        is_whole = (
            type(self.answers) is str
            and type(self.script) is str
            and type(self.own_slices) is bool
            and bool(self.scripts)
        )
        are_stops = all(is_stop(f"{digit} {stop}") for digit, stop in {**self.stops}.items())
        if not is_whole or not are_stops or not all(map(_is_count, (self.lines, *self.scripts))):
            raise ValueError("no notes of a machine")
        clock = Settings(**self.clock)  # type: ignore[arg-type]
        if type(clock.on) is not bool or not all(_is_count(it) and it for it in (clock.slices, clock.ms, clock.limit)):
            raise ValueError("no settings of a clock")


def texts(**values: str) -> dict[str, str]:
    """Check texts by name, and return them. Raises ValueError if a value isn't a text, or has a null character or a single surrogate."""
    if not all(isinstance(value, str) and "\0" not in value for value in values.values()):
        raise ValueError("not all are texts")
    "".join(values.values()).encode("utf-8")  # which fails for a single surrogate
    return values


def codes(**values: str) -> dict[str, str]:
    """Check codes by the names of their owners, and return them. Raises ValueError if a value isn't a code."""
    if not all(re.fullmatch("[!-~]{8,64}", code) for code in texts(**values).values()):
        raise ValueError("not all are codes")
    return values


def attempt(**values: object) -> Try:
    """Check a saved try, and return it. Raises ValueError if the values aren't a try.

    Without values, return a lost try, in which nothing passes. Cases that version 1.0 wrote get the name "".
    """
    if not values:
        return Try(time=0, text="", told={"cases": [], "reason": "the answer was lost"})
    time, text, suffix, result = (values.get(key) for key in ("time", "text", "suffix", "told"))
    if type(time) is int and isinstance(text, str) and isinstance(suffix, str | None) and isinstance(result, dict):
        cases, number = _cases(result.get("cases")), result.get("number", 0)
        if number in range(len(cases) or 1):
            told = cast(CheckResult, {**result, "cases": cases})
            return Try(time=time, text=text, suffix=f"{suffix or 's'}", told=told)
    raise ValueError("no try")


def pending_check(**values: object) -> PendingCheck:
    """Check the saved data of a check that was under way, and return it. Raises ValueError if the values aren't such data.

    Without values, return a check of the exercise "".
    """
    exercise, number, text, language = (values.get(key) for key in ("exercise", "number", "text", "language"))
    if not values:
        return PendingCheck(exercise="", number=0, text="", language=0)
    if isinstance(exercise, str) and isinstance(text, str) and _is_count(number) and _is_count(language):
        return PendingCheck(exercise=exercise, number=cast(int, number), text=text, language=cast(int, language))
    raise ValueError("no check")


def _cases(cases: object) -> list[CaseResult]:
    """Return the results of cases. Version 1.0 wrote only whether each case passed. Raises ValueError for other values."""
    found = list[CaseResult]()
    for case in cases if isinstance(cases, list) else [None]:
        match case:
            case bool():
                found.append({"name": "", "passed": case})
            case {"name": str() as name, "passed": bool() as passed, **others} if not others:
                found.append({"name": name, "passed": passed})
            case _:
                raise ValueError("no results of cases")
    return found


def _is_count(value: object) -> bool:
    """Return whether a value is an integer from 0 to MOST - 1."""
    return type(value) is int and 0 <= value < MOST
