"""The exercises of a class, and the progress of each seat in them: its tries, their results, and what its page shows."""

import time
from collections.abc import Mapping, Sequence
from dataclasses import dataclass, field
from typing import NotRequired, TypedDict

from ...exercises.answer import C_SUFFIX, inputs
from ...exercises.check import CaseRows, CheckResult, case_rows, passes_all
from ...exercises.exercise import Case, Exercise
from .codes import new_code
from .languages import NUMBERS, C, SourceText
from .bad_request import BadRequest
from .loaded import TriedCase

MAX_TRIES = 200  # the most tries of a seat at an exercise
MAX_FAILURES = 50  # the last failed checks, which the teacher sees
# A student may need help if an exercise has been open for this time, and this number of tries has failed.
STUCK_SECONDS, STUCK_TRIES = 600, 3

Try = TypedDict("Try", {"time": int, "text": str, "suffix": NotRequired[str], "told": CheckResult})
"""A checked answer: its time in seconds since 1970, its text, the suffix of its language (`s` without one), and `told`, the result."""
CheckFailure = TypedDict("CheckFailure", {"seat": str, "exercise": str, "time": int, "cause": str})
"""A check that failed twice on the server's side: the seat, the exercise, the time in seconds since 1970, and the cause."""
PendingCheck = TypedDict("PendingCheck", {"exercise": str, "number": int, "text": str, "language": int})
"""A check under way: the exercise, the number of the try that it may become, the source, and the number of its language."""
Start = TypedDict("Start", {"text": str, "language": int})
SeatResult = TypedDict("SeatResult", {"tries": int, "passed": int, "best": int, "time": int})
"""The results of a seat at an exercise: the number of tries; the number of the first try that passed, or 0; the most cases that passed
in one try; and the time of the first try that passed, or else of the last one, in seconds since 1970."""


class CaseView(TypedDict):
    """A case of an exercise.

    name: the name of the case; hidden: whether the case is hidden; shown: its inputs and expected results; missing if it is hidden
    """

    name: str
    hidden: bool
    shown: NotRequired[CaseRows]


class ExerciseView(TypedDict):
    """An exercise on a student's page.

    number: its place among the exercises, from 1
    starts: the sources to start with, the preferred one first: one in assembler, one in C, or both
    unsigned: whether all numbers in the memory of its cases are unsigned, so that the page shows numbers in memory as unsigned
    hints: the hints that the student may see; hint_count: the number of all hints; best: the most cases that passed in one try
    told: the result of the last check; checking: whether an answer is being checked
    before: the path of the lesson that comes before the exercise; "" if there is none
    lesson: the path of a lesson on the case that failed first; "" if there is none
    """

    number: int
    title: str
    before: str
    text: str
    starts: list[Start]
    unsigned: bool
    cases: list[CaseView]
    hints: Sequence[str]
    hint_count: int
    tries: int
    best: int
    passed: bool
    checking: bool
    told: CheckResult
    lesson: str


@dataclass
class Progress:
    """The progress of a seat in an exercise.

    tries: the time of each try, in seconds since 1970, and the number of cases that passed; first: the number of the first try that passed, or 0
    source: the source of the last try; last_result: the result of the last check
    ticket: the ticket that opens a lesson on the last try; "" if there is none
    """

    tries: list[tuple[int, int]] = field(default_factory=list)
    source: SourceText = SourceText()
    last_result: CheckResult = field(default_factory=lambda: CheckResult())
    first: int = 0
    ticket: str = ""

    def add(self, done: Try) -> bool:
        """Add the result of a check. Return whether it counts as a try, which a source with mistakes doesn't."""
        self.last_result, self.ticket = done["told"], ""
        if "cases" not in self.last_result:
            return False
        self.source = source_of(done)
        self.tries.append((done["time"], sum(case["passed"] for case in self.last_result["cases"])))
        self.ticket = new_code() if "number" in self.last_result else ""
        if passes_all(self.last_result) and not self.first:
            self.first = len(self.tries)
        return True

    @property
    def best(self) -> int:
        """The most cases that passed in one try."""
        return max((passed for _, passed in self.tries), default=0)

    def stuck_since(self, opened: float) -> float | None:
        """Return since when the student is stuck at the exercise, in seconds since 1970; None if the student isn't stuck.

        opened: when the exercise was opened
        """
        if self.first or len(self.tries) < STUCK_TRIES:
            return None
        since = max(opened + STUCK_SECONDS, self.tries[STUCK_TRIES - 1][0])
        return since if since <= time.time() else None

    def result(self) -> SeatResult:
        """Return the seat's results for the teacher's table. There has to be a try."""
        which = self.first or len(self.tries)
        return {"tries": len(self.tries), "passed": self.first, "best": self.best, "time": self.tries[which - 1][0]}


class Exercises:
    """The exercises of a class by name, the sources that a student may start each with, and the progress of each seat.

    by_name: the exercises that students have, in order; known: the names of all exercises that students have or had
    titles: the titles of the known exercises, and of those that the teacher may turn on, by name
    busy: the exercise whose answer is being checked, by seat; "" while a lesson is built from an answer of the seat
    failures: the last checks that failed on the server's side, in order; only the teacher sees them
    """

    def __init__(self, exercises: Mapping[str, Exercise], starts: Mapping[str, list[Start]]) -> None:
        self.known, self.titles, self.busy = set[str](), dict[str, str](), dict[str, str]()
        self.choose(exercises, starts)
        self._progress: dict[tuple[str, str], Progress] = {}
        self.failures: list[CheckFailure] = []

    def choose(self, exercises: Mapping[str, Exercise], starts: Mapping[str, list[Start]]) -> None:
        """Set the exercises that students have, and the sources to start with. The progress in other exercises is preserved."""
        self.by_name, self._starts = exercises, starts
        self._numbers = {name: number for number, name in enumerate(exercises, 1)}
        self._cases = {name: [_case_view(each, case) for case in each.cases] for name, each in exercises.items()}
        self.known |= exercises.keys()
        self.titles |= {name: each.title for name, each in exercises.items()}

    def exercise(self, name: str) -> Exercise:
        """Return the exercise of this name. Raises BadRequest if students don't have it."""
        if name not in self.by_name:
            raise BadRequest(
                "the teacher has turned this exercise off" if name in self.known else "there is no such exercise"
            )
        return self.by_name[name]

    def progress(self, seat: str, name: str) -> Progress:
        """Return the progress of a seat in an exercise, which is new if there is none."""
        return self._progress.setdefault((seat, name), Progress())

    def of(self, name: str) -> dict[str, Progress]:
        """Return the progress in an exercise of each seat that has tried it, by seat."""
        return {seat: it for (seat, exercise), it in self._progress.items() if exercise == name and it.tries}

    def stuck_since(self, seat: str, name: str, opened: float) -> float | None:
        """Return since when a seat is stuck at an exercise, as `Progress.stuck_since` does; None if students don't have the exercise."""
        progress = self._progress.get((seat, name)) if name in self.by_name else None
        return progress.stuck_since(opened) if progress else None

    def check_may_start(self, seat: str, name: str) -> None:
        """Raise BadRequest if no answer of the seat to this exercise may be checked now."""
        self.exercise(name)
        if seat in self.busy:
            raise BadRequest("a check of this seat is under way")
        if len(self.progress(seat, name).tries) >= MAX_TRIES:
            raise BadRequest(f"this seat has tried it {MAX_TRIES} times")

    def take(self, seat: str, name: str, done: Try) -> bool:
        """Record the result of a check; return whether it counts as a try. Only the teacher sees the cause of a failed check."""
        if cause := done["told"].pop("failure", ""):
            failure = CheckFailure(seat=seat, exercise=name, time=done["time"], cause=cause)
            self.failures = [*self.failures, failure][-MAX_FAILURES:]
        return self.progress(seat, name).add(done)

    def restore(self, seat: str, name: str, done: Try) -> None:
        """Restore a saved try."""
        self.progress(seat, name).add(self.with_case_names(name, done))

    def forget(self, seat: str, name: str) -> None:
        """Delete the progress of a seat in an exercise, so that its tries can be restored in another order."""
        self._progress.pop((seat, name), None)

    def with_case_names(self, name: str, done: Try) -> Try:
        """Return a saved try with the names of its cases, which version 1.0 didn't save."""
        cases = self.by_name[name].cases if name in self.by_name else []
        for case, result in zip(cases, done["told"].get("cases", [])):
            result["name"] = result["name"] or case.name
        return done

    def case(self, seat: str, name: str, number: int | None, source: SourceText) -> TriedCase:
        """Return a case of an exercise, with the commands that set it up for a source.

        number: the place of the case, from 0 on; None for the case that failed first in the seat's last check
        Raises BadRequest if the case is hidden, or if there is no such case.
        """
        exercise, result = self.exercise(name), self.progress(seat, name).last_result
        if number is None and "number" not in result:
            raise BadRequest("no case that is shown has failed")
        number = result["number"] if number is None else number
        if not 0 <= number < len(exercise.cases) or exercise.cases[number].is_hidden:
            raise BadRequest(f"case {number} of {name} isn't shown: take one from the list of cases")
        case = exercise.cases[number]
        return TriedCase(name, number, lambda start: inputs(exercise, case, start))

    def answered(self, ticket: str) -> tuple[str, str, Progress] | None:
        """Return the answer whose lesson a ticket opens: its seat, its exercise and the seat's progress; None for an unknown ticket."""
        found = ((*key, it) for key, it in self._progress.items() if it.ticket and it.ticket == ticket)
        return next(found, None)

    def views(self, seat: str) -> dict[str, ExerciseView]:
        """Return the exercises on a seat's page, by name."""
        return {name: self._view(seat, name, exercise) for name, exercise in self.by_name.items()}

    def _view(self, seat: str, name: str, exercise: Exercise) -> ExerciseView:
        progress = self.progress(seat, name)
        return {
            "number": self._numbers[name],
            "title": exercise.title,
            "before": f"lesson/{name}" if "lesson" in exercise.files else "",
            "text": exercise.text,
            "starts": self._starts[name],
            "unsigned": is_unsigned(exercise),
            "cases": self._cases[name],
            "hints": exercise.hints[: len(progress.tries) - (progress.first > 0)],
            "hint_count": len(exercise.hints),
            "tries": len(progress.tries),
            "best": progress.best,
            "passed": progress.first > 0,
            "checking": self.busy.get(seat) == name,
            "told": progress.last_result,
            "lesson": f"lesson/{progress.ticket}" if progress.ticket else "",
        }


def _case_view(exercise: Exercise, case: Case) -> CaseView:
    if case.is_hidden:
        return {"name": case.name, "hidden": True}
    return {"name": case.name, "hidden": False, "shown": case_rows(exercise, case)}


def is_unsigned(exercise: Exercise) -> bool:
    """Return whether the cases of an exercise have numbers in memory, and all of them are unsigned."""
    types = {numbers.type for case in exercise.cases for numbers in case.memory}
    return bool(types) and all(it.startswith("u") for it in types)


def source_of(done: Try) -> SourceText:
    """Return the source of a try."""
    return SourceText(done.get("text", ""), NUMBERS.get(done.get("suffix", ""), 0))


def starts_of(exercise: Exercise) -> list[Start]:
    """Return the sources that a student may start with, the preferred one first."""
    files = [exercise.files[key] for key in ("start", "start_c") if key in exercise.files]
    return [Start(text=file.read_text("utf-8"), language=C if file.suffix == C_SUFFIX else 0) for file in files]
