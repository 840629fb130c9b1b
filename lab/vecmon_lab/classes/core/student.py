"""A student's requests at one seat, as steps at the machine, and what the student's page shows."""

from collections.abc import Callable, Sequence
from contextlib import suppress
from typing import NotRequired, TypedDict, cast

from ... import LabError
from ...assembler.mistakes import mistakes_json
from ...assembler.source import Program
from ...page.state import State
from ...page.build.texts import page_text
from .edits import breakpoint_lines, edit_line, setting_lines
from .example_sources import ExampleSource
from .languages import LANGUAGES, SourceText
from .messages import (
    Hand,
    Notice,
    ProblemsResult,
    Result,
    SourceResult,
    SourceView,
    TextResult,
    TryResult,
    shown,
    source_view,
)
from .moments import HistoryView, PastResult
from .progress import Exercises, ExerciseView, Try, source_of
from .bad_request import BadRequest
from .requests import (
    AgainRequest,
    BreakpointRequest,
    CaseRequest,
    CheckRequest,
    DraftRequest,
    EditRequest,
    LastInstructionRequest,
    LinesRequest,
    OpenRequest,
    PastRequest,
    ProblemsRequest,
    RunRequest,
    SeatsRequest,
    SourceRequest,
    StepRequest,
    VersionRequest,
    WhyRequest,
)
from .seat_status import problems_status
from .execution import Condition
from .explanations import complete_last_instruction, why
from .loaded import TriedCase
from .seats import Seat
from .shared_machine import SEAT_BYTES, Mistakes, SharedMachine
from .sources import SeatSource, kept_program
from .stepping import execute_line, run, step, step_until
from .steps import MakeProgram, Steps
from .text_store import TextStore


WARNING_PERCENT = 90  # of a seat's share of the script

Checker = Callable[[str, str, SourceText], None]
"""A function that starts the check of an answer, given the seat, the exercise and the source. It may raise BadRequest."""


class Share(TypedDict):
    """A seat's share of the script. used: the number of bytes that the seat has used; of: the number of bytes that it may use"""

    used: int
    of: int


class SeatPart(TypedDict):
    """The fields of a student's view that belong to the seat.

    stop: the last stop line without the digit; "" since `enter` or `go`
    quantum: the ticks of a slice; again: whether a loaded source can be started again
    languages: the names of source languages; a language's number is its index; exercises: the exercises by name
    history: the history of the program since its machine began
    """

    seat: str
    state: State
    condition: Condition
    stop: str
    quantum: int
    share: Share
    languages: list[str]
    source: SourceView
    exercises: dict[str, ExerciseView]
    again: bool
    history: HistoryView


class ClassView(TypedDict):
    """The fields of a student's view that don't belong to the seat.

    title: the title of a page without a class, such as its file's name; "" in a class
    class_title: the title of the class; "" without one
    name: the student's name, or ""; messages: the teacher's last messages by number, the oldest first
    images: the names that `load` accepts
    clock: whether the clock is on; own_slices: whether the student may grant slices
    windows: the number of windows in which the seat is open; missing if there is only one
    hand: the student's raised hand; missing if no hand is up
    examples: the sources that the start page offers; missing on other pages
    no_c: the reason why sources in C aren't accepted, or ""
    against: compilers with their options, for side-by-side listings; the number of each is its index; none in a class
    ready: whether the machine takes lines; otherwise requests wait
    trouble: a text for a banner, or ""
    """

    title: str
    class_title: str
    name: str
    messages: dict[str, Notice]
    hand: NotRequired[Hand]
    images: list[str]
    clock: bool
    own_slices: bool
    windows: NotRequired[int]
    no_c: str
    against: list[str]
    ready: bool
    trouble: str
    examples: NotRequired[Sequence[ExampleSource]]


class StudentView(SeatPart, ClassView):
    """A student's view."""


class Student:
    """A seat, its source, and the exercises.

    problems: the problems of the last source that was built, or whose problems the page asked for
    """

    def __init__(
        self,
        machine: SharedMachine,
        seat: Seat,
        texts: TextStore,
        exercises: Exercises,
        check: Checker,
        source: SeatSource | None = None,
    ) -> None:
        """texts: the store of the seat's source and versions; check: starts the check of an answer
        source: the seat's source; None to read it from `texts`
        """
        self.machine, self.seat, self.exercises = machine, seat, exercises
        self.source = source or SeatSource(seat.name, texts)
        self.problems: SourceResult = {"mistakes": [], "warnings": []}
        self._texts, self._check = texts, check
        self.source.settle([*exercises.by_name])

    def open_first(self) -> None:
        """Open the first exercise if students no longer have the open one. If they have no exercises, open none."""
        names = [*self.exercises.by_name]
        if self.source.exercise not in names:
            self.source.open(names[0] if names else "", is_students=False)

    def restore(self) -> str:
        """Restore the source in the seat's machine, and the case that is tried; return the reason if that fails, or ""."""
        try:
            source, program = kept_program(self._texts, self.seat.name)
        except LabError as error:
            return str(error)
        if source.text:
            self.seat.loaded.take(source, program)
            self.seat.display.list_program(program)
        if source.text and self.source.case:
            with suppress(BadRequest):  # of an exercise that is off now
                self.seat.loaded.case = self.exercises.case(self.seat.name, *self.source.case, source)
        return ""

    def save(self) -> bool:
        """Save the source if it has changed; return whether there is a new version."""
        self.source.written, case = self.seat.loaded.source, self.seat.loaded.case
        self.source.case = (case.exercise, case.number) if case else None
        return self.source.save(self.seat.loaded.program)

    def execute(self, request: SeatsRequest) -> Steps[Result]:
        """Execute a request; return its result. Raises BadRequest.

        Requests with lines aren't executed here, since the operator sends them as well: see `SharedMachine.lines`.
        """
        match request:
            case SourceRequest(source, number, breaks):
                return (yield from self._write(source, number, breaks))
            case ProblemsRequest(source):
                return (yield from self._find_problems(source))
            case AgainRequest():
                return (yield from self._write(None))
            case RunRequest(number, source, breaks):
                return (yield from self._run(source, number, breaks))
            case StepRequest():
                return (yield from self._step(request))
            case EditRequest(edit, text, is_decimal):
                line = edit_line(edit, text, is_decimal, self.seat.state.get("v", {}))
                yield from execute_line(self.machine, self.seat, line)
            case BreakpointRequest(number, is_only_set):
                yield from self._toggle_breakpoints(number, is_only_set)
            case LastInstructionRequest():
                yield from complete_last_instruction(self.machine, self.seat)
            case PastRequest(at, to_break):
                return (yield from self._read_past(at, to_break))
            case WhyRequest(name, notation):
                return {"why": (yield from why(self.machine, self.seat, name, notation))}
            case DraftRequest():
                self._draft(request)
            case OpenRequest(name):
                if name or not self.source.has_free_program:
                    self.exercises.exercise(name)
                self.source.open(name)
            case VersionRequest(number):
                return text_of(self.source.version(number))
            case CheckRequest(name, source):
                self._check(self.seat.name, name, source)
                if name == self.source.exercise:
                    self.source.open(name)  # also where the page hasn't asked for it
            case CaseRequest():
                return (yield from self._try(request))
        return {}

    def _find_problems(self, source: SourceText) -> Steps[ProblemsResult]:
        """Return the problems and the vector types of a source, without loading it."""
        program = yield MakeProgram(source, is_typed=True)
        assert program is not None
        self.problems = found = problems_of(program, source)
        return {"mistakes": found["mistakes"], "warnings": found["warnings"], "types": program.types}

    def _run(self, source: SourceText | None, number: int, breaks: Sequence[int]) -> Steps[SourceResult]:
        """Run a source; return its problems. If its program has ended, restart it. source: None for the source in the machine"""
        problems = yield from self._build(source, number, breaks)
        if not problems["mistakes"] and self.seat.condition == "Ended" and self.seat.loaded.program:
            problems = yield from self._write(None)
        if not problems["mistakes"]:
            yield from run(self.machine, self.seat)
        return problems

    def _step(self, request: StepRequest) -> Steps[SourceResult]:
        """Step the program of a source, up to a line or by a number of steps; return the source's problems."""
        problems = yield from self._build(request.source, request.number, request.breaks)
        if not problems["mistakes"] and request.until:
            yield from step_until(self.machine, self.seat, request.until)
        elif not problems["mistakes"]:
            yield from step(self.machine, self.seat, request.kind, request.by == "line", request.count)
        return problems

    def _read_past(self, at: int, to_break: bool) -> Steps[PastResult]:
        """Return an earlier state of the program, as `Past.moment` does. Raises BadRequest.

        If the seat's source differs from the source in the machine, the result also has the machine's source.
        """
        result = yield from self.machine.past.moment(self.seat, at, to_break)
        if self.seat.loaded.program and self.source.own != self.seat.loaded.source:
            text = text_of(self.seat.loaded.source)
            result["text"], result["language"] = text["text"], text["language"]
        return result

    def _toggle_breakpoints(self, number: int, is_only_set: bool) -> Steps[None]:
        """Set the breakpoints of a line of the source, or remove them if any is set.

        number: the number of the line; is_only_set: whether breakpoints that are set stay
        """
        stops, breaks = self.seat.loaded.names.get("stops", {}), self.seat.state.get("breaks", [])
        for line in breakpoint_lines(stops, breaks, number, is_only_set):
            yield from execute_line(self.machine, self.seat, line)

    def _set_breakpoints(self, lines: Sequence[int]) -> Steps[None]:
        """Set breakpoints at lines of the source in the machine. lines: the numbers of the lines

        If some breakpoints can't be set, set the others, and then raise BadRequest.
        """
        stops, breaks = self.seat.loaded.names.get("stops", {}), self.seat.state.get("breaks", [])
        commands, refusals = setting_lines(stops, breaks, lines)
        for line in commands:
            yield from execute_line(self.machine, self.seat, line)
        if refusals:
            raise BadRequest(" ".join([*refusals, page_text("breakpoints.loaded")]))

    def _draft(self, draft: DraftRequest) -> None:
        """Record the text in the editor, and the line of its caret. Raises BadRequest for an unknown exercise."""
        if draft.exercise and draft.exercise not in self.exercises.known:
            raise BadRequest("there is no such exercise")
        self.source.draft(draft.source, draft.number, draft.exercise, draft.keep, draft.window)
        self.source.caret = draft.line

    def _try(self, tried: CaseRequest) -> Steps[SourceResult]:
        """Start the machine anew with a case of an exercise, at the call of its function; return the problems of the source."""
        case = self.exercises.case(self.seat.name, tried.exercise, tried.case, tried.source)
        return (yield from self._write(tried.source, breaks=tried.breaks, case=case))

    def _build(self, source: SourceText | None, number: int, breaks: Sequence[int]) -> Steps[SourceResult]:
        """Start the machine anew with a source, unless the source is loaded; return its problems.

        source: None for the loaded source; breaks: the numbers of lines that get breakpoints
        """
        if source is None or source == self.seat.loaded.source and self.seat.loaded.program:
            yield from self._set_breakpoints(breaks)
            return {"mistakes": [], "warnings": []}
        return (yield from self._write(source, number, breaks, is_tried=True))

    def _write(
        self,
        source: SourceText | None,
        number: int = -1,
        breaks: Sequence[int] = (),
        case: TriedCase | None = None,
        is_tried: bool = False,
    ) -> Steps[SourceResult]:
        """Start the machine anew with a source; return its problems.

        source: None for the loaded source, with its case; number: as in SourceRequest; case: sets the inputs of the program
        breaks: numbers of lines that get breakpoints, in addition to the machine's; is_tried: as in SharedMachine.write
        Raises BadRequest if the machine refuses the source, or any breakpoint.
        """
        if source:
            self.source.write(source, number)
        case = case if source else self.seat.loaded.case
        mistakes, warnings = yield from self.machine.write(self.seat, source, case is not None, is_tried)
        if mistakes:
            self.seat.status.set(problems_status(len(mistakes)))
        elif case:
            self.seat.loaded.case = case
            entry = int(self.seat.state["pc"], 16)
            yield from self.machine.lines(self.seat, LinesRequest(case.commands(entry)), [])
        self.problems = problems_json(source or self.seat.loaded.source, mistakes, warnings)
        if not mistakes:
            yield from self._set_breakpoints(breaks)
        return self.problems

    def view(self, others: ClassView) -> StudentView:
        """Return the student's view. others: its fields that don't belong to the seat"""
        own: SeatPart = {
            "seat": self.seat.name,
            "state": shown(self.seat),
            "condition": self.seat.condition,
            "stop": self.seat.execution.stop,
            "quantum": self.machine.session.quantum,
            "share": {"used": self.seat.used, "of": SEAT_BYTES},
            "languages": [language.name for language in LANGUAGES],
            "source": source_view(self.source, self.seat, self.exercises.titles),
            "exercises": self.exercises.views(self.seat.name),
            "again": self.seat.loaded.program is not None,
            "history": self.machine.past.view(self.seat),
        }
        return cast(StudentView, {**own, **others})


def problems_of(program: Program, source: SourceText) -> SourceResult:
    """Return the mistakes and warnings of a program with this source, in the form of messages."""
    return problems_json(source, program.mistakes, program.warnings)


def share_warning(seat: Seat) -> str:
    """Return a warning if a seat has used at least 90 % of its share of the script; "" otherwise."""
    percent = 100 * seat.used // SEAT_BYTES
    return page_text("student.share", share=percent) if percent >= WARNING_PERCENT else ""


def problems_json(source: SourceText, mistakes: Mistakes, warnings: Mistakes) -> SourceResult:
    """Return mistakes and warnings of a source in the form of messages."""
    text, is_c = source.text, source.suffix.endswith(".c")
    return {
        "mistakes": mistakes_json(mistakes, text, is_c),
        "warnings": mistakes_json(warnings, text, is_c, "warning"),
    }


def try_result(done: Try) -> TryResult:
    """Return a try in the form of messages."""
    source = source_of(done)
    return {"text": source.text, "language": source.language, "told": done["told"]}


def text_of(source: SourceText) -> TextResult:
    """Return a source in the form of messages."""
    return {"text": source.text, "language": source.language}
