"""A student's seat at a private machine, in one thread and without a server. It responds to each request at once.

A running program and checks of answers need no request. They progress each time that `turn` is called.
"""

import time
from collections.abc import Callable, Mapping

from .. import LabError
from ..assembler.source import Program
from ..assembler.trial import read_tried_source, read_whole_source
from ..classes.core.languages import SourceText
from ..classes.core.messages import Response, Changes, Hello, News, Result, Updates
from ..classes.core.messages import response_to, explain_refusals, request_of, with_changes
from ..classes.core.progress import Exercises, Start, Try
from ..classes.core.bad_request import BadRequest
from ..classes.core.request_fields import JsonObject
from ..classes.core.requests import (
    TryRequest,
    LinesRequest,
    Request,
    SeatsRequest,
    Settings,
    read_request,
)
from ..classes.core.shared_machine import Answers, SharedMachine
from ..classes.core.steps import MakeProgram, Returned, Steps, Turn, WorkApart
from ..classes.core.sources import SeatSource
from ..classes.core.student import ClassView, Student, try_result
from ..classes.core.text_store import TextStore
from ..exercises.check import check, lesson, lesson_before
from ..exercises.exercise import Exercise
from ..exercises.answer_cost import AnswerCost
from ..language.line_types import read_typed_source
from ..machine.process import Vecmon
from ..machine.session import Session

SLICES = 1000  # granted to a running program at once
# Seconds of one turn of a running program, and between two updates of its view.
TURN_SECONDS, WATCH_SECONDS = 0.025, 0.5
NO_C = "this page has no compiler; `vecmon-lab explore` on your own computer, and classes, compile C"


class NoRecorder:
    """A recorder that records nothing, since the session has the script."""

    def append(self, line: str) -> None:
        """Do nothing."""

    def cut(self, size: int) -> None:
        """Do nothing."""


class Desk:
    """A seat, its machine and the exercises.

    no_c: the reason why sources in C aren't compiled; refusal_of_c: the start of a message, before this reason
    stopper: the noun that messages have for the part of the lab that stops a program, such as `page`
    own_slices: whether the page offers to grant slices to a running program
    limit: the approximate number of ticks that a program may run without a stop
    """

    no_c, stopper, own_slices = NO_C, "page", False
    refusal_of_c = "sources in C aren't compiled"

    def __init__(
        self,
        program: Vecmon,
        session: Session,
        texts: TextStore,
        exercises: Mapping[str, Exercise],
        starts: Mapping[str, list[Start]],
        limit: int = Settings.limit,
        source: SeatSource | None = None,
    ) -> None:
        """program: vecmon; session: a session on the seat's machine; texts: saves the seat's source and its versions

        exercises: the exercises by name; starts: the sources with which one can start each exercise, by the exercise's name
        limit: the value of the attribute `limit`; source: the seat's source; None to make a source as a class has it
        """
        self.program, self.texts, self.limit = program, texts, limit
        self.exercises = Exercises(exercises, starts)
        self.machine = SharedMachine("A", session, NoRecorder())
        self.seat = self.machine.seats.users["1"]
        self.student = Student(self.machine, self.seat, texts, self.exercises, self._begin_check, source)
        self._sent, self._good = Updates(), dict[str, AnswerCost]()
        self._checks: list[Callable[[], None]] = []
        self._looked = 0.0  # time of the last update of a running program's view

    @property
    def is_busy(self) -> bool:
        """Whether there is work that needs no request: a check, or a running program."""
        return bool(self._checks or self.machine.seats.running())

    def hello(self) -> Hello:
        """Return the first message to a page."""
        self._sent = Updates()
        hello: Hello = {"kind": "hello", "who": self.seat.name, "time": time.time()}
        return with_changes(hello, self.news())

    def news(self) -> Changes:
        """Return the changes that the page hasn't received yet."""
        return self._sent.news(self.student.view(self._more()), [self.seat])

    def respond(self, text: str) -> Response:
        """Execute a request; return the response. It has the request's result or error, and the changes for the page.

        text: the request in JSON
        """
        number, done = 0, Answers()
        message: JsonObject = {}
        result: Result
        try:
            number, message = request_of(text)
            result = self._execute(read_request(message, is_teacher=False), done)
        except (LabError, ValueError, RecursionError) as error:
            result = {"error": str(error), "done": done}
        return response_to(number, explain_refusals(result, self.seat.digit, message, done), self.news())

    def turn(self) -> News | None:
        """Do a part of the work that needs no request. Return a message with the changes; None if there are none."""
        if self._checks:
            self._checks.pop(0)()
        elif self.machine.seats.running():
            self._run_for(TURN_SECONDS)
        changes = self.news()
        return with_changes(News(kind="news"), changes) if changes else None

    def lesson(self, ticket: str) -> str:
        """Return a lesson in HTML. Raises LabError if there is none.

        ticket: the ticket of a checked answer, for a lesson about this answer; or the name of an exercise, for the lesson before it
        """
        if ticket in self.exercises.by_name and "lesson" in self.exercises.by_name[ticket].files:
            return lesson_before(self.program, self.exercises.by_name[ticket])
        if (answered := self.exercises.answered(ticket)) is None:
            raise LabError("this lesson is gone: check the answer once more")
        _, name, progress = answered
        return lesson(
            self.program, self.exercises.by_name[name], progress.last_result["number"], progress.source.text, None
        )

    def try_of(self, name: str, number: int) -> Try:
        """Return a try at an exercise. number: 1 for the first try. Raises BadRequest if there is none."""
        raise BadRequest("there is no such answer")

    def add_try(self, name: str, done: Try) -> None:
        """Take up the result of a check of an answer to an exercise."""
        self.exercises.take(self.seat.name, name, done)

    def lines(self, request: LinesRequest, done: Answers) -> Answers:
        """Execute the lines of a request; return the answers to its read-only lines. Raises LabError.

        done: receives the answers to the lines that aren't read-only, also if an error is raised
        """
        return self.run(self.machine.lines(self.seat, request, done))

    def run(self, steps: Steps[Returned]) -> Returned:
        """Execute steps one after another; return their result. Raises LabError as the machine does."""
        made: Program | None = None
        try:
            while True:
                step, made = steps.send(made), None
                if isinstance(step, Turn):
                    try:
                        self.machine.execute(step)
                    finally:
                        self.machine.report(step)
                elif isinstance(step, MakeProgram):
                    made = self._make(step)
                elif isinstance(step, WorkApart):
                    step.call()
        except StopIteration as end:
            returned: Returned = end.value
            return returned

    def execute(self, request: Request, done: Answers) -> Result:
        """Execute a request of a kind that this class doesn't accept; return its result. Raises BadRequest.

        This method always raises BadRequest. A subclass overrides it to accept more kinds of requests than those that `respond` executes.

        done: receives the answers to executed lines that aren't read-only
        """
        raise BadRequest("this page doesn't do that")

    def names_of_images(self) -> list[str]:
        """Return the names of the images that the machine can load."""
        return [*self.machine.session.images]

    def _more(self) -> ClassView:
        """Return the parts of the page's view that belong to no seat."""
        return {
            "title": "Playground",
            "class_title": "",
            "name": "",
            "messages": {},
            "images": self.names_of_images(),
            "clock": True,
            "own_slices": self.own_slices,
            "no_c": self.no_c,
            "against": [],
            "ready": True,
            "trouble": "",
        }

    def _execute(self, request: Request, done: Answers) -> Result:
        """Execute a request; return its result. Raises BadRequest. done: receives the answers to executed lines that aren't read-only"""
        match request:
            case LinesRequest():
                return {"do": done, "look": self.lines(request, done)}
            case TryRequest(exercise=name, number=number):
                self.exercises.exercise(name)
                return try_result(self.try_of(name, number))
            case SeatsRequest():
                return self.run(self.student.execute(request))
        return self.execute(request, done)

    def _granted(self) -> Steps[None]:
        yield self.machine.grant(SLICES)

    def _run_for(self, seconds: float) -> None:
        """Grant slices to a running program for a number of seconds, and update the page's view of it from time to time."""
        start = time.monotonic()
        while self.machine.seats.running() and time.monotonic() - start < seconds:
            self.run(self._granted())
        why = self.machine.has_run_long(self.seat, self.limit)
        if self.machine.seats.running() and (why or start - self._looked > WATCH_SECONDS):
            self._looked = start
            self.run(self.machine.show(self.seat, why, self.stopper))

    def _make(self, step: MakeProgram) -> Program:
        """Return the program of a source. Raises BadRequest for a source in C."""
        if step.source.choice is not None:
            raise BadRequest(f"{self.refusal_of_c}: {self.no_c}")
        read = read_typed_source if step.is_typed else read_tried_source if step.is_tried else read_whole_source
        return read(step.source.text, self.program)

    def _begin_check(self, seat: str, name: str, source: SourceText) -> None:
        """Queue the check of an answer for one of the next turns. Raises BadRequest."""
        exercise = self.exercises.exercise(name)
        if source.choice is not None:
            raise BadRequest(f"{self.refusal_of_c}: {self.no_c}")
        self.exercises.check_may_start(seat, name)
        self.exercises.busy[seat] = name

        def finish() -> None:
            try:
                told = check(self.program, exercise, source.text, None, self._good.get(name))
            finally:
                del self.exercises.busy[seat]
            if "good" in told:
                self._good[name] = told["good"]
            self.add_try(name, Try(time=int(time.time()), text=source.text, suffix=source.suffix, told=told))

        self._checks.append(finish)
