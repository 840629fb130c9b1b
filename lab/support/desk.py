"""A student's desk in tests: as a page has it (playground/desk.py), but a request's consequences are done at once."""

import json
from collections.abc import Mapping
from typing import Any

from vecmon_lab.classes.core.messages import Changes, Result
from vecmon_lab.classes.core.names import checked_name
from vecmon_lab.classes.core.progress import starts_of
from vecmon_lab.classes.core.bad_request import BadRequest
from vecmon_lab.classes.core.requests import NameRequest, Request
from vecmon_lab.classes.core.shared_machine import Answers
from vecmon_lab.classes.core.student import ClassView
from vecmon_lab.exercises.exercise import Exercise
from vecmon_lab.machine.process import Vecmon
from vecmon_lab.machine.session import Session
from vecmon_lab.playground.desk import Desk as PageDesk
from vecmon_lab.playground.kept_texts import KeptTexts

OF_TIMES = ("time", "lesson")  # when a version was made; and what opens a lesson, which is drawn


class Desk(PageDesk):
    """A seat, its machine, and the exercises: a request is answered at once, and `settle` does what it has set going.

    has_clock: whether programs that run get slices without a request
    """

    no_c, stopper, own_slices = "no compiler was named", "server", True
    refusal_of_c = "this class takes no C"

    def __init__(self, program: Vecmon, exercises: Mapping[str, Exercise], limit: int) -> None:
        """limit: the ticks that a program has without a stop, about"""
        self.has_clock, self._name = True, ""
        starts = {name: starts_of(each) for name, each in exercises.items()}
        super().__init__(program, Session(program), KeptTexts(), exercises, starts, limit)

    def settle(self) -> Changes:
        """Checks what waits, and lets the program run to its end, or its limit; what is new then."""
        while self._checks:
            self._checks.pop()()
        while self.has_clock and self.machine.seats.running():
            self.run(self._granted())
            if why := self.machine.has_run_long(self.seat, self.limit):
                self.run(self.machine.show(self.seat, why, self.stopper))
        return self.news()

    def execute(self, request: Request, done: Answers) -> Result:
        """Executes a request that a page without a server refuses. Raises BadRequest."""
        match request:
            case NameRequest(name=name):
                self._name = checked_name(name)
                return {}
        raise BadRequest("a desk doesn't do that")

    def close(self) -> None:
        """Ends the machine."""
        self.machine.session.close()

    def _more(self) -> ClassView:
        view = super()._more()
        view["title"], view["class_title"], view["name"], view["clock"] = "", "class", self._name, self.has_clock
        return view


def untimed(value: Any) -> Any:
    """A value without what is another one each time."""
    if isinstance(value, dict):
        return {name: untimed(part) for name, part in value.items() if name not in OF_TIMES}
    return [untimed(part) for part in value] if isinstance(value, list) else value


def ask(desk: Desk, **request: object) -> Mapping[str, Any]:
    """The answer of a desk to a request."""
    return desk.respond(json.dumps({"id": 1, **request}))
