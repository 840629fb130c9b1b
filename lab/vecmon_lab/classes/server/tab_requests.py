"""The requests of a class's tabs, and news for them (docs/CLASS_PROTOCOL.md)."""

import logging
import time
import traceback
from collections.abc import Mapping

from ... import LabError
from ..core.codes import TEACHER, WALL
from ..core.messages import Response, Changes, Hello, Result, response_to, explain_refusals, request_of, with_changes
from ..core.names import checked_name, checked_text
from ..core.bad_request import BadRequest
from ..core.request_fields import JsonObject
from ..core.requests import (
    TryRequest,
    HandRequest,
    LinesRequest,
    ListingsRequest,
    MachineLinesRequest,
    NameRequest,
    OpenOfferRequest,
    ReadRequest,
    Request,
    RunRequest,
    SeatsRequest,
    read_request,
)
from ..core.seats import Seat
from ..core.shared_machine import Answers
from ..core.student import try_result
from .teacher import execute_teachers
from .student_view import student_view
from .teacher_view import teacher_view, wall_view
from .served_class import Class
from .tab import Tab

LOGGER = logging.getLogger("vecmon_lab")


class TabRequests:
    """Executes the requests of a class's tabs."""

    def __init__(self, members: Class) -> None:
        self._members = members
        self._faults = set[tuple[str, int | None]]()  # places of exceptions that were logged

    def hello(self, tab: Tab) -> Hello:
        """Add a tab to the class; return the first message to it."""
        self._members.tabs.add(tab)
        self._members.tell([tab.who])
        hello: Hello = {"kind": "hello", "who": tab.who, "time": time.time()}
        return with_changes(hello, self.news(tab))

    def leave(self, tab: Tab) -> None:
        """Remove a tab from the class."""
        self._members.tabs.discard(tab)
        self._members.tell([tab.who])

    async def respond(self, tab: Tab, text: str, refusal: str = "") -> Response:
        """Execute a request; return the response, with news. refusal: a sentence on why it isn't executed; "" to execute it"""
        number, done = 0, Answers()
        message: JsonObject = {}
        result: Result
        try:
            number, message = request_of(text)
            if refusal:
                raise BadRequest(refusal)
            if tab.who == WALL:
                raise BadRequest("the wall only looks")
            if tab.who != TEACHER:
                self._members.seat(tab.who).active = time.time()
            result = await self._execute(tab, read_request(message, tab.who == TEACHER), done)
        except (LabError, ValueError, RecursionError) as error:
            result = {"error": str(error), "done": done}
        except Exception as error:
            self._log_fault(error)
            result = {"error": f"this is a fault of the lab: {type(error).__name__}: {error}", "done": done}
        result = explain_refusals(result, "*" if tab.who == TEACHER else tab.who[-1], message, done)
        return response_to(number, result, self.news(tab))

    def _log_fault(self, error: Exception) -> None:
        """Log an exception that is a fault of the lab, with its traceback, once for each place, since clients may repeat the request."""
        place = [(frame.filename, frame.lineno) for frame in traceback.extract_tb(error.__traceback__)][-1]
        if place not in self._faults:
            self._faults.add(place)
            LOGGER.error("a request of a tab failed, which is a fault of the lab", exc_info=error)

    def news(self, tab: Tab) -> Changes:
        """Return the changes for a tab: a patch of its view, and entries of logs."""
        tab.changed.clear()
        return tab.sent.news(self._view(tab), self._logs(tab))

    def _view(self, tab: Tab) -> Mapping[str, object]:
        """Return all that a tab shows except logs."""
        if tab.who == TEACHER:
            return teacher_view(self._members, tab)
        if tab.who == WALL:
            return wall_view(self._members)
        return student_view(self._members, self._members.student(tab.who))

    def _logs(self, tab: Tab) -> list[Seat]:
        """Return the seats whose logs a tab shows."""
        if tab.who == WALL:
            return []
        if tab.who != TEACHER:
            return [self._members.seat(tab.who)]
        operators = [room.seats.operator for room in self._members.rooms.values()]
        return operators if tab.shoulder is None else [*operators, tab.shoulder]

    async def _execute(self, tab: Tab, request: Request, done: Answers) -> Result:
        """Execute a request; return its result. Raises BadRequest, and LabError if no machine runs."""
        members, is_teacher = self._members, tab.who == TEACHER
        match request:
            case LinesRequest():
                if isinstance(request, MachineLinesRequest):
                    seat = members.room(request.machine).seats.operator
                else:
                    seat = members.seat(tab.who)
                return {"do": done, "look": await members.rooms[seat.name[0]].lines(seat, request, done)}
            case NameRequest(seat=seat_name, name=name):
                members.set_name(members.seat(seat_name if is_teacher else tab.who).name, checked_name(name))
            case HandRequest(up=up, text=text):
                members.set_hand(tab.who, up, checked_text(text))
            case ReadRequest(number):
                members.read_notice(tab.who, number)
            case OpenOfferRequest(number):
                members.open_offer(tab.who, number)
            case ListingsRequest(source, other):
                return {"listings": members.comparisons.ask(tab.who, source, other)}
            case TryRequest(seat=seat_name, exercise=name, number=number):
                seat = members.seat(seat_name if is_teacher else tab.who)
                return try_result(members.checks.try_of(seat.name, name, number))
            case SeatsRequest():
                return await self._execute_for_seat(tab, request)
            case _:
                return await execute_teachers(members, tab, request)
        return {}

    async def _execute_for_seat(self, tab: Tab, request: SeatsRequest) -> Result:
        """Execute a request of a student, or a teacher's request for a version of the observed seat."""
        observed = tab.shoulder.name if tab.shoulder else ""
        student = self._members.student(observed if tab.who == TEACHER else tab.who)
        room = self._members.rooms[student.seat.name[0]]
        result = await room.run(student.seat, student.execute(request))
        if isinstance(request, RunRequest):
            room.explain_waiting(student.seat)
        return result
