"""Messages to pages of a class (docs/CLASS_PROTOCOL.md): responses to requests, and news."""

import json
from collections.abc import Mapping, Sequence
from typing import Literal, NotRequired, TypedDict, TypeVar, cast

from ...assembler.commands import refusal_on_pages
from ...assembler.mistakes import Mistake
from ...assembler.source import LineType
from ...exercises.check import CheckResult
from ...page.build.pages import merge_patch
from ...page.state import State
from .moments import PastResult
from .bad_request import BadRequest
from .request_fields import JsonObject
from .seats import Seat
from .shared_machine import Answers
from .sources import SeatSource, Version

Logs = dict[str, list[str]]


class VersionView(Version):
    """A version on a page. title: of its exercise, or the exercise's name where its title is unknown; "" for none"""

    title: str


class SourceView(TypedDict):
    """The source of a seat.

    language: the number of its language; number: of changes since the server started
    exercise: the open one, or ""; `stands`: whether the machine has this source; versions: the last 50, in order
    own_program: in the playground, whether there is a program that belongs to no exercise
    given: whether the teacher has put the text there
    """

    text: str
    language: int
    number: int
    exercise: str
    stands: bool
    versions: list[VersionView]
    own_program: NotRequired[bool]
    given: NotRequired[bool]


class Offer(TypedDict):
    """A source that the teacher offers: a title, which may be empty, its text, and the number of its language."""

    title: str
    text: str
    language: int


class Notice(TypedDict):
    """A message of the teacher's to a seat: a text or an offer. time: in seconds since 1970; read: whether the student has read it"""

    time: int
    text: NotRequired[str]
    offer: NotRequired[Offer]
    read: bool


class SentNotice(TypedDict):
    """A message of the teacher's: a text or an offer. time: in seconds since 1970

    to, read, opened: the seats that have it, those that have read it, and those that have opened its source
    """

    time: int
    text: NotRequired[str]
    offer: NotRequired[Offer]
    to: list[str]
    read: list[str]
    opened: list[str]


class Hand(TypedDict):
    """A raised hand: since when it is up, in seconds since 1970, and the student's text, which may be empty."""

    since: int
    text: str


class Changes(TypedDict):
    """The changes of a tab: a merge patch (RFC 7396) of its view, and new entries of logs by the name of their seat."""

    patch: NotRequired[dict[str, object]]
    logs: NotRequired[Logs]


class Hello(Changes):
    """The first message to a tab. who: the seat, `teacher` or `wall`; time: in seconds since 1970

    resumed: whether the server knows the page, so that requests that are sent again are executed once; missing if it doesn't
    """

    kind: Literal["hello"]
    who: str
    time: float
    resumed: NotRequired[bool]


class Beat(TypedDict):
    """The response to `{"ask":"beat"}`."""

    kind: Literal["beat"]


class News(Changes):
    """Changes without a request."""

    kind: Literal["news"]


class NoResult(TypedDict):
    """The result of a request that returns nothing."""


class LinesResult(TypedDict):
    """The answers to executed lines and to read-only ones.

    words: for each line of `do` the explanation of its refusal; an empty text without one
    """

    do: Answers
    look: Answers
    words: NotRequired[list[str]]


class SourceResult(TypedDict):
    """The mistakes of a source that goes into a new machine, and a compiler's warnings."""

    mistakes: list[Mistake]
    warnings: list[Mistake]


class ProblemsResult(SourceResult):
    """The mistakes of a source, and the vector types at its lines; none of one that a compiler takes."""

    types: Sequence[LineType]


class TextResult(TypedDict):
    """A source: its text, and the number of its language."""

    text: str
    language: int


class TryResult(TextResult):
    """The source of a try at an exercise, and the result of its check."""

    told: CheckResult


class ListingsResult(TypedDict):
    """The ticket of side-by-side listings."""

    listings: str


class ReplacedResult(TypedDict):
    """The number of seats whose source was replaced."""

    replaced: int


class UnsentResult(TypedDict):
    """The seats that had read a message which was taken back from the others."""

    read: list[str]


class WhyResult(TypedDict):
    """The sentence why a register or an element has its value."""

    why: str


class CodesResult(TypedDict):
    """Codes by seat.

    pictures: QR codes for a sheet to print, by seat; by "" that of the address without a code
    """

    codes: dict[str, str]
    pictures: NotRequired[dict[str, str]]


class Refusal(TypedDict):
    """The reason why a request was refused.

    done, words: the answers to lines that were executed before, and explanations as in `LinesResult`
    """

    error: str
    done: Answers
    words: NotRequired[list[str]]


Result = (
    NoResult
    | LinesResult
    | SourceResult
    | ProblemsResult
    | TextResult
    | TryResult
    | ListingsResult
    | ReplacedResult
    | UnsentResult
    | WhyResult
    | PastResult
    | CodesResult
    | Refusal
)


class ResponseHead(Changes):
    """The response to the request of this number. Pages know it by the kind `answer`."""

    kind: Literal["answer"]
    id: int


class EmptyResponse(ResponseHead, NoResult):
    """The response to a request that returns nothing."""


class LinesResponse(ResponseHead, LinesResult):
    """The response to lines."""


class SourceResponse(ResponseHead, SourceResult):
    """The response to `source`, `again`, `case`, `run` and `step`."""


class ProblemsResponse(ResponseHead, ProblemsResult):
    """The response to `problems`."""


class TextResponse(ResponseHead, TextResult):
    """The response to `version`."""


class TryResponse(ResponseHead, TryResult):
    """The response to `answer`."""


class ListingsResponse(ResponseHead, ListingsResult):
    """The response to `listings`."""


class ReplacedResponse(ResponseHead, ReplacedResult):
    """The response to `give` and `take-back`."""


class UnsentResponse(ResponseHead, UnsentResult):
    """The response to `unsend`."""


class WhyResponse(ResponseHead, WhyResult):
    """The response to `why`."""


class PastResponse(ResponseHead, PastResult):
    """The response to `past`."""


class CodesResponse(ResponseHead, CodesResult):
    """The response to `codes` and `renew`."""


class RefusedResponse(ResponseHead, Refusal):
    """The response to a request that was refused."""


Response = (
    EmptyResponse
    | LinesResponse
    | SourceResponse
    | ProblemsResponse
    | TextResponse
    | TryResponse
    | ListingsResponse
    | ReplacedResponse
    | UnsentResponse
    | WhyResponse
    | PastResponse
    | CodesResponse
    | RefusedResponse
)
Message = Hello | News | Beat | Response

WithChanges = TypeVar("WithChanges", Hello, News)


class Updates:
    """The state of a page by the messages that it got: its view, and the number of entries of each log."""

    def __init__(self) -> None:
        self.view: Mapping[str, object] = {}
        self.since: dict[str, int] = {}

    def news(self, view: Mapping[str, object], seats: Sequence[Seat]) -> Changes:
        """Return the changes since the last message: a patch of the view, and new entries of the logs of seats."""
        patch, self.view = merge_patch(self.view, view), view
        news: Changes = {"patch": patch} if patch else {}
        logs = Logs()
        for seat in seats:
            if new := seat.log.since(self.since.get(seat.name, 0)):
                logs[seat.name] = new
            self.since[seat.name] = seat.log.count
        if logs:
            news["logs"] = logs
        return news


def request_of(text: str) -> tuple[int, JsonObject]:
    """Parse a request; return its number and its object. Raises BadRequest and ValueError."""
    message = json.loads(text)
    if not isinstance(message, dict) or type(message.get("id")) is not int:
        raise BadRequest("a request is an object with a whole number as id")
    return message["id"], message


def with_changes(message: WithChanges, changes: Changes) -> WithChanges:
    """Return a greeting or news with these changes."""
    return cast(WithChanges, {**message, **changes})


def response_to(number: int, result: Result, changes: Changes) -> Response:
    """Return the response to the request of a number. For each type of `Result` there is one of `Response` with its fields."""
    return cast(Response, {"kind": "answer", "id": number, **result, **changes})


def explain_refusals(result: Result, digit: str, request: JsonObject, done: Answers) -> Result:
    """Add the meaning of each refusal to a result, if lines of a request were done."""
    lines = request.get("do")
    if not done or not isinstance(lines, list):  # the answers are those to the first of these lines
        return result
    answers = [[f"{digit} {part}" for part in parts] for parts in done]
    words = [refusal_on_pages(f"{digit} {line}", said) for line, said in zip(lines, answers)]
    return cast(Result, {**result, "words": words})


def source_view(source: SeatSource, seat: Seat, titles: Mapping[str, str]) -> SourceView:
    """Return the source of a seat, for pages. titles: of exercises, by name"""
    versions: list[dict[str, object]] = [
        {**each, "title": titles.get(each["exercise"], each["exercise"])} for each in source.versions
    ]
    view: SourceView = {
        "text": source.own.text,
        "language": source.own.language,
        "number": source.number,
        "exercise": source.exercise,
        "stands": source.own == seat.loaded.source,
        "versions": cast(list[VersionView], versions),
    }
    if source.is_given:
        view["given"] = True
    if source.has_free_program:
        view["own_program"] = bool(source.free_program.text)
    return view


def shown(seat: Seat) -> State:
    """Return a seat's state as pages show it."""
    shown = cast(State, {**seat.display.shown, **seat.loaded.names})
    if seat.execution.output:
        shown["outputs"] = seat.execution.output
    return shown
