"""The requests of a tab (docs/CLASS_PROTOCOL.md): each is a class, whose fields have the names and the checks of the message's.

The schema of messages, their declarations for pages and the table of requests in CLASS_PROTOCOL are generated from these classes.
"""

from collections.abc import Callable, Mapping
from dataclasses import dataclass, field
from typing import Any, Literal, TypeVar

from ...machine.lines import check_text, is_look
from ...meanings.calculation import Notation
from .bad_request import BadRequest
from .live import is_servers
from .request_fields import (
    REQUEST_LINES,
    ClockFields,
    ExerciseNames,
    Flag,
    JsonObject,
    LineNumber,
    LineNumbers,
    LineTexts,
    Name,
    NotationFields,
    OneGiveKind,
    OneStepKind,
    OneStepUnit,
    Question,
    SeatNames,
    Sentence,
    Slices,
    SourceFields,
    SourceIfAny,
    SourceToGive,
    StepCount,
    Title,
    TypedText,
    Whole,
    WholeIfAny,
    WindowName,
    read_fields,
)

Sender = Literal["student", "teacher", "both"]


class Request:
    """A request of a tab."""


class SeatsRequest(Request):
    """A request that `Student.execute` executes. `LinesRequest` isn't one, since the operator sends lines as well."""


OneRequest = TypeVar("OneRequest", bound=Request)


@dataclass(frozen=True)
class Kind:
    """The parts of a request's messages besides its fields, and of its row in CLASS_PROTOCOL."""

    sender: Sender
    ask: str
    """The name of the request."""
    example: Mapping[str, object]
    """The fields of an example."""
    response: str
    """The response's fields, in the notation of Markdown."""
    check: Callable[[Any], None] | None
    """A check of several fields."""


KINDS: dict[type[Request], Kind] = {}
"""The kind of each class of requests."""


def _request(
    sender: Sender,
    ask: str,
    example: Mapping[str, object],
    response: str = "",
    check: Callable[[Any], None] | None = None,
) -> Callable[[type[OneRequest]], type[OneRequest]]:
    """Return a decorator that makes a class a kind of request."""

    def add(request: type[OneRequest]) -> type[OneRequest]:
        KINDS[request] = Kind(sender, ask, example, response, check)
        return request

    return add


def _check_lines(request: "LinesRequest") -> None:
    """Check the texts of lines. Raises BadRequest and BadLine."""
    if len(request.do) + len(request.look) > REQUEST_LINES:
        raise BadRequest(f"a request has lists of {REQUEST_LINES} lines at most")
    for text in (*request.do, *request.look):
        check_text(text)
    for text in request.do:
        if is_servers(f"1 {text}"):
            raise BadRequest(f"{text!r} with a space at its end is the server's own line")
    user = "*" if isinstance(request, MachineLinesRequest) else "1"
    for text in request.look:
        if not is_look(f"{user} {text}"):
            raise BadRequest(f"{text[:40]!r} isn't a line that only looks")


_SOURCE = {"text": "...", "language": 1}
_AS_FOR_SOURCE = "as for `source`"


@_request(
    "student",
    "lines",
    {"do": ["set x10 1f", "step 1"], "slices": 0, "look": ["peek 20000 16"]},
    '`"do": [["ok"], ["stepped 1 pc=..."]], "look": [["peek ..."]]`',
    _check_lines,
)
@dataclass(frozen=True)
class LinesRequest(Request):
    """Execute lines, grant slices to the student's own program, then execute read-only lines."""

    do: LineTexts = ()
    """Lines without digits."""
    look: LineTexts = ()
    """Lines that only look."""
    slices: Slices = 0
    """A number from 0 to 100."""


@_request("teacher", "lines", {"machine": "A", "do": ["slices 10"], "look": ["list"]}, "as for a student", _check_lines)
@dataclass(frozen=True)
class MachineLinesRequest(LinesRequest):
    """Execute the teacher's lines at a machine."""

    machine: Name = field(kw_only=True)


@_request(
    "student",
    "source",
    {**_SOURCE, "number": 4},
    '`"mistakes": [...]`, or empty; `"warnings"` of a compiler, likewise',
)
@dataclass(frozen=True)
class SourceRequest(SeatsRequest):
    """Write a source into a new machine."""

    source: SourceFields
    number: Whole = -1
    """The number of the seat's source when this one was typed. If it is missing or has changed, the seat's becomes a version first."""
    breaks: LineNumbers = ()
    """The numbers of lines that get breakpoints once the program is loaded."""


@_request("student", "again", {}, _AS_FOR_SOURCE)
@dataclass(frozen=True)
class AgainRequest(SeatsRequest):
    """Write the loaded source into a new machine, with the breakpoints, and with the case that is tried."""


@_request("student", "problems", _SOURCE, _AS_FOR_SOURCE)
@dataclass(frozen=True)
class ProblemsRequest(SeatsRequest):
    """Find the problems of a source. Nothing changes."""

    source: SourceFields


@_request("student", "run", {**_SOURCE, "number": 4}, _AS_FOR_SOURCE)
@dataclass(frozen=True)
class RunRequest(SeatsRequest):
    """Run a program: that of the source, which is built unless it is loaded, or the loaded one. One that has ended starts again."""

    number: Whole = -1
    """As in `source`."""
    source: SourceIfAny = None
    breaks: LineNumbers = ()
    """As in `source`."""


@_request("student", "step", {**_SOURCE, "number": 4, "kind": "over", "by": "line", "count": 10}, _AS_FOR_SOURCE)
@dataclass(frozen=True)
class StepRequest(SeatsRequest):
    """Step a program: that of the source, which is built unless it is loaded, or the loaded one."""

    kind: OneStepKind = "into"
    """Into calls, the default, over them, or out of a function."""
    by: OneStepUnit = "instruction"
    """By instructions, the default, or by lines of the source."""
    count: StepCount = 1
    """The number of steps: 1 to 256, 1 by default."""
    number: Whole = -1
    """As in `source`."""
    source: SourceIfAny = None
    breaks: LineNumbers = ()
    """As in `source`."""
    until: LineNumber = 0
    """The number of a line: the program is stepped by lines, into calls, until that line is next, through 1,000 lines at most."""


@_request("student", "edit", {"edit": "vset v1 32 3 signed", "text": "-5", "decimal": True})
@dataclass(frozen=True)
class EditRequest(SeatsRequest):
    """Write a typed value to a place in the machine."""

    edit: TypedText
    """`setpc`, `poke 20000`, `set x5`, or `vset v1 32 3 signed`: register, bits of an element (1 in a mask), index, and the shown form."""
    text: TypedText
    """The value as it was typed."""
    decimal: Flag = False
    """Whether the page shows scalar registers in decimal."""


@_request("student", "breakpoint", {"line": 7})
@dataclass(frozen=True)
class BreakpointRequest(SeatsRequest):
    """Set all breakpoints of a line of the loaded source, or remove those that are there. None is set if not all can be."""

    line: LineNumber
    """Its number. A line without instructions has the breakpoints of the next line with one."""
    set: Flag = False
    """Whether breakpoints that are there stay."""


@_request(
    "both",
    "past",
    {"at": 41},
    "`number` of the history; `moment`, missing if it is the present; or `percent` of the replay, which the same request continues",
)
@dataclass(frozen=True)
class PastRequest(SeatsRequest):
    """Find an earlier state of the program."""

    at: Whole
    """The number of instructions since the machine began. A negative number counts from the present."""
    to_break: Flag = False
    """Whether to find the next state after that one at a breakpoint."""


@_request("student", "last-instruction", {})
@dataclass(frozen=True)
class LastInstructionRequest(SeatsRequest):
    """Complete `read` and `accessed` of the state after a run."""


@_request("student", "why", {"name": "v8[5]"}, '`"why"`: the sentence')
@dataclass(frozen=True)
class WhyRequest(SeatsRequest):
    """Explain why a register or an element has its value after the last single step.

    `form` is that of numbers in the sentence, by default `signed`. With `abi` scalar registers have names such as `a0` in place of `x10`.
    """

    name: Name
    """A name such as `x5` or `v8[5]`."""
    notation: NotationFields = Notation()


@_request("student", "listings", {**_SOURCE, "other": 4}, '`"listings": "TICKET"`')
@dataclass(frozen=True)
class ListingsRequest(Request):
    """Compare the listing of a C source with that of another compiler."""

    source: SourceFields
    other: Whole
    """The other compiler by its number in `against`."""


@_request(
    "student", "draft", {"text": "...", "language": 0, "number": 4, "exercise": "doubles", "keep": False, "line": 7}
)
@dataclass(frozen=True)
class DraftRequest(SeatsRequest):
    """Store the source that a student types: as the seat's source if number and exercise are still the seat's, else as a version."""

    source: SourceFields
    number: Whole
    """The number of the seat's source when this one was typed."""
    exercise: Name = ""
    """The exercise for which it was typed, by default the open one."""
    keep: Flag = False
    """Whether it becomes a version as well."""
    line: LineNumber = 0
    """The number of the caret's line, for the teacher."""
    window: WindowName = ""
    """A name of the window, if another window has changed the source. With a number that the source doesn't have, the text becomes one
    version, which later drafts by this name replace. With the source's number it becomes the source, and the one there a version."""


@_request("student", "open", {"number": 4})
@dataclass(frozen=True)
class OpenOfferRequest(Request):
    """Replace the source by one that the teacher offers, as `give` does, and mark the message as opened and read."""

    number: Whole
    """The number of the message."""


@_request("student", "open", {"exercise": "doubles"})
@dataclass(frozen=True)
class OpenRequest(SeatsRequest):
    """Open an exercise in all tabs of the seat."""

    exercise: Name
    """Its name. In the playground, "" opens the program outside the exercises."""


@_request("both", "version", {"number": 17}, '`"text": "...", "language": 0`')
@dataclass(frozen=True)
class VersionRequest(SeatsRequest):
    """Return a version of the source of the own or the observed seat."""

    number: Whole


@_request(
    "student", "check", {"exercise": "doubles", **_SOURCE}, "at once; the result comes in `exercises` of the view"
)
@dataclass(frozen=True)
class CheckRequest(SeatsRequest):
    """Check an answer to an exercise. Each seat has one check at a time."""

    exercise: Name
    source: SourceFields


@_request("student", "case", {"exercise": "doubles", "case": 1, **_SOURCE}, _AS_FOR_SOURCE)
@dataclass(frozen=True, kw_only=True)
class CaseRequest(SeatsRequest):
    """Write a source into a new machine with the inputs of a case that isn't hidden."""

    case: WholeIfAny = None
    """Its place in `cases`, from 0 on; by default the first failed one."""
    exercise: Name
    source: SourceFields
    breaks: LineNumbers = ()
    """As in `source`."""


@_request(
    "both",
    "answer",
    {"seat": "A3", "exercise": "doubles", "number": 2},
    '`"text": "...", "language": 1`, and `"told"`: the result of its check',
)
@dataclass(frozen=True, kw_only=True)
class TryRequest(Request):
    """Return a try of a seat at an exercise."""

    seat: Name = ""
    """The seat. A student's own seat without it."""
    exercise: Name
    number: Whole
    """The number of the try, from 1 on."""


@_request("both", "name", {"seat": "A3", "name": "Ada"})
@dataclass(frozen=True, kw_only=True)
class NameRequest(Request):
    """Set the name of the student at a seat."""

    seat: Name = ""
    """The seat. A student's own seat without it."""
    name: Name
    """The name; "" for none."""


@_request("student", "hand", {"up": True, "text": "..."})
@dataclass(frozen=True, kw_only=True)
class HandRequest(Request):
    """Raise or lower the student's hand."""

    text: Question = ""
    """A question for the teacher, of at most 400 characters."""
    up: Flag


@_request("teacher", "hand", {"seat": "A3"})
@dataclass(frozen=True)
class LowerHandRequest(Request):
    """Lower a seat's hand."""

    seat: Name


@_request("student", "read", {"number": 4})
@dataclass(frozen=True)
class ReadRequest(Request):
    """Mark a message of the teacher as read."""

    number: Whole


@_request(
    "teacher",
    "give",
    {"seats": ["A3", "A4"], "how": "replace", "text": "...", "language": 0},
    '`"replaced": 3`: seats that had another text; 0 for an offer',
)
@dataclass(frozen=True)
class GiveRequest(Request):
    """Give a source, which isn't blank, to seats: `seat` is one, or "" for all, and `seats` a list of one or more in place of it."""

    seats: SeatNames
    source: SourceToGive
    how: OneGiveKind = "replace"
    """Whether it replaces the sources of the seats, the default, or is offered in a message."""
    title: Title = ""
    """The title of an offer, of at most 400 characters."""


@_request("teacher", "take-back", {"seats": ["A3"]}, '`"replaced": 3`: restored seats')
@dataclass(frozen=True)
class TakeBackRequest(Request):
    """Restore the sources that seats had before the last one given, unless they were changed since. Seats are named as in `give`."""

    seats: SeatNames


@_request("teacher", "write", {"seats": ["A3", "A4"], "text": "..."})
@dataclass(frozen=True)
class WriteRequest(Request):
    """Send a message to seats, which are named as in `give`."""

    seats: SeatNames
    text: Sentence
    """1 to 400 characters."""


@_request("teacher", "unsend", {"number": 4}, '`"read": ["A3"]`: seats that have read it, and keep it')
@dataclass(frozen=True)
class UnsendRequest(Request):
    """Take a message back from the seats that haven't read it."""

    number: Whole


@_request("teacher", "exercises", {"on": ["doubles", "filter"]})
@dataclass(frozen=True)
class ExercisesRequest(Request):
    """Choose the exercises that students have from now on, out of those in `course`."""

    on: ExerciseNames
    """Their names, in order. Others are off."""


@_request("teacher", "reset", {"seat": "A3"})
@dataclass(frozen=True)
class ResetRequest(Request):
    """End a seat's machine, by `leave`."""

    seat: Name


@_request("teacher", "clock", {"machine": "A", "on": True, "slices": 1000, "ms": 30, "limit": 50_000_000})
@dataclass(frozen=True)
class ClockRequest(Request):
    """Set a machine's clock. Settings that are missing stay.

    It grants 1 to 1,000 `slices` at once, and waits 10 to 10,000 `ms` before. The server stops a program after about `limit` ticks
    without a stop, 100,000 to 10^12.
    """

    machine: Name
    settings: ClockFields


@_request("teacher", "rights", {"machine": "A", "own_slices": False})
@dataclass(frozen=True)
class RightsRequest(Request):
    """Set whether a machine's students may grant slices to their own programs."""

    machine: Name
    own_slices: Flag


@_request("teacher", "renew", {"seat": "A3"}, '`"codes": {"A3": "..."}`')
@dataclass(frozen=True)
class RenewRequest(Request):
    """Replace the code of a seat, or of `wall`."""

    seat: Name


@_request("teacher", "shoulder", {"seat": "A3"}, "`logs` has the seat's log, and news follow")
@dataclass(frozen=True)
class ShoulderRequest(Request):
    """Look over the shoulder of a seat."""

    seat: Name
    """The seat; "" ends it."""


@_request("teacher", "wall", {"seat": "A3"})
@dataclass(frozen=True)
class WallRequest(Request):
    """Show a seat on the wall."""

    seat: Name
    """The seat; "" for none."""


@_request(
    "teacher",
    "codes",
    {"seat": "A3", "pictures": True},
    '`"codes": {"A3": "..."}`, and `"pictures": {"A3": "data:image/svg+xml..."}`, '
    'with that of the address alone as `""`; only with an `address`',
)
@dataclass(frozen=True)
class CodesRequest(Request):
    """Return the code of a seat or of `wall`."""

    seat: Name
    """The seat; "" for all but the teacher's."""
    pictures: Flag = False
    """Whether to add pictures to print."""


@dataclass(frozen=True)
class Settings:
    """Of a clock: whether it is on, how many slices it grants at once, and how many milliseconds it waits before.

    limit: the ticks that a program has without a stop, about; then the server stops it
    """

    on: bool = True
    slices: int = 1000
    ms: int = 30
    limit: int = 50_000_000


def _kinds_of(sender: Sender) -> Mapping[str, type[Request]]:
    """The classes of a sender's requests by their names in messages; of `open` the one without an offer."""
    own = (sender, "both")
    return {kind.ask: each for each, kind in KINDS.items() if kind.sender in own and each is not OpenOfferRequest}


_OF_STUDENTS, _OF_TEACHERS = _kinds_of("student"), _kinds_of("teacher")


def read_request(message: JsonObject, is_teacher: bool) -> Request:
    """Return the request of a message that a teacher or a student sends. Raises BadRequest and BadLine."""
    ask, kinds = message.get("ask"), _OF_TEACHERS if is_teacher else _OF_STUDENTS
    if not isinstance(ask, str) or ask not in kinds:
        raise BadRequest("there is no such request for this seat")
    kind = kinds[ask]
    if kind is OpenRequest and "number" in message:
        kind = OpenOfferRequest
    make: Callable[..., Request] = kind
    request = make(**read_fields(kind, message))
    if (check := KINDS[kind].check) is not None:
        check(request)
    return request
