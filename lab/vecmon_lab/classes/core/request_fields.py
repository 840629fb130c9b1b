"""The types of a request's fields: how each is read from a message, and what is refused.

`Flag`, `Whole` and the other types annotate the fields of the classes in `requests.py`. Type checkers take them as `bool`, `int` and so
on, `read_request` calls their readers, and the schema of messages has their keys.
"""

from collections.abc import Callable, Mapping, Sequence
from dataclasses import MISSING, Field, dataclass, field, fields
from typing import Annotated, Any, Literal, NotRequired, get_args

from ...machine.lines import check_text
from ...meanings.calculation import Notation, NumberForm
from .bad_request import BadRequest
from .languages import LANGUAGES, SourceText

REQUEST_LINES, SOURCE_LETTERS, SENTENCE_LETTERS = 256, 1 << 16, 400
MAX_SLICES, MAX_STEPS = 100, 256

StepKind = Literal["into", "over", "out"]
StepUnit = Literal["instruction", "line"]
GiveKind = Literal["replace", "offer"]

JsonObject = Mapping[str, object]
Reader = Callable[[JsonObject, str], object]
"""Returns the value of a field, whose name it gets, from a message. Raises BadRequest and BadLine."""


@dataclass(frozen=True)
class Form:
    """How a field of a request is in a message.

    keys: the message's keys with the types of their values, for a field that isn't one key with its own name and type.
    """

    read: Reader
    keys: Mapping[str, Any] = field(default_factory=dict)


def _flag(message: JsonObject, name: str) -> bool:
    value = message.get(name, False)
    if not isinstance(value, bool):
        raise BadRequest(f"{name} is true or false")
    return value


def _whole(message: JsonObject, name: str) -> int:
    number = message.get(name)
    if type(number) is not int:
        raise BadRequest("sources, versions, answers, cases, messages and options have whole numbers")
    return number


def _name(message: JsonObject, name: str) -> str:
    """Return a name; "" if it is missing."""
    found = message.get(name, "")
    if not isinstance(found, str):
        raise BadRequest(f"there is no such {name}: it is a text")
    return found


def _window(message: JsonObject, name: str) -> str:
    return _name(message, name)[:40]


def _typed_text(message: JsonObject, name: str) -> str:
    """Return a part of a line."""
    text = message.get(name)
    if not isinstance(text, str):
        raise BadRequest(f"{name} is a text")
    check_text(text)
    return text


def _sentence(message: JsonObject, name: str, what: str = "a line for students") -> str:
    """Return a line of text. what: its description in a refusal."""
    text = message.get(name)
    if not isinstance(text, str) or not 0 < len(text) <= SENTENCE_LETTERS or not text.isprintable():
        raise BadRequest(f"{what} has 1 to {SENTENCE_LETTERS} characters that can be printed")
    return text


def _question(message: JsonObject, name: str) -> str:
    """Return a student's text for the teacher; "" if there is none."""
    return _sentence(message, name, "a question for the teacher") if message.get(name, "") != "" else ""


def _title(message: JsonObject, name: str) -> str:
    """Return the title of an offered source; "" if there is none, or the source isn't offered."""
    return _sentence(message, name) if message.get("how") == "offer" and message.get(name, "") != "" else ""


def _line_number(message: JsonObject, name: str) -> int:
    """Return the number of a line of a source; 0 if it is missing."""
    line = message.get(name, 0)
    if type(line) is not int or not 0 <= line <= SOURCE_LETTERS + 1:
        raise BadRequest(f"{name} is the number of a line of the source")
    return line


def _breaks(message: JsonObject, name: str) -> Sequence[int]:
    """Return the numbers of lines, each once, in rising order."""
    lines = message.get(name, [])
    if not isinstance(lines, list) or len(lines) > SOURCE_LETTERS:
        raise BadRequest(f"{name} is a list of numbers of lines")
    return tuple(sorted({_line_number({name: line}, name) for line in lines}))


def _lines(message: JsonObject, name: str) -> Sequence[str]:
    """Return a list of texts for lines; `check_lines` in requests.py reads the texts."""
    lines = message.get(name, [])
    if not isinstance(lines, list) or len(lines) > REQUEST_LINES:
        raise BadRequest(f"a request has lists of {REQUEST_LINES} lines at most")
    return lines


def _slices(message: JsonObject, name: str) -> int:
    slices = message.get(name, 0)
    if type(slices) is not int or not 0 <= slices <= MAX_SLICES:
        raise BadRequest(f"a request grants 0 to {MAX_SLICES} slices")
    return slices


def _count(message: JsonObject, name: str) -> int:
    count = message.get(name)
    if type(count) is not int or not 1 <= count <= MAX_STEPS:
        raise BadRequest(f"a request steps 1 to {MAX_STEPS} times")
    return count


def _one_of(kind: Any, refusal: str) -> Form:
    """Return the form of one of the texts of a literal type."""

    def read(message: JsonObject, name: str) -> object:
        found = [each for each in get_args(kind) if each == message.get(name)]
        if not found:
            raise BadRequest(refusal)
        return found[0]

    return Form(read)


def _choices(kind: Any) -> str:
    """The texts of a literal type, as a refusal lists them."""
    *first, last = get_args(kind)
    return f"{', '.join(first)} or {last}"


_NUMBER_FORM = _one_of(NumberForm, f"the form of numbers is {_choices(NumberForm)}")


def _notation(message: JsonObject, _: str) -> Notation:
    """Return the notation of equations; signed numbers and names such as x10 if the message doesn't say another one."""
    form: Any = _NUMBER_FORM.read(message, "form") if "form" in message else Notation.form
    return Notation(form, _flag(message, "abi"))


def _source(message: JsonObject, _: str) -> SourceText:
    """Return a source, in assembler if the message doesn't say its language."""
    language = message.get("language", 0)
    if type(language) is not int or not 0 <= language < len(LANGUAGES):
        raise BadRequest(f"languages have numbers from 0 to {len(LANGUAGES) - 1}")
    text = message.get("text")
    if not isinstance(text, str) or len(text) > SOURCE_LETTERS:
        raise BadRequest(f"a source is a text of {SOURCE_LETTERS} characters at most")
    return SourceText(text.encode("utf-8", "replace").decode(), language)


def _source_if_any(message: JsonObject, name: str) -> SourceText | None:
    return _source(message, name) if "text" in message else None


def _source_to_give(message: JsonObject, name: str) -> SourceText:
    source = _source(message, name)
    if not source.text.strip():
        raise BadRequest("the source to give is empty: type one, or copy a seat's")
    return source


def _seats(message: JsonObject, _: str) -> Sequence[str]:
    """Return names of seats, each once; none for all."""
    if "seats" not in message:
        name = _name(message, "seat")
        return [name] if name else []
    names = message["seats"]
    if "seat" in message or not isinstance(names, list) or not names or not all(type(it) is str and it for it in names):
        raise BadRequest("seats is a list of one or more names of seats, in place of seat")
    return [*dict.fromkeys(names)]


def _exercises(message: JsonObject, name: str) -> Sequence[str]:
    """Return names of exercises, each once."""
    names = message.get(name)
    if not isinstance(names, list) or not all(type(each) is str for each in names):
        raise BadRequest(f"{name} is a list of names of exercises")
    return [*dict.fromkeys(names)]


_CLOCK_LIMITS = {"slices": (1, 1000), "ms": (10, 10_000), "limit": (100_000, 10**12)}


def _clock(message: JsonObject, _: str) -> Mapping[str, int]:
    """Return those settings of a clock that the message has."""
    settings = dict[str, int]()
    if "on" in message:
        settings["on"] = _flag(message, "on")
    for name, (minimum, maximum) in _CLOCK_LIMITS.items():
        value = message.get(name, minimum)
        if type(value) is not int or not minimum <= value <= maximum:
            raise BadRequest(f"{name} of the clock is {minimum} to {maximum}")
        if name in message:
            settings[name] = value
    return settings


_SOURCE_KEYS = {"text": str, "language": NotRequired[int]}

Flag = Annotated[bool, Form(_flag)]
Whole = Annotated[int, Form(_whole)]
WholeIfAny = Annotated[int | None, Form(_whole)]
Name = Annotated[str, Form(_name)]
WindowName = Annotated[str, Form(_window)]
TypedText = Annotated[str, Form(_typed_text)]
Sentence = Annotated[str, Form(_sentence)]
Question = Annotated[str, Form(_question)]
Title = Annotated[str, Form(_title)]
LineNumber = Annotated[int, Form(_line_number)]
LineNumbers = Annotated[Sequence[int], Form(_breaks)]
LineTexts = Annotated[Sequence[str], Form(_lines)]
Slices = Annotated[int, Form(_slices)]
StepCount = Annotated[int, Form(_count)]
OneStepKind = Annotated[StepKind, _one_of(StepKind, f"the kind of a step is {_choices(StepKind)}")]
OneStepUnit = Annotated[StepUnit, _one_of(StepUnit, "a step is by instruction or by line")]
OneGiveKind = Annotated[GiveKind, _one_of(GiveKind, f"a source is given as {_choices(GiveKind)}")]
ExerciseNames = Annotated[Sequence[str], Form(_exercises)]
SeatNames = Annotated[Sequence[str], Form(_seats, {"seat": NotRequired[str], "seats": NotRequired[list[str]]})]
NotationFields = Annotated[Notation, Form(_notation, {"form": NotRequired[NumberForm], "abi": NotRequired[bool]})]
SourceFields = Annotated[SourceText, Form(_source, _SOURCE_KEYS)]
SourceToGive = Annotated[SourceText, Form(_source_to_give, _SOURCE_KEYS)]
SourceIfAny = Annotated[
    SourceText | None, Form(_source_if_any, {"text": NotRequired[str], "language": NotRequired[int]})
]
ClockFields = Annotated[
    Mapping[str, int],
    Form(
        _clock,
        {"on": NotRequired[bool], "slices": NotRequired[int], "ms": NotRequired[int], "limit": NotRequired[int]},
    ),
]


def read_fields(kind: type[Any], message: JsonObject) -> dict[str, object]:
    """Return the values of a request's fields by name, in their order. Raises BadRequest and BadLine.

    A field with a default has it if the message has none of the field's keys.
    """
    values = dict[str, object]()
    for each in fields(kind):
        form = form_of(each)
        if each.default is MISSING or message.keys() & (form.keys or {each.name}):
            values[each.name] = form.read(message, each.name)
    return values


def form_of(each: Field[Any]) -> Form:
    """Return how a field of a request is in a message."""
    form: Form = get_args(each.type)[1]
    return form
