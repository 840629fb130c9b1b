"""Macros of a source: their parameters, the arguments of a call, and the statements to which a call expands."""

import re
from collections.abc import Callable, Iterator, Mapping, Sequence
from dataclasses import dataclass

from .line import Line, Place

MAX_CHARACTERS = 10_000  # characters of a statement with its arguments
_NAME = r"[A-Za-z_.$][\w.$]*"
_QUOTED = r'"(?:[^"\\]|\\.)*"'
_PARAMETER = re.compile(rf"[\s,]*({_NAME})(?:\s*:\s*(\w+))?(?:\s*=\s*({_QUOTED}|[^\s,]*))?", re.ASCII)
_ARGUMENT = re.compile(rf"{_QUOTED}|'(?:\\.|[^\\])'?|\s*[-+*/%<>=&|^~!(]\s*|\s+(?=\))|[^\s,]", re.ASCII)
_KEYWORD = re.compile(rf"({_NAME})\s*=(?!=)\s*", re.ASCII)
_HOLE = re.compile(rf"\\(?:(@)|(\(\))|({_NAME}))", re.ASCII)


@dataclass(frozen=True)
class Parameter:
    """A parameter of a macro.

    default: the text that the parameter has if a call doesn't give an argument for it; None for an empty text
    is_required: whether a call must give an argument for it
    takes_rest: whether it takes the whole rest of a call's text
    """

    name: str
    default: Line | None = None
    is_required: bool = False
    takes_rest: bool = False


@dataclass(frozen=True)
class Macro:
    """A macro: its name, its parameters, and the statements between .macro and .endm."""

    name: str
    parameters: Sequence[Parameter]
    body: Sequence[Line]

    def arguments(self, line: Line, start: int, end: int) -> dict[str, Line]:
        """Return the text that a call gives to each parameter, by the parameter's name. Raises SourceError.

        line: the statement with the call; start, end: where the macro's name starts and ends in it, as indices
        """
        given: dict[str, Line] = {}
        positions = iter(self.parameters)
        text, by_name = line.text.rstrip(), {each.name: each for each in self.parameters}
        at = len(text) - len(text[end:].lstrip())
        while at < len(text):
            keyword = _KEYWORD.match(text, at)
            if keyword and keyword[1] in by_name:
                parameter, at = by_name[keyword[1]], keyword.end()
            elif (next_one := next(positions, None)) is None:
                raise line.error(at, f"{self.name} takes {len(self.parameters)} arguments, and this is one more")
            else:
                parameter = next_one
            stop = len(text) if parameter.takes_rest else _argument_end(text, at)
            given[parameter.name] = unquoted(line.part(at, stop))
            at = _skip_separator(text, stop)
        for parameter in self.parameters:
            if parameter.is_required and not given.get(parameter.name, line.part(end, end)).text:
                raise line.error(start, f"{self.name} needs a value for its argument {parameter.name}")
            if parameter.default and not given.get(parameter.name, line.part(end, end)).text:
                given[parameter.name] = parameter.default
            given.setdefault(parameter.name, line.part(end, end))
        return given


def read_parameters(line: Line, start: int) -> list[Parameter]:
    """Return the parameters of a macro. Raises SourceError.

    line: the statement with .macro; start: the index in it at which the parameters begin
    """
    parameters, at, text = list[Parameter](), start, line.text.rstrip()
    while at < len(text):
        match = _PARAMETER.match(text, at)
        if match is None or match[2] not in (None, "req", "vararg"):
            start = len(text) - len(text[at:].lstrip(" \t,"))
            message = "a parameter is a name, and after it :req, :vararg or = and a text, as size=4"
            if rars := re.compile(rf"\(?\s*%({_NAME})", re.ASCII).match(text, start):
                message = (
                    f"a parameter has no % or parentheses: write {rars[1]} here, and \\{rars[1]} in the macro's lines"
                )
            raise line.error(start, message)
        default = unquoted(line.part(match.start(3), match.end(3))) if match[3] else None
        parameters.append(Parameter(match[1], default, match[2] == "req", match[2] == "vararg"))
        at = match.end()
    return parameters


def separate_arguments(line: Line, start: int) -> list[Line]:
    """Return the arguments in a statement from an index on. Commas or spaces separate arguments."""
    found, at = list[Line](), _skip_separator(line.text, start)
    while at < len(line.text):
        stop = _argument_end(line.text, at)
        found.append(unquoted(line.part(at, stop)))
        at = _skip_separator(line.text, stop)
    return found


def _skip_separator(text: str, at: int) -> int:
    """Return the index after spaces, which may have one comma among them."""
    match = re.compile(r"\s*,?\s*").match(text, at)
    return match.end() if match else at


def _argument_end(text: str, start: int) -> int:
    """Return the index after the argument that starts at an index of a text.

    A comma ends an argument. A space ends it as well, unless the space is next to an operator.
    """
    end = start
    while match := _ARGUMENT.match(text, end):
        end = match.end()
    return len(text[:end].rstrip()) if end > start else start + 1 if text[start : start + 1] not in (",", "") else start


def unquoted(line: Line) -> Line:
    """Return a text without the quotation marks around it, if it has them."""
    return line.part(1, len(line.text) - 1) if re.fullmatch(_QUOTED, line.text) else line


def with_arguments(line: Line, arguments: Mapping[str, Line], count: int | None) -> Line:
    r"""Return a statement in which each \NAME of an argument is replaced with the argument's text. Raises SourceError.

    arguments: the text of each argument, by name; count: the number that replaces \@; None to leave \@ unchanged
    """
    if "\\" not in line.text:
        return line
    text, places, at = list[str](), list[Place](), 0
    for match in _HOLE.finditer(line.text):
        if match[1] and count is None:
            continue
        value = _value_of(line, match, arguments, count)
        if value is None:
            continue
        text += [line.text[at : match.start()], value.text]
        places += [line.place(index) for index in range(at, match.start())]
        places += [value.place(index) for index in range(len(value.text))]
        at = match.end()
    text.append(line.text[at:])
    places += [line.place(index) for index in range(at, len(line.text))]
    if len(places) > MAX_CHARACTERS:
        raise line.error(0, f"this statement has more than {MAX_CHARACTERS:,} characters with its arguments")
    return line._replace(text="".join(text), places=places or [line.place(0)])


def _value_of(line: Line, match: re.Match[str], arguments: Mapping[str, Line], count: int | None) -> Line | None:
    """Return the text that replaces a match of _HOLE in a line; None if the match doesn't name an argument.

    Raises SourceError if the name is an argument's name up to a dot, since the dot belongs to the name.

    arguments, count: as in `with_arguments`
    """
    if match[1] or match[2]:
        here = [line.place(match.start())] * 20
        return Line(f"{count}" if match[1] else "", line.number, places=here)
    name, dot, rest = match[3].partition(".")
    if match[3] not in arguments and dot and name in arguments:
        problem = f"there is no argument {match[3]}, and a dot belongs to a name: write \\{name}\\().{rest}"
        raise line.error(match.start(), problem)
    return arguments.get(match[3])


def called(macro: Macro, line: Line, start: int, end: int, count: int) -> Iterator[Callable[[], Line]]:
    """Yield a function for each statement to which a call expands. The function returns the statement, or raises SourceError.

    line: the statement with the call; start, end: where the macro's name starts and ends in it, as indices
    count: the number that replaces \\@
    """
    arguments = macro.arguments(line, start, end)
    within = (f"in macro {macro.name}, called in line {line.place(start)[0]}", *line.within)
    column = line.column if line.places else line.place(start)[1]

    def make(each: Line) -> Line:
        places = each.places or [each.place(index) for index in range(len(each.text) + 1)]
        own = each._replace(number=line.number, column=column, places=places, within=within)
        return with_arguments(own, arguments, count)

    for each in macro.body:
        yield lambda each=each: make(each)  # type: ignore[misc]
