"""The arguments of a client's requests, with the names of the Debug Adapter Protocol in Python's style: `frame_id` for `frameId`.

Unknown arguments are ignored, since clients add their own.
"""

import dataclasses
import re
from collections.abc import Sequence
from dataclasses import dataclass
from types import UnionType
from typing import Any, Literal, TypeVar, get_args, get_origin, get_type_hints

from .. import LabError

Arguments = TypeVar("Arguments")
Granularity = Literal["statement", "line", "instruction"]


class BadArguments(LabError):
    """A request lacks an argument, or an argument has another type than the protocol says."""


@dataclass(frozen=True)
class NoArguments:
    """Arguments of requests that need none."""


@dataclass(frozen=True)
class Initialize:
    """The abilities of the client, and whether it counts lines and columns from 1 or from 0."""

    lines_start_at_1: bool = True
    columns_start_at_1: bool = True
    supports_progress_reporting: bool = False
    supports_invalidated_event: bool = False
    supports_memory_event: bool = False


@dataclass(frozen=True)
class Launch:
    """The program to debug. The documentation of each argument is in docs/EDITORS.md."""

    program: str
    args: tuple[str, ...] = ()
    input: str | None = None
    policy: Literal["keep", "ones"] = "keep"
    compiler: str | None = None
    options: str | None = None
    any_vlen: bool = False
    stop_on_entry: bool = False
    stop_on_exit: bool = True
    no_debug: bool = False


@dataclass(frozen=True)
class Source:
    """A source file. path: its path, or "" if the client sends only the name"""

    path: str = ""
    name: str = ""


@dataclass(frozen=True)
class SourceBreakpoint:
    """A breakpoint at a line of a source. line: the number of the line, as the client counts"""

    line: int
    condition: str = ""
    hit_condition: str = ""
    log_message: str = ""


@dataclass(frozen=True)
class SetBreakpoints:
    """The breakpoints of a source, which replace all earlier ones."""

    source: Source
    breakpoints: tuple[SourceBreakpoint, ...] = ()


@dataclass(frozen=True)
class BreakpointLocations:
    """A range of lines of a source, for a request of the lines that may have a breakpoint. end_line: the last line; None for one line"""

    source: Source
    line: int
    end_line: int | None = None


@dataclass(frozen=True)
class FunctionBreakpoint:
    """A breakpoint at a function."""

    name: str
    condition: str = ""
    hit_condition: str = ""


@dataclass(frozen=True)
class SetFunctionBreakpoints:
    """The breakpoints at functions, which replace all earlier ones."""

    breakpoints: tuple[FunctionBreakpoint, ...] = ()


@dataclass(frozen=True)
class InstructionBreakpoint:
    """A breakpoint at an address. instruction_reference: the address, as text; offset: bytes that are added to it"""

    instruction_reference: str
    offset: int = 0
    condition: str = ""
    hit_condition: str = ""


@dataclass(frozen=True)
class SetInstructionBreakpoints:
    """The breakpoints at addresses, which replace all earlier ones."""

    breakpoints: tuple[InstructionBreakpoint, ...] = ()


@dataclass(frozen=True)
class DataBreakpointInfo:
    """The data that the client wants to watch, for a request of its address.

    name: the name of a row, or an expression, or an address if `as_address` is true
    variables_reference: the reference above the row; 0 for an expression or an address
    frame_id: the number of the frame in which the expression is evaluated; 0 for the innermost frame
    bytes: the number of bytes to watch; None for the data's own size
    """

    name: str
    variables_reference: int = 0
    frame_id: int = 0
    bytes: int | None = None
    as_address: bool = False


@dataclass(frozen=True)
class DataBreakpoint:
    """A data breakpoint. data_id: the identifier of the data in a response to `dataBreakpointInfo`"""

    data_id: str
    access_type: Literal["read", "write", "readWrite"] = "write"
    condition: str = ""
    hit_condition: str = ""


@dataclass(frozen=True)
class SetDataBreakpoints:
    """The data breakpoints, which replace all earlier ones."""

    breakpoints: tuple[DataBreakpoint, ...] = ()


@dataclass(frozen=True)
class Resume:
    """The arguments of requests that step the program. granularity: whether a step is a source line or an instruction"""

    granularity: Granularity = "statement"


@dataclass(frozen=True)
class StackTrace:
    """A range of frames. start_frame: the index of the first one, 0 for the innermost; levels: the number of frames, 0 for all"""

    start_frame: int = 0
    levels: int = 0


@dataclass(frozen=True)
class Scopes:
    """The frame whose scopes are requested. frame_id: its number in the response to `stackTrace`"""

    frame_id: int


@dataclass(frozen=True)
class ValueFormat:
    """How numbers are written. hex: whether only in hexadecimal"""

    hex: bool = False


@dataclass(frozen=True)
class Variables:
    """A request of the rows below a scope or a variable, or of a range of them.

    variables_reference: the reference of the scope or the variable; start: the index of the first row; count: the number of rows, 0 for all
    """

    variables_reference: int
    start: int = 0
    count: int = 0
    format: ValueFormat = ValueFormat()


@dataclass(frozen=True)
class SetVariable:
    """A new value of a variable.

    variables_reference: the reference of the scope or the variable above it; name: the variable's name; value: the value, as the user typed it
    """

    variables_reference: int
    name: str
    value: str
    format: ValueFormat = ValueFormat()


@dataclass(frozen=True)
class Evaluate:
    """An expression. context: where the client shows the result, such as `hover`"""

    expression: str
    frame_id: int = 0
    context: str = ""
    format: ValueFormat = ValueFormat()


@dataclass(frozen=True)
class SetExpression:
    """A new value of an expression. value: the value, as the user typed it"""

    expression: str
    value: str
    frame_id: int = 0
    format: ValueFormat = ValueFormat()


@dataclass(frozen=True)
class Completions:
    """A text in the debug console that ends with the start of a name. column: the caret's column, as the client counts"""

    text: str
    column: int
    frame_id: int = 0


@dataclass(frozen=True)
class ReadMemory:
    """A range of memory. memory_reference: an address, as text; offset: bytes that are added to it; count: the number of bytes"""

    memory_reference: str
    count: int
    offset: int = 0


@dataclass(frozen=True)
class WriteMemory:
    """Bytes to write to memory.

    memory_reference: an address, as text; offset: bytes that are added to it; data: the bytes in base64
    allow_partial: whether to write only the first bytes if the others can't be written
    """

    memory_reference: str
    data: str
    offset: int = 0
    allow_partial: bool = False


@dataclass(frozen=True)
class Disassemble:
    """A range of instructions around an address.

    memory_reference: the address, as text; offset: a number of bytes to add to the address
    instruction_offset: a number of instructions to add to it, which may be negative; instruction_count: the number of instructions
    """

    memory_reference: str
    instruction_count: int
    offset: int = 0
    instruction_offset: int = 0


def read_arguments(kind: type[Arguments], given: object) -> Arguments:
    """Read the arguments of a request, or an object in them. Raises BadArguments if they don't have the types of `kind`.

    kind: a class of this module; given: the value in JSON
    """
    if not isinstance(given, dict):
        raise BadArguments("the arguments are no object")
    values = dict[str, Any]()
    hints = get_type_hints(kind)
    for field in dataclasses.fields(kind):
        name = _name_in_json(field.name)
        if given.get(name) is not None:
            values[field.name] = _read(hints[field.name], given[name], name)
        elif field.default is dataclasses.MISSING:
            raise BadArguments(f"the argument {name} is missing")
    return kind(**values)


def _name_in_json(name: str) -> str:
    """Return the protocol's name of an argument, such as `linesStartAt1` for `lines_start_at_1`."""
    return re.sub("_([a-z0-9])", lambda found: found[1].upper(), name)


def _read(kind: Any, given: object, name: str) -> object:
    """Return an argument's value. Raises BadArguments if it doesn't have the type `kind`.

    given: the value in JSON; name: the argument's name, for messages
    """
    options: Sequence[Any] = get_args(kind)
    if get_origin(kind) is UnionType:
        return _read(options[0], given, name)
    if get_origin(kind) is Literal:
        if given not in options:
            raise BadArguments(f"{name} is one of {', '.join(map(str, options))}")
        return given
    if get_origin(kind) is tuple:
        if not isinstance(given, list):
            raise BadArguments(f"{name} is no list")
        return tuple(_read(options[0], each, name) for each in given)
    if dataclasses.is_dataclass(kind):
        return read_arguments(kind, given)
    if not isinstance(given, kind) or kind is int and isinstance(given, bool):
        words = {int: "whole number", str: "text", bool: "truth value, true or false"}
        raise BadArguments(f"{name} is no {words[kind]}")
    return given
