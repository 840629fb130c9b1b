"""Inputs of a source: its `#>` lines, which set registers and memory before the program runs.

`#> a0 = 5` gives a register a number or the address of a label. `#> a1 = i32 3, 1, 4` gives a register the address of an
array, which ends where a page does. `#> numbers = i32 3, 1, 4` writes numbers at a label. Other lines are commands of the
monitor, as `#> set x10 5`.
"""

import re
from collections.abc import Mapping
from dataclasses import dataclass, field, replace
from difflib import get_close_matches

from .. import LabError
from ..instructions.accesses import LINE_BYTES, PAGE_BYTES
from ..instructions.table import REGISTERS
from ..machine.lines import check_text
from .commands import COMMANDS
from .data_runs import DataRun
from .line import SourceError
from .number_types import NUMBER_TYPES
from .sections import USER_PAGES
from .source import Program, in_order

ARRAYS = 0x20_0000
"""The address of the first array. Each array has its own pages; no program reaches these addresses."""

FORM = "#> a0 = 5, or #> a0 = i32 3, 1, 4"

_SET_UP = (
    "asm",
    "break",
    "map",
    "poke",
    "policy",
    "set",
    "setpc",
    "vset",
)  # commands that a `#>` line may have outside of lessons as well
_INPUT = re.compile(r"#>\s*(?P<place>[\w.$]+)\s*=\s*(?:(?P<type>[iu](?:8|16|32|64)|text)\b(?:\[(?P<count>\d+)\])?)?\s*")
_NUMBER = re.compile(r"[+-]?(?:0x[0-9a-fA-F]+|0b[01]+|[0-9]+)")
_REGISTERS = {**REGISTERS, **{f"x{number}": f"x{number}" for number in range(32)}}


class LessonCommand(SourceError):
    """A `#>` line has a command that only lessons execute."""


@dataclass
class Inputs:
    """The settings that the `#>` lines of a source contain.

    commands: commands of the monitor, each with the number of its line, which comes first
    mistakes, warnings: the mistakes in these lines, and the warnings about them
    data: the numbers and texts of arrays, by the address of the first byte
    size: the size of all arrays together, in bytes
    """

    commands: list[tuple[int, str]] = field(default_factory=list)
    mistakes: list[SourceError] = field(default_factory=list)
    warnings: list[SourceError] = field(default_factory=list)
    data: dict[int, DataRun] = field(default_factory=dict)
    size: int = 0


def is_input(line: str) -> bool:
    """Return whether a line that starts with `#>` is an input, not a command of the monitor."""
    return _INPUT.match(line) is not None


def lines_with_inputs(text: str) -> list[int]:
    """Return the numbers of the source lines that set registers or memory before the program runs."""
    lines = [line.strip() for line in text.split("\n")]
    commands = [line[2:].split()[:1] if line.startswith("#>") else [] for line in lines]
    return [
        number
        for number, (line, command) in enumerate(zip(lines, commands), 1)
        if is_input(line) or command and command[0] in _SET_UP
    ]


def with_inputs(program: Program, text: str) -> Program:
    """Return a program to which the commands, the mistakes and the data of the `#>` lines in its source are added.

    text: the source of the program
    """
    lines = [(number, line) for number, line in enumerate(text.split("\n"), 1) if line.lstrip().startswith("#>")]
    if not lines:
        return program
    inputs = read_inputs(lines, program.labels)
    mistakes, warnings = in_order([*program.mistakes, *inputs.mistakes]), [*program.warnings, *inputs.warnings]
    data = {**program.data, **inputs.data}
    return replace(program, set_up=inputs.commands, mistakes=mistakes, warnings=in_order(warnings), data=data)


def read_inputs(lines: list[tuple[int, str]], labels: Mapping[str, int]) -> Inputs:
    """Return the settings that `#>` lines contain.

    lines: the `#>` lines, each after its number in the source; labels: the addresses of the source's labels, by name
    """
    inputs, place = Inputs(), ARRAYS
    for number, line in lines:
        try:
            if is_input(line.strip()):
                place = _read_input(inputs, number, line, labels, place)
            else:
                _read_command(inputs, number, line, labels)
        except SourceError as error:
            inputs.mistakes.append(error)
    return inputs


def with_addresses(command: str, labels: Mapping[str, int]) -> str:
    """Return a command of the monitor in which each label is replaced with its address. labels: the addresses, by name"""
    return re.sub(r"\S+", lambda word: f"{labels[word[0]]:x}" if word[0] in labels else word[0], command)


def _read_command(inputs: Inputs, number: int, line: str, labels: Mapping[str, int]) -> None:
    """Add the command of a `#>` line to the inputs. Raises SourceError if the line has no command that a source may have.

    number: of the line
    """
    command = line.lstrip()[2:].strip()
    column = line.index("#>") + 1
    name = "".join(command.split()[:1])
    if name in _SET_UP:
        named = with_addresses(command, labels)
        try:
            check_text(named)
        except LabError as error:
            raise SourceError(number, column, str(error)) from error
        inputs.commands.append((number, named))
    elif name == "*" or name in COMMANDS:
        message = f"{name} is for lessons: elsewhere a `#>` line gives inputs, as {FORM}, or a command of {', '.join(_SET_UP)}"
        inputs.warnings.append(LessonCommand(number, column, message))
    else:
        near = get_close_matches(name, _SET_UP, 1)
        what = f"there is no command {name}" if name else "there is no input"
        raise SourceError(number, column, f"{what}: the form is {FORM}, or a command of the monitor", fix=near)


def _read_input(inputs: Inputs, number: int, line: str, labels: Mapping[str, int], place: int) -> int:
    """Add the setting of a `#>` line to the inputs. Return the address at which the next array may start. Raises SourceError.

    number: of the line; place: the address of a page at which an array for a register may start
    """
    start = line.index("#>")
    found = _INPUT.match(line, start)
    assert found
    name, kind, rest = found["place"], found["type"], line[found.end() :].rstrip()
    column = found.start("place") + 1
    register = _REGISTERS.get(name)
    if register == "x0" or register is None and name not in labels:
        near = get_close_matches(name, [*labels, *(set(_REGISTERS) - {"x0", "zero"})], 1)
        raise SourceError(number, column, f"{name} is no register that can be set, and no label", fix=near)
    if kind is None:
        if register is None:
            message = f"{name} is a label: numbers there have a type, as in #> {name} = i32 3, 1, 4"
            raise SourceError(number, column, message)
        inputs.commands.append((number, f"set {register} {_scalar(number, found.end() + 1, rest, labels):x}"))
        return place
    data = _data(number, found.end() + 1, kind, int(found["count"] or 0), rest, USER_PAGES * PAGE_BYTES - inputs.size)
    inputs.size += len(data)
    pages = -(-len(data) // PAGE_BYTES)
    address = labels[name] if register is None else place + pages * PAGE_BYTES - len(data)
    if register is not None:
        inputs.commands.append((number, f"map {place:x} {pages} rw"))
        place += (pages + 1) * PAGE_BYTES  # a page that isn't mapped is between two arrays
    for at in range(0, len(data), LINE_BYTES):
        inputs.commands.append((number, f"poke {address + at:x} {data[at : at + LINE_BYTES].hex()}"))
    if register is not None:
        inputs.commands.append((number, f"set {register} {address:x}"))
    inputs.data[address] = _run(kind, len(data))
    return place


def _run(kind: str, size: int) -> DataRun:
    """Return the type and the count of the numbers in an array. kind: the type's name, or `text`; size: of the array, in bytes"""
    if kind == "text":
        return DataRun("text", size)
    numbers = NUMBER_TYPES[kind]
    return DataRun(numbers.name, size // numbers.size)


def _scalar(number: int, column: int, text: str, labels: Mapping[str, int]) -> int:
    """Return the unsigned 64-bit value of a number or a label. Raises SourceError if the text is neither.

    number, column: the place of the text in the source
    """
    if text in labels:
        return labels[text]
    if not _NUMBER.fullmatch(text):
        raise SourceError(number, column, f"{text or 'nothing'} is no number, no type and no label; the form is {FORM}")
    value = int(text, 0) if not text.lstrip("+-").isdecimal() else int(text)
    if not -(1 << 63) <= value < 1 << 64:
        raise SourceError(number, column, f"{text} is out of range: {-(1 << 63)} to {(1 << 64) - 1} fit")
    return value % (1 << 64)


def _data(number: int, column: int, kind: str, count: int, text: str, room: int) -> bytes:
    """Return the bytes of an array. Raises SourceError if they are more than `room`, or if the text isn't an array.

    number, column: the place of the text in the source; kind: the type's name, or `text`
    count: the number of numbers in the array; if the text has fewer, the others are 0. With count 0, the array has just the text's
        numbers
    """
    too_large = SourceError(
        number, column, f"with this one, arrays are larger than the {USER_PAGES} pages that a user has"
    )
    if kind == "text":
        found = re.fullmatch(r'"((?:[^"\\]|\\.)*)"', text)
        if not found:
            raise SourceError(number, column, 'a text is between quotation marks, as #> a0 = text "abc"')
        escapes = {"n": "\n", "t": "\t", "0": "\0", "r": "\r"}
        plain = re.sub(r"\\(.)", lambda escape: escapes.get(escape[1], escape[1]), found[1])
        data = plain.encode("utf-8") + b"\0"
        if len(data) > room:
            raise too_large
        return data
    numbers = NUMBER_TYPES[kind]
    parts = [(part.end() - len(part[0].lstrip()), part[0].strip()) for part in re.finditer("[^,]+", text)]
    values = [_element(number, column + start, kind, part) for start, part in parts if part]
    if not values and not count:
        raise SourceError(
            number, column, f"an array has a number at least, as #> a0 = {kind} 1, 2, or zeros, as #> a0 = {kind}[8]"
        )
    if count and len(values) > count:
        raise SourceError(number, column, f"{len(values)} numbers are more than {count}")
    if max(count, len(values)) * numbers.size > room:
        raise too_large
    return numbers.packed(values).ljust(count * numbers.size, b"\0")


def _element(number: int, column: int, kind: str, text: str) -> int:
    """Return one number of an array. Raises SourceError if the text isn't a number of the type `kind`.

    number, column: the place of the text in the source
    """
    minimum, maximum = NUMBER_TYPES[kind].minimum, NUMBER_TYPES[kind].maximum
    if not _NUMBER.fullmatch(text):
        raise SourceError(number, column, f"{text} is no number")
    value = int(text) if text.lstrip("+-").isdecimal() else int(text, 0)
    if not minimum <= value <= maximum:
        raise SourceError(number, column, f"{text} is no {kind}: {minimum} to {maximum} fit")
    return value
