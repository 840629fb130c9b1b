"""The values of a client's expressions at an instant of the program."""

import re
from collections.abc import Callable, Iterable
from dataclasses import dataclass

from .. import LabError
from ..console.conditions import REGISTERS
from ..guest.changes import NAMES
from ..meanings.help import help_lines
from ..meanings.record import records
from ..meanings.why import read_name
from . import expressions
from .c_variables import CVariable, find_variable, number_at
from .instants import Frame, Instant
from .operands import why
from .program import Program
from .values import number_text
from .variables import Item, group_item, send, set_scalar, variable_item
from .vectors import group_at

_VECTOR = re.compile(r"v(\d|[12]\d|3[01])")
_COMMAND = re.compile(r"(why|help)\b\s*(.*)")
_COMMAND_ANYWHERE = re.compile(
    r"(why|help)\s+([.\w].*)"
)  # no expression has this form, so the command works everywhere
_NUMBER = re.compile(r"0[xX][0-9a-fA-F]+|[0-9]+")
_MAX_DIGITS = 20  # of a decimal number with 64 bits


def address_of(program: Program, text: str) -> int:
    """Return the address that a text names: a number or a symbol, to which `+` and a number may add bytes. Raises LabError."""
    name, sign, offset = text.strip().partition("+")
    if sign and not _NUMBER.fullmatch(offset.strip()):
        raise LabError(f"{text.strip()} is no address: 0x10000 and main+8 are some")
    more = _number(offset.strip()) if sign else 0
    if _NUMBER.fullmatch(name):
        return _number(name) + more
    if len(places := program.symbols.places_of.get(name, ())) > 1:
        raise LabError(f"{name} names {len(places)} places: {', '.join(f'{at:#x}' for at in sorted(places))}")
    if name not in program.symbols.addresses:
        raise LabError(f"there is no symbol {name}")
    return program.symbols.addresses[name] + more


def _number(text: str) -> int:
    """Return the value of a decimal number, or of a hexadecimal one after 0x. Raises LabError if a decimal one has too many digits."""
    if text[:2] in ("0x", "0X"):
        return int(text, 16)
    if len(text) > _MAX_DIGITS:
        raise LabError("an address has 64 bits, and a number has more digits than that")
    return int(text)


def evaluate(instant: Instant, frame: Frame, text: str, context: str, is_hex: bool) -> Item:
    """Return the row of an expression, or the output of a command such as `why v8[3]` or `help NAME`. Raises LabError.

    context: where the client shows the result: `hover`, `watch`, `repl` (the debug console) and others
    is_hex: whether numbers are written only in hexadecimal
    """
    if found := (_COMMAND if context == "repl" else _COMMAND_ANYWHERE).fullmatch(text.strip()):
        answer = why(instant, *read_name(found[2])) if found[1] == "why" else "\n".join(help_lines(found[2]))
        return Item(text, answer)
    if context == "hover" and (lines := _described(instant, frame, text)):
        return Item(text, lines)
    names = FrameNames(instant, frame)
    if expressions.is_name(text):
        return _item(instant, frame, *expressions.name_in(text, names), is_hex)
    value = expressions.evaluate(text, names)
    return Item(
        text,
        number_text(value.number & (1 << 64) - 1, 64, is_hex),
        expression=text,
        address=value.number if value.number >= 0 else None,
        place=value.place,
    )


@dataclass(frozen=True)
class FrameNames:
    """The values that names in expressions have in a frame at an instant. The methods are those of `expressions.Names`."""

    instant: Instant
    frame: Frame

    def value(self, name: str, path: expressions.Path) -> expressions.Value:
        """Return the value of a name, or of the element or field to which a path leads from it. Raises LabError."""
        if found := _VECTOR.fullmatch(name):
            group = group_at(self.instant, int(found[1]))
            match path:
                case (int(index),) if 0 <= index < len(group.values):
                    return expressions.Value(group.values[index])
            raise LabError(f"{name} has elements: {name}[0] to {name}[{len(group.values) - 1}] are some")
        if variable := _variable(self.instant, self.frame, name, path):
            target = variable.target if variable.pointer is not None else ""
            return expressions.Value(variable.value(), target, variable.place)
        value = _register(self.instant, self.frame, name)
        address = address_of(self.instant.program, name) if value is None else value
        if path:
            index = path[0] if isinstance(path[0], int) else 0
            raise LabError(f"{name} has no parts; ((int32_t *){name})[{index}] is a number of the memory there")
        return expressions.Value(address)

    def load(self, address: int, kind: str) -> expressions.Value:
        """Return the number at an address of memory. kind: the kind of the number, such as `i32`. Raises LabError if memory can't be read."""
        found = number_at(self.instant, address, kind)
        return expressions.Value(found.value(), place=found.place)


def set_expression(instant: Instant, frame: Frame, text: str, value: str) -> None:
    """Set the register, element or variable that an expression names. value: the new number, as text. Raises LabError."""
    item = _item(instant, frame, *expressions.name_in(text, FrameNames(instant, frame)), False)
    if item.change is None:
        raise LabError(f"{text.strip()} can't be changed")
    item.change(value)


def completions(instant: Instant, frame: Frame, start: str) -> list[str]:
    """Return the names of registers, symbols, variables and commands that begin with the text `start`, in alphabetical order."""
    names: Iterable[str] = [*REGISTERS, *(f"v{number}" for number in range(32)), *instant.program.symbols.addresses]
    own = [each.variable.name for each in instant.program.variables]
    return sorted({name for name in [*names, *own, "why", "help"] if name.startswith(start)})


def _item(instant: Instant, frame: Frame, name: str, path: expressions.Path, is_hex: bool) -> Item:
    """Return the row of a name, or of the element or field to which a path leads from it. Raises LabError."""
    if found := _VECTOR.fullmatch(name):
        row = group_item(group_at(instant, int(found[1])))
        if not path:
            return row
        FrameNames(instant, frame).value(name, path)
        assert row.children and isinstance(path[0], int)
        return row.children(path[0], 1, is_hex)[0]
    if variable := _variable(instant, frame, name, path):
        return variable_item(variable, is_hex)
    value = FrameNames(instant, frame).value(name, path).number
    change: Callable[[str], None] | None = None
    register, guest = REGISTERS.get(name, ""), instant.program.guest
    if frame.call.is_innermost and re.fullmatch("x[1-9][0-9]*", register):
        change = lambda text: set_scalar(guest, int(register[1:]), text)  # noqa: E731
    if frame.call.is_innermost and name == "pc":
        change = lambda text: send(guest, f"setpc {address_of(instant.program, text):x}")  # noqa: E731
    return Item(name, number_text(value, 64, is_hex), expression=name, address=value, change=change)


def _variable(instant: Instant, frame: Frame, name: str, path: expressions.Path) -> CVariable | None:
    """Return the variable called `name`, or the part of it to which a path leads; None if there is no such variable.

    Raises LabError if the variable has no such part.
    """
    found = find_variable(instant, frame, name)
    for part in path if found else ():
        found = found and (found.field(part) if isinstance(part, str) else found.element(part))
    return found


def _register(instant: Instant, frame: Frame, name: str) -> int | None:
    """Return the value of a scalar or vector control register in a frame; None if the name is no such register.

    Raises LabError if the value is unknown in this frame.
    """
    if name == "pc":
        return frame.call.address
    register = REGISTERS.get(name)
    if register is None:
        return None
    scalars = frame.call.registers
    values: dict[str, int | None] = dict(zip(NAMES, [*scalars, *vars(instant.registers.control).values()]))
    value = values[register]
    if value is None:
        raise LabError(f"{name} isn't known in this frame: a called function may have changed it")
    return value


def _described(instant: Instant, frame: Frame, text: str) -> str:
    """Return the description of an instruction or a directive; "" if there is none, or if a register, variable or symbol has the name."""
    name = text.strip()
    is_value = name in REGISTERS or find_variable(instant, frame, name) or name in instant.program.symbols.addresses
    if is_value or _VECTOR.fullmatch(name) or not re.fullmatch(r"[.\w]+", name):
        return ""
    return "\n".join(help_lines(name)) if _is_described(name) else ""


def _is_described(name: str) -> bool:
    """Return whether the lab has a description of a name."""
    from ..instructions.table import instruction_table

    return name in instruction_table() or name in records()
