"""The place of a variable, from an expression of debug data (DWARF 4, section 2.5) that is a register plus a number."""

import re
from collections.abc import Sequence
from typing import TYPE_CHECKING, NamedTuple

if TYPE_CHECKING:
    from elftools.dwarf.structs import DWARFStructs

CODE_END = 1 << 48  # above all addresses of code
MAX_BYTES = 64  # of an expression

_LITERAL, _REGISTER, _BASE = 0x30, 0x50, 0x70  # the first of 32 operations each
_VECTOR, _LENGTH, _VECTOR_BYTES = 96, 7202, 32  # the numbers of v0 and of vlenb in DWARF, and the value of vlenb here
FRAME = 32
"""In place of a register's number: the canonical frame address, which is the stack pointer of the function's caller."""
_NUMBER = re.compile("addr|const[1248]?[us]")

Operation = tuple[int, str, list[int], int]
"""An operation in pyelftools' form: its code, its name, its arguments, and its offset."""

Sum = tuple[int, int]
"""The number of a scalar register, and a number that is added to it. With register 0 it is just the number."""


class Location(NamedTuple):
    """The place of a variable while the program counter is from `first` up to, but not at, `end`.

    kind: where the variable is. `register`: in the scalar register with the number `register`; `vector`: in the vector register with this
        number; `memory`: in memory at the address that is the scalar register's value plus `offset`; `value`: nowhere, but this sum is the
        variable's value; `untold`: unknown.
    register: the number of the register
    offset: a number of 64 bits in hexadecimal digits
    """

    first: int
    end: int
    kind: str
    register: int = 0
    offset: str = "0"


def location(first: int, end: int, operations: Sequence[Operation], frame: Sum | None) -> Location:
    """Return the location that operations of an expression describe, for program counters from `first` up to `end`.

    frame: the base of the function's frame; None if it is unknown

    Raises ValueError and IndexError for unknown operations.
    """
    match operations:
        case [(code, name, arguments, _)] if re.fullmatch(r"DW_OP_reg(x|\d+)", name):
            number = arguments[0] if arguments else code - _REGISTER
            kind, register = ("vector", number - _VECTOR) if number >= _VECTOR else ("register", number)
            return Location(first, end, kind if register < 32 else "untold", register)
        case [*before, (_, "DW_OP_stack_value", _, _)]:
            kind, (register, offset) = "value", _sum(before, frame)
        case _:
            kind, (register, offset) = "memory", _sum(operations, frame)
    return Location(first, end, kind, register, f"{offset % (1 << 64):x}")


def constant(structs: "DWARFStructs", expression: Sequence[int]) -> int:
    """Return the value of an expression that has no register except `vlenb`. Raises ValueError for another expression."""
    from elftools.dwarf.dwarf_expr import DWARFExprParser

    if len(expression) > MAX_BYTES:
        raise ValueError("the expression is long")
    register, number = _sum([*DWARFExprParser(structs).parse_expr(expression)], None)
    if register:
        raise ValueError("the expression has a register")
    return number


def _sum(operations: Sequence[Operation], frame: Sum | None) -> Sum:
    """Return the top of the stack after operations. Raises ValueError and IndexError."""
    stack = list[Sum]()
    for code, name, arguments, _ in operations:
        kind = name.removeprefix("DW_OP_").rstrip("0123456789")
        match kind, arguments:
            case "lit", []:
                stack.append((0, code - _LITERAL))
            case _, [number] if _NUMBER.fullmatch(kind):
                stack.append((0, number))
            case "breg", [number]:
                stack.append((code - _BASE, number))
            case "bregx", [register, number] if register == _LENGTH:
                stack.append((0, _VECTOR_BYTES + number))
            case "fbreg", [number] if frame:
                stack.append((frame[0], frame[1] + number))
            case "plus_uconst", [number]:
                stack.append(_of("plus", stack.pop(), (0, number)))
            case "plus" | "minus" | "mul" | "div", []:
                other = stack.pop()
                stack.append(_of(kind, stack.pop(), other))
            case _:
                raise ValueError(f"{name} isn't known here")
    return stack.pop()


def _of(sign: str, one: Sum, other: Sum) -> Sum:
    """Return the result of the operation `sign` on two values. Raises ValueError unless it is one register plus a number."""
    match sign, one, other:
        case "plus", (register, number), (0, more):
            return register, number + more
        case "plus", (0, number), (register, more):
            return register, number + more
        case "minus", (register, number), (0, less):
            return register, number - less
        case "mul", (0, number), (0, times):
            return 0, number * times
        case "div", (0, number), (0, by) if by > 0:
            return 0, number // by
    raise ValueError(f"{sign} of two registers")
