"""The arguments and the result of a call, by their C types and the RISC-V psABI's integer calling convention."""

import ctypes
import numbers
import sys
from collections.abc import Sequence
from dataclasses import dataclass
from typing import TYPE_CHECKING, TypeAlias

from .. import LabError
from ..compilers.c_types import BOOLEAN, WORD, Integer, integer_of
from ..compilers.signatures import Declared, Signature
from .arrays import Layout, Placed

if TYPE_CHECKING:
    from _typeshed import ReadableBuffer

Argument: TypeAlias = "int | ReadableBuffer | Placed"
"""An integer, which may be one of ctypes or numpy; or an array, whose address is passed."""

MAX_ARGUMENTS, FIRST_ARGUMENT = 8, 10  # the most arguments, all in registers; the first one is in x10

_SIGNED = (ctypes.c_byte, ctypes.c_short, ctypes.c_int, ctypes.c_long, ctypes.c_longlong)
_UNSIGNED = (ctypes.c_ubyte, ctypes.c_ushort, ctypes.c_uint, ctypes.c_ulong, ctypes.c_ulonglong)


@dataclass(frozen=True)
class Call:
    """A call: the state in which it starts, and the type of its result.

    layout: the arrays in the machine's memory; lines: the commands that place the arrays and set the registers
    result: the type of the result; None for void
    """

    layout: Layout
    lines: Sequence[str]
    result: Integer | None


def call_of(symbol: str, arguments: Sequence[Argument], signature: Signature | None) -> Call:
    """Return a call of a function. Raises LabError for arguments that don't fit the function.

    symbol: the function's name; signature: the function's types; None if they are unknown
    """
    result, parameters = _checked(symbol, len(arguments), signature)
    read = [_read(number, argument) for number, argument in enumerate(arguments, 1)]
    layout = Layout([(number, each) for number, each in enumerate(read, 1) if isinstance(each, Placed)])
    lines = [*layout.lines]
    for number, (each, parameter) in enumerate(zip(read, parameters), 1):
        if isinstance(each, Placed):
            value = _address(number, layout, parameter)
        else:
            value = _register(number, *each, parameter)
        lines.append(f"set x{FIRST_ARGUMENT + number - 1} {value:x}")
    return Call(layout, lines, result)


def result_of(register: int, kind: Integer | None) -> int:
    """Return the value of a result. register: the 64 bits of a0; kind: the type of the result; None for void, whose value is 0"""
    if kind is None:
        return 0
    value = register % (1 << kind.bits)
    return value - (1 << kind.bits) if kind.smallest < 0 and value > kind.largest else value


def _checked(symbol: str, count: int, signature: Signature | None) -> tuple[Integer | None, Sequence[Declared | None]]:
    """Return the type of a function's result, and for each argument the function's parameter, or None if the parameter is unknown.

    The type is None for void; if it is unknown, it is WORD.

    symbol: the function's name; count: the number of arguments; signature: the function's types; None if they are unknown

    Raises LabError if the function can't be called with this number of arguments.
    """
    if signature is not None:
        _check_callable(symbol, count, signature)
    if count > MAX_ARGUMENTS:
        raise LabError(f"a call has {MAX_ARGUMENTS} arguments at most, and this one has {count}")
    if signature is None:
        return WORD, [None] * count
    known = signature.parameters
    return signature.result and signature.result.integer, [*known, *[None] * (count - len(known))]


def _check_callable(symbol: str, count: int, signature: Signature) -> None:
    """Raise LabError if a function takes another number of arguments, or if its types aren't passed in integer registers."""
    parameters, result = signature.parameters, signature.result
    if count < len(parameters) or count > len(parameters) and not signature.is_variadic:
        listed = ", ".join(each.declaration for each in parameters) or "void"
        least = "at least " * signature.is_variadic
        plural = "s" * (len(parameters) != 1)
        raise LabError(
            f"{symbol} takes {least}{len(parameters)} argument{plural} ({listed}), and this call has {count}"
        )
    for number, each in enumerate(parameters, 1):
        if each.integer is None:
            raise LabError(
                f"{symbol}: argument {number}, {each.declaration}, is no integer or pointer: pass a pointer to it"
            )
    if result and result.integer is None:
        raise LabError(f"{symbol}: its result, {result.declaration}, is no integer or pointer: store it by a pointer")
    if not signature.is_callable:
        raise LabError(
            f"{symbol}: the compiler changed how this static function takes its arguments: compile it without static"
        )


def _read(number: int, argument: Argument) -> tuple[int, Integer | None] | Placed:
    """Return the value of an argument and its type, or None as the type of a Python integer. For an array, return its placement.

    number: the number of the argument, from 1. Raises LabError for a number that isn't an integer.
    """
    if typed := _of_ctypes(argument):
        return typed
    numpy = sys.modules.get("numpy")  # the lab doesn't need it; it is used only if the caller has imported it
    if numpy and isinstance(argument, numpy.integer):
        return int(argument), integer_of(8 * argument.itemsize, argument.dtype.kind == "i")
    if numpy and isinstance(argument, numpy.bool_):
        return int(argument), None
    if isinstance(argument, int | numbers.Integral):
        return int(argument), None
    if isinstance(argument, Placed):
        return argument
    if isinstance(argument, numbers.Number | ctypes._SimpleCData) or not _has_buffer(argument):
        shown = repr(argument)[:40]
        raise LabError(
            f"argument {number}, {shown}, is no integer and no array: pass array.array('i', [7]), for example"
        )
    return Placed(argument)


def _has_buffer(argument: object) -> bool:
    """Return whether an object has Python's buffer protocol."""
    try:
        memoryview(argument)  # type: ignore[arg-type]
    except TypeError:
        return False
    except ValueError:  # numpy's, for elements that buffers don't have
        pass
    return True


def _of_ctypes(argument: Argument) -> tuple[int, Integer] | None:
    """Return the value and the type of a ctypes integer; None for other objects."""
    if isinstance(argument, _SIGNED):
        return argument.value, integer_of(8 * ctypes.sizeof(argument), True)
    if isinstance(argument, _UNSIGNED):
        return argument.value, integer_of(8 * ctypes.sizeof(argument), False)
    if isinstance(argument, ctypes.c_bool):
        return int(argument.value), BOOLEAN
    if isinstance(argument, ctypes.c_char):
        return argument.value[0], integer_of(8, False)
    if isinstance(argument, ctypes.c_void_p):
        return argument.value or 0, WORD
    return None


def _address(number: int, layout: Layout, parameter: Declared | None) -> int:
    """Return the address to pass for an array argument. Raises LabError if the parameter's type is too small for an address.

    number: the number of the argument, from 1; layout: the arrays of the call; parameter: the function's parameter; None if it is unknown
    """
    kind = parameter.integer if parameter else None
    if parameter and kind and kind.bits < WORD.bits:
        raise LabError(f"argument {number} is an array, and {parameter.declaration} is no pointer")
    return layout.arrays[number].address


def _register(number: int, value: int, kind: Integer | None, parameter: Declared | None) -> int:
    """Return the 64 bits of the register that passes an argument. Raises LabError for a value that doesn't fit into its type.

    Types of up to 32 bits are extended to 32 bits by their own signedness, and then sign-extended from bit 31 to 64 bits.

    number: the number of the argument, from 1; value: the argument's value
    kind: the type of the argument itself; None if it has none. It is used only if the parameter is unknown.
    parameter: the function's parameter; None if it is unknown
    """
    kind = (parameter.integer if parameter else kind) or WORD
    if not kind.smallest <= value <= kind.largest:
        place = f"{parameter.declaration}: {kind.smallest} to {kind.largest}" if parameter else f"{kind.bits} bits"
        raise LabError(f"argument {number}, {value}, doesn't fit into {place}")
    return (value if kind.bits > 32 else (value + (1 << 31)) % (1 << 32) - (1 << 31)) % (1 << 64)
