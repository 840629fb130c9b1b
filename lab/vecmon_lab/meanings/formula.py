"""The language of formulas: `vd[i] = signed(vs2[i]) >> vs1[i] % sew`, a restricted part of Python's grammar.

A formula consists of one or more assignments, separated by `;`. All of them read the state before the instruction. A target is an
element (`vd[i]`, `vd[0]`), a bit of a mask (`vd.mask[i]`), a scalar register (`x[rd]`), memory (`memory[ADDRESS]`, or
`memory16[ADDRESS]` with its own width), `pc`, `vl`, `vtype` or `csr`. Numbers have no limit; the target gets the lowest bits
that fit into it.
"""

import ast
import copy
import functools
import operator
from collections.abc import Callable, Iterable, Mapping, Sequence
from dataclasses import dataclass
from types import CodeType
from typing import Any, Protocol, cast

from .. import LabError

OPERANDS = ("vd", "vs1", "vs2", "vs3", "v0")
"""Register groups: `vs2[i]` is an unsigned element, `vs2.mask[i]` a bit. In the forms .vx and .vi, `vs1[i]` is the scalar."""

MEMORIES = {"memory": 0, "memory8": 8, "memory16": 16, "memory32": 32, "memory64": 64}
"""Names of memory, each with the width of an access in bits; 0 for the width of an element."""

NUMBERS: Mapping[str, str] = {
    "i": "the number of the element",
    "j": "the number of another element, in a list `... for j in ...`",
    "f": "the number of the segment's field, 0 first",
    "nf": "the number of fields of a segment",
    "sew": "the width of elements that the vector type sets, in bits",
    "bytes": "the bytes of an element that is loaded or stored",
    "vl": "the number of elements",
    "vlmax": "the most elements that a register group has",
    "vxrm": "the rounding mode: 0 up, 1 to even, 2 down, 3 to odd",
    "imm": "the immediate",
    "shamt": "the immediate of a shift",
    "offset": "the distance of a jump or branch from its own address, or of a slide",
    "uimm": "the unsigned immediate",
    "rd": "the number of the destination",
    "rs1": "the number of the first source",
    "rs2": "the number of the second source",
    "pc": "the address of the instruction",
    "csr": "the control register",
    "active": "the elements of the body that the mask doesn't turn off",
    "avl": "the number of elements asked for: x[rs1], the immediate, all ones, or vl",
    "type": "the vector type asked for",
    "is_supported": "whether the machine supports that type",
    "limit": "vlmax under that type",
    "vill": "the vector type that no instruction accepts",
}
"""Names of numbers, with their meanings, and of `active`, which is a list of numbers."""

_NODES = (
    *(ast.Expression, ast.BinOp, ast.UnaryOp, ast.BoolOp, ast.Compare, ast.IfExp, ast.Call, ast.Name, ast.Load),
    *(ast.Store, ast.Subscript, ast.Attribute, ast.Constant, ast.GeneratorExp, ast.comprehension),
    *(ast.Add, ast.Sub, ast.Mult, ast.FloorDiv, ast.Mod, ast.Pow, ast.LShift, ast.RShift, ast.BitAnd, ast.BitOr),
    *(ast.BitXor, ast.Not, ast.Invert, ast.USub, ast.And, ast.Or, ast.Eq, ast.NotEq, ast.Lt, ast.LtE, ast.Gt, ast.GtE),
)


class Bits(int):
    """An unsigned number in a register or memory. `width` is its width in bits. Its class is `bits_type(width)`."""

    width: int


@functools.cache
def bits_type(bits: int) -> type[Bits]:
    """Return the class of numbers with a width in bits."""

    class Sized(Bits):
        """Numbers of one width."""

        width = bits

    return Sized


def zext(value: int, bits: int = 0) -> int:
    """Return the lowest bits of a number as an unsigned number. bits: their number; 0 for all bits of the register or memory"""
    return value & (1 << (bits or getattr(value, "width", 64))) - 1


def sext(value: int, bits: int = 0) -> int:
    """Return the lowest bits of a number as a signed number. bits: their number; 0 for all bits of the register or memory"""
    sign = 1 << (bits or getattr(value, "width", 64)) - 1
    return (value & 2 * sign - 1 ^ sign) - sign


def rounded(value: int, bits: int, mode: int) -> int:
    """Return value / 2**bits, rounded as vxrm's rounding mode says (section 3.8). mode: vxrm"""
    if not bits:
        return int(value)
    lost, odd = value & (1 << bits) - 1, value >> bits & 1
    half = 1 << bits - 1
    up = (lost >= half, lost > half or lost == half and odd, False, not odd and lost)[mode]
    return (value >> bits) + bool(up)


def quotient(value: int, divisor: int) -> int:
    """Return value / divisor, rounded towards 0."""
    size = abs(value) // abs(divisor)
    return size if (value < 0) == (divisor < 0) else -size


def remainder(value: int, divisor: int) -> int:
    """Return the remainder of `quotient`, which has the sign of the value."""
    return value - quotient(value, divisor) * divisor


def nth(number: int, values: Iterable[int]) -> int:
    """Return the number at an index of a list. number: the index; values: the list"""
    return list(values)[number]


def _of_all(operation: Callable[..., Any]) -> Callable[..., int]:
    """Return a function that applies an operation to numbers, and to the numbers of lists among its arguments."""
    return lambda *values: int(
        operation([each for value in values for each in ([value] if isinstance(value, int) else value)])
    )


FUNCTIONS: Mapping[str, Callable[..., int]] = {
    **{"signed": sext, "sext": sext, "zext": zext, "round": rounded, "quotient": quotient, "remainder": remainder},
    **{"nth": nth, "first": lambda values: next(iter(values), -1)},
    **{"sum": _of_all(sum), "min": _of_all(min), "max": _of_all(max), "any": _of_all(any)},
    **{
        f"bit{name}": _of_all(functools.partial(functools.reduce, operation))
        for name, operation in (("and", operator.and_), ("or", operator.or_), ("xor", operator.xor))
    },
}
CLIPS = ("clip", "clipu")
"""Functions that return the nearest number that the target can represent: `clip` as a signed, `clipu` as an unsigned number.

If this number differs from the argument, vxsat becomes 1.
"""

_EACH = "_numbers"  # the name of the numbers in `evaluate_each`; no name of the language starts with `_`
_CALLABLE, _INDEXED = (*FUNCTIONS, *CLIPS, "range"), (*OPERANDS, *MEMORIES, "x")
_NUMBER_TARGETS = ("pc", "vl", "vtype", "csr")
_TARGETS = {"vd": ("element", 0), "vd.mask": ("mask", 1), "x": ("x", 64)}  # kind and width, by the indexed name
_TARGETS |= {name: ("memory", width) for name, width in MEMORIES.items()}


@dataclass(frozen=True)
class Assignment:
    """A target and its value.

    kind: `element`, `mask`, `x`, `memory`, `pc`, `vl`, `vtype` or `csr`
    width: of an access to memory, in bits; 0 for the width of an element
    place: the index of the target; the target's name if it has no index
    value: the formula's expression after the `=`
    target: the formula's expression before the `=`
    """

    kind: str
    width: int
    place: ast.expr
    value: ast.expr
    target: ast.expr

    @property
    def text(self) -> str:
        """The value as text."""
        return ast.unparse(self.value)


Names = dict[str, object]
"""The values of names in a formula, and the functions of the language: see `scope`."""

_LANGUAGE: Mapping[str, object] = {"__builtins__": {}, "range": range, **FUNCTIONS}


class Formula:
    """A formula. Its text is checked when it is created: a LabError says which part isn't in the language."""

    def __init__(self, text: str) -> None:
        self.text = text
        self.assignments = [_assignment(part.strip(), text) for part in text.split(";")]


@functools.lru_cache(maxsize=1024)
def read_formula(text: str) -> Formula:
    """Return the formula of a text; results are cached. Raises LabError."""
    return Formula(text)


def scope(names: Mapping[str, object]) -> Names:
    """Return a dictionary with `names`, and with the functions of the language, in which a formula can be evaluated."""
    return {**_LANGUAGE, **names}


def evaluate(node: ast.expr, names: Names) -> int:
    """Return the value of a part of a formula. names: the values of its names"""
    return int(eval(_code(node), names))


class Indexed(Protocol):
    """Numbers that a formula can index, such as the elements of a register group."""

    def each(self, indices: Sequence[int], is_signed: bool) -> Sequence[int]:
        """Return the numbers at indices, as signed or unsigned numbers."""


def evaluate_each(node: ast.expr, names: Names, numbers: Sequence[int], name: str = "i") -> list[int]:
    """Evaluate a part of a formula for several values of one of its names, and return the results in the same order.

    name: the name with several values; numbers: its values, such as the indices of elements
    names: the values of all other names
    """
    code, columns = _code_of_each(node, name)
    values = {**names, _EACH: numbers, "zip": zip}
    for column in columns:
        indexed, indices = cast(Indexed, names[column.operand]), cast(Sequence[int], values[column.indices])
        values[f"{_EACH}{column.name}"] = indexed.each(indices, column.is_signed)
    return [*map(int, eval(code, values))]


def condition(text: str) -> ast.expr:
    """Parse a condition in the language of formulas. Raises LabError if it isn't in the language."""
    return _checked(text, text)


@functools.lru_cache(maxsize=4096)
def _code(node: ast.expr) -> CodeType:
    code: CodeType = compile(ast.fix_missing_locations(ast.Expression(node)), "a formula", "eval")
    return code


@dataclass(frozen=True)
class _Column:
    """The numbers of an operand at all indices of a list, as signed or unsigned numbers.

    operand: the operand's name; indices: the list's name
    """

    operand: str
    indices: str
    is_signed: bool

    @property
    def name(self) -> str:
        """The name of one number of the column, in a loop over the list."""
        return f"_{'s' if self.is_signed else 'u'}{self.operand}{self.indices}"


@functools.lru_cache(maxsize=4096)
def _code_of_each(node: ast.expr, name: str) -> tuple[CodeType, Sequence[_Column]]:
    """Return the code that evaluates a part of a formula for each number of a list, and the columns that the code reads.

    The code's value is the list of results. name: the name in the formula that has these numbers as values
    """
    columns = _Columns(name, _EACH)
    element = columns.visit(copy.deepcopy(node))
    code = _code(ast.ListComp(element, [columns.loop()]))
    return code, [*columns.found, *columns.inner]


class _Columns(ast.NodeTransformer):
    """Replaces each operand in an expression whose index iterates over a list with a column.

    found: the columns for this list; inner: the columns for other lists inside the expression
    """

    def __init__(self, index: str, indices: str) -> None:
        """index: the name of a number in the list; indices: the name of the list"""
        self.found, self.inner = dict[_Column, None](), dict[_Column, None]()
        self._index, self._indices = index, indices

    def loop(self) -> ast.comprehension:
        """Return the loop over the list and the columns."""
        names = [self._index, *(column.name for column in self.found)]
        lists = [self._indices, *(f"{_EACH}{column.name}" for column in self.found)]
        targets = ast.Tuple([ast.Name(each, ast.Store()) for each in names], ast.Store())
        zipped = ast.Call(ast.Name("zip", ast.Load()), [ast.Name(each, ast.Load()) for each in lists], [])
        return ast.comprehension(targets, zipped, [], 0)

    def visit_GeneratorExp(self, node: ast.GeneratorExp) -> ast.expr:
        """Replace the operands of a generator with columns for the generator's own list, if this list has a name and no condition."""
        match node:
            case ast.GeneratorExp(element, [ast.comprehension(ast.Name(index), ast.Name(indices), [])]):
                own = _Columns(index, indices)
                shown = own.visit(element)
                self.inner |= own.found | own.inner
                return ast.GeneratorExp(shown, [own.loop()])
        return cast(ast.expr, self.generic_visit(node))

    def visit_Call(self, node: ast.Call) -> ast.expr:
        """Return a column of signed numbers in place of a function that converts an operand to a signed number."""
        match node:
            case ast.Call(ast.Name("signed" | "sext"), [ast.Subscript(ast.Name(name), ast.Name(index))]):
                if name in OPERANDS and index == self._index:
                    return self._column(name, True)
        return cast(ast.expr, self.generic_visit(node))

    def visit_Subscript(self, node: ast.Subscript) -> ast.expr:
        """Return a column of unsigned numbers in place of an operand."""
        match node:
            case ast.Subscript(ast.Name(name), ast.Name(index)) if name in OPERANDS and index == self._index:
                return self._column(name, False)
        return cast(ast.expr, self.generic_visit(node))

    def _column(self, operand: str, is_signed: bool) -> ast.expr:
        column = _Column(operand, self._indices, is_signed)
        self.found[column] = None
        return ast.Name(column.name, ast.Load())


def _assignment(text: str, whole: str) -> Assignment:
    target, is_assignment, value = text.partition(" = ")
    if not is_assignment:
        raise LabError(f"formula {whole!r}: {text!r} assigns nothing; write TARGET = VALUE")
    if target in _NUMBER_TARGETS:
        return Assignment(target, 64, ast.Name(target), _checked(value, whole), ast.Name(target))
    match (node := _checked(target, whole)):
        case ast.Subscript(base, place) if (name := ast.unparse(base)) in _TARGETS:
            return Assignment(*_TARGETS[name], place, _checked(value, whole), node)
    raise LabError(f"formula {whole!r}: {target!r} is no target")


def _checked(text: str, whole: str) -> ast.expr:
    """Parse an expression. Raises LabError unless all its parts belong to the language. whole: the formula's text, for the message"""
    try:
        tree = ast.parse(text.strip(), mode="eval")
    except SyntaxError as error:
        raise LabError(f"formula {whole!r}: {text.strip()!r} isn't an expression: {error.msg}") from error
    for node in ast.walk(tree):
        if not isinstance(node, _NODES) or not _is_known(node):
            raise LabError(f"formula {whole!r}: {ast.unparse(node)!r} is no part of the language")
    return tree.body


def _is_known(node: ast.AST) -> bool:
    """Return whether the names and the numbers of a node belong to the language."""
    match node:
        case ast.Name(name):
            return name in (*_INDEXED, *NUMBERS, *_CALLABLE)
        case ast.Call(ast.Name(name), [_, *_], []):
            return name in _CALLABLE
        case ast.Attribute(ast.Name(name), "mask"):
            return name in OPERANDS
        case ast.Subscript(ast.Name(name)):
            return name in _INDEXED
        case ast.Constant(value):
            return type(value) is int
        case ast.Subscript(ast.Attribute()) | ast.GeneratorExp(_, [_]) | ast.comprehension(ast.Name("j")):
            return True
    return not isinstance(node, ast.Call | ast.Attribute | ast.Subscript | ast.GeneratorExp | ast.comprehension)


def elements_in(node: ast.comprehension, names: Names) -> list[int]:
    """Return the numbers that a list's loop iterates over. names: the values of names"""
    numbers = [*eval(_code(node.iter), names)]
    for condition in node.ifs:
        holds = evaluate_each(condition, names, numbers, "j")
        numbers = [number for number, each in zip(numbers, holds, strict=True) if each]
    return numbers
