"""Expressions of a client: registers, elements, variables, symbols and numbers, with the operators and precedences of C."""

import operator
import re
from collections.abc import Callable, Mapping, Sequence
from dataclasses import dataclass
from typing import NamedTuple, Protocol

from .. import LabError

_BINARY: Mapping[str, Callable[[int, int], int]] = {
    "+": operator.add,
    "-": operator.sub,
    "*": operator.mul,
    "&": operator.and_,
    "|": operator.or_,
    "^": operator.xor,
}
_UNARY: Mapping[str, Callable[[int], int]] = {
    "!": lambda value: int(not value),
    "-": operator.neg,
    "+": operator.pos,
    "~": operator.invert,
}
_SHIFTS: Mapping[str, Callable[[int, int], int]] = {"<<": operator.lshift, ">>": operator.rshift}
_COMPARISONS: Mapping[str, Callable[[int, int], bool]] = {
    "==": operator.eq,
    "!=": operator.ne,
    "<": operator.lt,
    "<=": operator.le,
    ">": operator.gt,
    ">=": operator.ge,
}
_LEVELS: Sequence[Sequence[str]] = (
    ("||",),
    ("&&",),
    ("|",),
    ("^",),
    ("&",),
    ("==", "!="),
    ("<", "<=", ">", ">="),
    ("<<", ">>"),
    ("+", "-"),
    ("*", "/", "%"),
)
_PRECEDENCES = {sign: level for level, signs in enumerate(_LEVELS) for sign in signs}  # C11, section 6.5
_TOKEN = re.compile(
    r"\s*(?:(0[xX][0-9a-fA-F]+|0[bB][01]+|0|[1-9][0-9]*)\b|([^\W\d]\w*)|(&&|\|\||[=!<>]=|<<|>>|->|[-+*/%&|^!~<>()\[\].]))"
)
_KINDS = {f"{'u' * (sign == 'u')}int{bits}_t": f"{sign}{bits}" for sign in "iu" for bits in (8, 16, 32, 64)}
_KINDS |= {"char": "c8", "short": "i16", "int": "i32", "long": "i64"}
_POINTERS = "pointers to int8_t up to int64_t, uint8_t up to uint64_t, char, short, int and long are"
_MAX_LETTERS, _MAX_DEPTH = 1000, 50
_WORD = (1 << 64) - 1


class Value(NamedTuple):
    """The value of an expression.

    target: the kind of the numbers that a pointer points to, such as `i32`; "" if the value isn't a pointer
    place: the address and the number of bytes of the memory that the value was read from; None if it wasn't read from memory
    """

    number: int
    target: str = ""
    place: tuple[int, int] | None = None


Path = tuple[int | str, ...]
"""The indices and the names of fields that lead from a name to a part of its value. `*` is index 0, and `->` is index 0 and then a field."""


class Names(Protocol):
    """The values of names in an expression, and the contents of memory."""

    def value(self, name: str, path: Path) -> Value:
        """Return the value of a name, or of the element or field to which a path leads from it. Raises LabError."""

    def load(self, address: int, kind: str) -> Value:
        """Return the number at an address of memory. kind: the kind of the number, such as `i32`. Raises LabError if memory can't be read."""


@dataclass(frozen=True)
class _Number:
    value: int


@dataclass(frozen=True)
class _Name:
    name: str


@dataclass(frozen=True)
class _Element:
    of: "_Node"
    index: "_Node"


@dataclass(frozen=True)
class _Field:
    """A field of a structure. is_pointed: whether `of` is a pointer to the structure (`->`)"""

    of: "_Node"
    name: str
    is_pointed: bool


@dataclass(frozen=True)
class _Cast:
    """A cast to a pointer to numbers, such as `(int32_t *)a0`. kind: the kind of these numbers, such as `i32`"""

    kind: str
    operand: "_Node"


@dataclass(frozen=True)
class _Unary:
    sign: str
    operand: "_Node"


@dataclass(frozen=True)
class _Binary:
    sign: str
    left: "_Node"
    right: "_Node"


_Node = _Number | _Name | _Element | _Field | _Cast | _Unary | _Binary


def check(text: str) -> None:
    """Raise LabError if a text isn't an expression."""
    _parsed(text)


def evaluate(text: str, names: Names) -> Value:
    """Return the value of an expression. The value of a comparison is 0 or 1. Raises LabError."""
    return _value(_parsed(text), names)


def is_name(text: str) -> bool:
    """Return whether a text is a name, possibly with indices or fields after it or `*` before it, such as `x[2].key`."""
    try:
        node = _parsed(text)
    except LabError:
        return False
    return _is_path(node)


def name_in(text: str, names: Names) -> tuple[str, Path]:
    """Return the name in an expression, and the path that its indices, fields and `*` make. Raises LabError unless `is_name` is true."""
    name, path = _path(_parsed(text), names)
    if not isinstance(name, _Name):
        raise LabError(f"{text.strip()} isn't a name, as a0, v8[3] or x[2] are")
    return name.name, path


class _Parser:
    """Parses an expression. Raises ValueError if the text isn't one, and LabError for a type that isn't supported."""

    def __init__(self, text: str) -> None:
        self._tokens, at = list[str](), 0
        while at < len(text):
            found = _TOKEN.match(text, at)
            if found is None:
                raise ValueError
            self._tokens.append(found[found.lastindex or 0])
            at = found.end()
        self._at = self._depth = 0

    def expression(self) -> _Node:
        """Parse all tokens, and return the expression."""
        node = self._binary(0)
        if self._next():
            raise ValueError
        return node

    def _next(self) -> str:
        """Return the next token without taking it; "" at the end."""
        return self._tokens[self._at] if self._at < len(self._tokens) else ""

    def _take(self) -> str:
        token = self._next()
        self._at += 1
        return token

    def _expect(self, token: str) -> None:
        if self._take() != token:
            raise ValueError

    def _binary(self, level: int) -> _Node:
        """Parse operands and the operators between them that have this level or bind more tightly."""
        node = self._unary()
        while _PRECEDENCES.get(self._next(), -1) >= level:
            sign = self._take()
            node = _Binary(sign, node, self._binary(_PRECEDENCES[sign] + 1))
        return node

    def _unary(self) -> _Node:
        self._depth += 1
        if self._depth > _MAX_DEPTH:
            raise ValueError
        sign = self._next()
        if sign in (*_UNARY, "*"):
            self._take()
            node: _Node = _Unary(sign, self._unary())
        elif kind := self._take_cast():
            node = _Cast(kind, self._unary())
        else:
            node = self._with_parts(self._primary())
        self._depth -= 1
        return node

    def _take_cast(self) -> str:
        """Parse a pointer type in parentheses, such as `(int32_t *)`. Return the kind of the numbers that it points to.

        Return "" if the next tokens aren't a pointer type. Raises LabError for a type that isn't supported, such as `(float *)`.
        """
        end = self._at + 1
        while self._next() == "(" and "".join(self._tokens[end : end + 1]).isidentifier():
            end += 1
        names = self._tokens[self._at + 1 : end]
        stars = 0
        while self._tokens[end : end + 1] == ["*"]:
            end, stars = end + 1, stars + 1
        if not names or not stars or self._tokens[end : end + 1] != [")"]:
            return ""
        self._at = end + 1
        if stars == 1 and len(names) == 1 and names[0] in _KINDS:
            return _KINDS[names[0]]
        raise LabError(f"the type {' '.join(names)} {'*' * stars} isn't supported here: {_POINTERS}")

    def _primary(self) -> _Node:
        token = self._take()
        if token == "(":
            node = self._binary(0)
            self._expect(")")
            return node
        if token[:1].isdecimal():
            return _Number(int(token, 0))
        if not token.isidentifier():
            raise ValueError
        return _Name(token)

    def _with_parts(self, node: _Node) -> _Node:
        """Parse the indices and fields after a node, and return the node with them."""
        while (sign := self._next()) in ("[", ".", "->"):
            self._take()
            if sign == "[":
                node = _Element(node, self._binary(0))
                self._expect("]")
            elif (name := self._take()).isidentifier():
                node = _Field(node, name, sign == "->")
            else:
                raise ValueError
        return node


def _parsed(text: str) -> _Node:
    """Parse an expression. Raises LabError if the text isn't one, or if it is too long."""
    if len(text) > _MAX_LETTERS:
        raise LabError(f"an expression has {_MAX_LETTERS:,} characters at most")
    written = text.strip()
    try:
        return _Parser(written.replace("$", "")).expression()
    except ValueError as error:
        raise LabError(f"{written} is no expression: a0, v8[3], vl < 8 or x[2] == 5 are some") from error


def _is_path(node: _Node) -> bool:
    """Return whether a node is a name, with only indices, fields and `*` around it."""
    match node:
        case _Element(of, _) | _Field(of, _, _) | _Unary("*", of):
            return _is_path(of)
    return isinstance(node, _Name)


def _path(node: _Node, names: Names) -> tuple[_Node, Path]:
    """Return the innermost node of a node with indices, fields and `*`, and the path that these make.

    Raises LabError if an index can't be evaluated.
    """
    parts = list[int | str]()
    while True:
        match node:
            case _Element(of, index):
                parts.append(_value(index, names).number)
            case _Field(of, name, is_pointed):
                parts += [name, 0] if is_pointed else [name]
            case _Unary("*", of):
                parts.append(0)
            case _:
                return node, tuple(reversed(parts))
        node = of


def _value(node: _Node, names: Names) -> Value:
    """Return the value of a node. Raises LabError."""
    match node:
        case _Number(number):
            return Value(number)
        case _Name() | _Element() | _Field() | _Unary("*", _):
            return _value_of_path(node, names)
        case _Cast(kind, operand):
            return Value(_value(operand, names).number, kind)
        case _Unary(sign, operand):
            return Value(_UNARY[sign](_value(operand, names).number))
        case _Binary("&&", left, right):
            return Value(int(bool(_value(left, names).number and _value(right, names).number)))
        case _Binary("||", left, right):
            return Value(int(bool(_value(left, names).number or _value(right, names).number)))
        case _Binary(sign, left, right):
            return _calculate(sign, _value(left, names), _value(right, names))


def _value_of_path(node: _Node, names: Names) -> Value:
    """Return the value of a name with indices and fields, or of a pointer with indices. Raises LabError."""
    start, path = _path(node, names)
    if isinstance(start, _Name):
        return names.value(start.name, path)
    found = _value(start, names)
    for part in path:
        if isinstance(part, str):
            raise LabError(f"only a variable has a field {part}")
        found = _load(found, part, names)
    return found


def _load(pointer: Value, index: int, names: Names) -> Value:
    """Return number `index` of the memory that a pointer points to. Raises LabError."""
    if not pointer.target:
        raise LabError("only a pointer has * before it or an index after it, such as *(int32_t *)a0")
    return names.load((pointer.number + index * _size(pointer)) & _WORD, pointer.target)


def _size(pointer: Value) -> int:
    """Return the number of bytes of a number that a pointer points to."""
    return int(pointer.target[1:]) // 8


def _calculate(sign: str, left: Value, right: Value) -> Value:
    """Return the result of an operator. Raises LabError.

    As in C, the number that is added to a pointer, and the difference of two pointers, count numbers, not bytes.
    """
    if sign in _COMPARISONS:
        return Value(int(_compare(sign, left.number, right.number)))
    if sign == "-" and left.target and right.target:
        if left.target != right.target:
            raise LabError("pointers to different types have no difference")
        return Value(_divide("/", left.number - right.number, _size(left)))
    if sign in "+-" and left.target:
        return Value(_BINARY[sign](left.number, right.number * _size(left)), left.target)
    if sign == "+" and right.target:
        return _calculate(sign, right, left)
    if sign in "/%":
        return Value(_divide(sign, left.number, right.number))
    if sign in _SHIFTS:
        if not 0 <= right.number < 64:
            raise LabError(f"a shift by {right.number} bits isn't defined")
        return Value(_SHIFTS[sign](left.number, right.number))
    return Value(_BINARY[sign](left.number, right.number))


def _compare(sign: str, left: int, right: int) -> bool:
    """Return whether a comparison holds. `==` and `!=` compare the low 64 bits, so that a register can be compared with -1."""
    if sign in ("==", "!="):
        left, right = left & _WORD, right & _WORD
    return _COMPARISONS[sign](left, right)


def _divide(sign: str, left: int, right: int) -> int:
    """Return the quotient, rounded towards zero as in C, or the remainder. Raises LabError for a division by 0."""
    if right == 0:
        raise LabError("the expression divides by 0")
    quotient = abs(left) // abs(right) * (1 if (left < 0) == (right < 0) else -1)
    return quotient if sign == "/" else left - quotient * right
