"""An independent reader of equations that the lab shows: `v8[5] = v2[5] * x11 + v8[5] = 6 * 3 + 105 = 123`.

It has its own grammar, operators and functions and imports nothing of `meanings`, so that an error there isn't repeated here.
"""

import operator
import re
from collections.abc import Callable, Iterator, Mapping, Sequence
from dataclasses import dataclass

Number = Callable[[str], int]
"""Returns the number of a name such as `v2[5]`, `v0.mask[3]`, `memory[0x20010]`, `x11` or `sew`."""

_TOKEN = re.compile(
    r"\s*(0x[0-9a-f]+|[0-9]+|memory[0-9]*\[0x[0-9a-f]+\]|v[0-9]+(?:\.mask)?\[[0-9]+\]|[a-z]\w*"
    r"|\.\.\.|\*\*|//|<<|>>|<=|>=|==|!=|[-−+*%&|^~<>(),])"
)
_BINARY: Mapping[str, tuple[int, Callable[[int, int], int]]] = {  # how tightly they bind, from the loosest on
    "|": (5, lambda one, other: one | other),
    "^": (6, lambda one, other: one ^ other),
    "&": (7, lambda one, other: one & other),
    "<<": (8, lambda one, other: one << other),
    ">>": (8, lambda one, other: one >> other),
    "+": (9, lambda one, other: one + other),
    "-": (9, lambda one, other: one - other),
    "*": (10, lambda one, other: one * other),
    "//": (10, lambda one, other: one // other),
    "%": (10, lambda one, other: one % other),
}
_COMPARISONS: Mapping[str, Callable[[int, int], bool]] = {
    "==": lambda one, other: one == other,
    "!=": lambda one, other: one != other,
    "<=": lambda one, other: one <= other,
    ">=": lambda one, other: one >= other,
    "<": lambda one, other: one < other,
    ">": lambda one, other: one > other,
}
_LOOSEST = 5  # of the binary operations


_NUMBER = re.compile(r"[-−]?(?:0x[0-9a-f]+|0|[1-9][0-9]*)")


class Unreadable(ValueError):
    """A text isn't an equation, or one of its sides isn't an expression."""


class LeftOut(ValueError):
    """Some numbers of a list are left out, so it has no value."""


def _fold(operation: Callable[[int, int], int]) -> Callable[..., int]:
    def folded(first: int, *others: int) -> int:
        for each in others:
            first = operation(first, each)
        return first

    return folded


def signed(value: int, bits: int) -> int:
    """The lowest bits of a number as a signed number."""
    low = value % (1 << bits)
    return low - (1 << bits) if low >> bits - 1 else low


def _divide(value: int, divisor: int) -> int:
    """Divide and round towards 0, as the manual's div does."""
    size = abs(value) // abs(divisor)
    return size if (value >= 0) == (divisor >= 0) else -size


def _round_off(value: int, bits: int, mode: int) -> int:
    """roundoff_signed and roundoff_unsigned of section 3.8: (v >> d) + r, where r is a function of the bits that are lost."""
    if bits == 0:
        return value
    lost, half, lowest = value % (1 << bits), 1 << bits - 1, value >> bits & 1
    increments = (lost >= half, lost > half or lost == half and lowest == 1, False, lowest == 0 and lost != 0)
    return (value >> bits) + int(increments[mode])


def _remainder(value: int, divisor: int) -> int:
    return value - _divide(value, divisor) * divisor


def _unsigned(value: int, bits: int) -> int:
    return value % (1 << bits)


def _first(*values: int) -> int:
    """The first number of a list; -1 of an empty one."""
    return values[0] if values else -1


def _nth(place: int, *values: int) -> int:
    return values[place]


_FUNCTIONS: Mapping[str, Callable[..., int]] = {
    **{
        "min": _fold(min),
        "max": _fold(max),
        "sum": lambda *values: sum(values),
        "any": lambda *values: int(any(values)),
    },
    **{"bitand": _fold(operator.and_), "bitor": _fold(operator.or_), "bitxor": _fold(operator.xor)},
    **{"first": _first, "nth": _nth, "round": _round_off, "quotient": _divide, "remainder": _remainder},
    **{"sext": signed, "zext": _unsigned},
}


def functions(width: int) -> Mapping[str, Callable[..., int]]:
    """The functions of equations. width: of the target in bits, for `clip` and `clipu`"""
    half = 1 << width - 1

    def clip(value: int) -> int:
        return max(-half, min(value, half - 1))

    def clipu(value: int) -> int:
        return max(0, min(value, 2 * half - 1))

    return {**_FUNCTIONS, "clip": clip, "clipu": clipu}


class _Expression:
    """An expression that is read and evaluated in one pass."""

    def __init__(self, text: str, width: int, number: Number | None, conversions: Sequence[str]) -> None:
        self._text, self._number, self._conversions = text, number, conversions
        self._functions, self._tokens, at = functions(width), list[str](), 0
        while at < len(text.rstrip()):
            found = _TOKEN.match(text, at)
            if found is None:
                raise Unreadable(f"{text[at:]!r} in {text!r}")
            self._tokens.append(found[1].replace("−", "-"))
            at = found.end()
        self._tokens.append("")

    def value(self) -> int:
        value = self._choice()
        if self._tokens[0]:
            raise Unreadable(f"{self._tokens[0]!r} in {self._text!r}")
        return value

    def _take(self, token: str) -> bool:
        if self._tokens[0] == token:
            self._tokens.pop(0)
            return True
        return False

    def _need(self, token: str) -> None:
        if not self._take(token):
            raise Unreadable(f"{token!r} is missing before {self._tokens[0]!r} in {self._text!r}")

    def _choice(self) -> int:
        """`A if C else B`."""
        value = self._or()
        if not self._take("if"):
            return value
        holds = self._or()
        self._need("else")
        other = self._choice()
        return value if holds else other

    def _or(self) -> int:
        value = self._and()
        while self._take("or"):
            other = self._and()
            value = int(bool(value) or bool(other))
        return value

    def _and(self) -> int:
        value = self._not()
        while self._take("and"):
            other = self._not()
            value = int(bool(value) and bool(other))
        return value

    def _not(self) -> int:
        return int(not self._not()) if self._take("not") else self._comparison()

    def _comparison(self) -> int:
        """`A < B <= C` holds if all of its comparisons do."""
        value = self._binary(_LOOSEST)
        if self._tokens[0] not in _COMPARISONS:
            return value
        holds = True
        while self._tokens[0] in _COMPARISONS:
            compare = _COMPARISONS[self._tokens.pop(0)]
            other = self._binary(_LOOSEST)
            holds, value = holds and compare(value, other), other
        return int(holds)

    def _binary(self, least: int) -> int:
        """Operations that bind at least so tightly, from the left."""
        value = self._unary()
        while self._tokens[0] in _BINARY and _BINARY[self._tokens[0]][0] >= least:
            level, operation = _BINARY[self._tokens.pop(0)]
            value = operation(value, self._binary(level + 1))
        return value

    def _unary(self) -> int:
        if self._take("-"):
            return -self._unary()
        if self._take("~"):
            return ~self._unary()
        value = self._atom()
        return int(value ** self._unary()) if self._take("**") else value

    def _atom(self) -> int:
        token = self._tokens.pop(0)
        if token == "...":
            raise LeftOut(self._text)
        if token == "(":
            value = self._choice()
            self._need(")")
            return value
        if token[:1].isdigit():
            return int(token, 0)
        if self._tokens[0] == "(" and token[:1].isalpha():
            return self._call(token)
        if self._number is None or not token[:1].isalpha():
            raise Unreadable(f"{token!r} in {self._text!r}")
        return self._number(token)

    def _call(self, name: str) -> int:
        """A function's value; `signed(v2[5])` is a name, whose width only the state has."""
        if self._number and name in self._conversions and ")" in self._tokens[2:4]:
            end = self._tokens.index(")")
            term = "".join(self._tokens[: end + 1])
            del self._tokens[: end + 1]
            return self._number(f"{name}{term}")
        self._need("(")
        values = list[int]()
        while not self._take(")"):
            values.append(self._choice())
            if self._tokens[0] != ")":
                self._need(",")
        if name not in self._functions:
            raise Unreadable(f"{name}() in {self._text!r}")
        return self._functions[name](*values)


def evaluate(text: str, width: int = 64, number: Number | None = None) -> int:
    """Evaluate an expression that is shown. Raises LeftOut if it leaves numbers out, and Unreadable if it isn't one.

    width: of the target in bits; number: the numbers of names, which may be in `signed(..)` and the like; None if none may be there
    """
    try:
        return _Expression(text, width, number, ("signed", "unsigned", "sext", "zext")).value()
    except (TypeError, ZeroDivisionError, IndexError) as error:
        raise Unreadable(f"{text!r}: {error}") from error


def read_number(text: str) -> int:
    """Read a number that is shown, decimal or with 0x, and with either minus. Raises Unreadable for other texts."""
    if not _NUMBER.fullmatch(text):
        raise Unreadable(f"{text!r} is no number")
    return int(text.replace("−", "-"), 0)


@dataclass(frozen=True)
class Equation:
    """An equation as it is shown.

    target: the name on the left; sides: the right sides between it and the result, with names first and numbers last
    exact: the number that the last side is; stored: the number that the target has afterwards
    """

    target: str
    sides: Sequence[str]
    exact: int
    stored: int


_CAUSES, _LOWEST = ", since ", re.compile(r"(\S+), whose lowest ([0-9]+) bits are (\S+)")
_AS = re.compile(r"(\S+) \((?:un)?signed: (\S+)\)")


def read_equation(text: str) -> Equation:
    """Read an equation that is shown. Raises Unreadable for other texts."""
    target, *sides = text.partition(_CAUSES)[0].split(" = ")
    if not sides:
        raise Unreadable(f"{text!r} has no sides")
    last = sides[-1]
    if found := _LOWEST.fullmatch(last):
        return Equation(target, sides[:-1], read_number(found[1]), read_number(found[3]))
    if found := _AS.fullmatch(last):
        return Equation(target, sides[:-1], read_number(found[1]), read_number(found[2]))
    return Equation(target, sides[:-1], read_number(last), read_number(last))


_CAUSE = re.compile(r"(.+?) is (true|false)(?: and |$)")


def read_causes(text: str) -> Iterator[tuple[Sequence[str], bool]]:
    """Read the conditions after an equation: each with names and, if they differ, with numbers, and whether it is true."""
    for condition, verdict in _CAUSE.findall(text.partition(_CAUSES)[2]):
        yield _both(condition), verdict == "true"


def _both(condition: str) -> Sequence[str]:
    """The parts of `names (numbers)`; the condition itself without the second part."""
    if not condition.endswith(")"):
        return [condition]
    depth, start = 0, len(condition)
    while start == len(condition) or depth:
        start -= 1
        depth += {")": 1, "(": -1}.get(condition[start], 0)
    return [condition[: start - 1], condition[start + 1 : -1]] if condition[start - 1 : start] == " " else [condition]
