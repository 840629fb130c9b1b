"""Expressions of a source, with the operators and precedences of GNU as."""

from collections.abc import Callable
from dataclasses import dataclass, field

from .line import Kind, Operand, Token
from .value import Value

MAX_DEPTH = 50  # the most parentheses and prefixes inside each other
_RANKS: dict[str, int] = {
    **dict.fromkeys(("||",), 1),
    **dict.fromkeys(("&&",), 2),
    **dict.fromkeys(("==", "!=", "<>", "<", "<=", ">", ">="), 3),
    **dict.fromkeys(("+", "-"), 4),
    **dict.fromkeys(("|", "&", "^", "!"), 5),
    **dict.fromkeys(("*", "/", "%", "<<", ">>"), 6),
}
_COMPARISONS: dict[str, Callable[[int], bool]] = {  # each takes the difference of the two sides
    "==": lambda difference: difference == 0,
    "!=": lambda difference: difference != 0,
    "<>": lambda difference: difference != 0,
    "<": lambda difference: difference < 0,
    "<=": lambda difference: difference <= 0,
    ">": lambda difference: difference > 0,
    ">=": lambda difference: difference >= 0,
}
_PREFIXES: dict[str, Callable[[int], int]] = {
    "~": lambda number: _wrapped(~number),
    "!": lambda number: int(number == 0),
}
ONLY_DIFFERENCES = "of two addresses only the difference can be taken"


def signed(number: int) -> int:
    """Return the lowest 64 bits of a number, as a signed number."""
    return (number + (1 << 63)) % (1 << 64) - (1 << 63)


def _wrapped(number: int) -> int:
    """Return a number unchanged if it fits into 64 bits, signed or unsigned; otherwise its lowest 64 bits."""
    return number if -(1 << 63) <= number < 1 << 64 else signed(number)


def _quotient(left: int, right: int) -> int:
    """Return the quotient, rounded towards 0 as in C."""
    left, right = signed(left), signed(right)
    quotient = abs(left) // abs(right)
    return quotient if (left < 0) == (right < 0) else -quotient


_OPERATIONS: dict[str, Callable[[int, int], int]] = {
    "||": lambda left, right: int(left != 0 or right != 0),
    "&&": lambda left, right: int(left != 0 and right != 0),
    "|": lambda left, right: left | right,
    "&": lambda left, right: left & right,
    "^": lambda left, right: left ^ right,
    "!": lambda left, right: left | ~right,
    "*": lambda left, right: _wrapped(left * right),
    "/": _quotient,
    "%": lambda left, right: signed(left) - signed(right) * _quotient(left, right),
    "<<": lambda left, right: _wrapped(left << right) if right < 64 else 0,
    ">>": lambda left, right: left % (1 << 64) >> right if right < 64 else 0,
}


@dataclass
class Expression:
    """An operand that is evaluated once, from its first token to its last.

    tokens: the operand; term: returns the value of a name or a dot
    function: takes the name in %NAME(..) and the tokens between its parentheses; returns the function's value
    """

    tokens: Operand
    term: Callable[[Token], Value]
    function: Callable[[Token, Operand], Value]
    _next: int = field(default=0, init=False)
    _depth: int = field(default=0, init=False)

    def value(self) -> Value:
        """Return the value of the whole operand. Raises SourceError."""
        value = self._operation(1)
        if token := self._peek():
            if token.text == "(":
                raise token.error("an address is a register in parentheses, with a number before it or without")
            raise token.error(f"{token.text} doesn't fit here: a comma may be missing before it")
        if not (value.is_number or value.section or value.is_difference):
            raise self.tokens[-1].error(ONLY_DIFFERENCES)
        return value

    def _peek(self) -> Token | None:
        return self.tokens[self._next] if self._next < len(self.tokens) else None

    def _take(self) -> Token:
        if self._next == len(self.tokens):
            raise self.tokens[-1].error(f"a number is missing after {self.tokens[-1].text}")
        self._next += 1
        return self.tokens[self._next - 1]

    def _operation(self, rank: int) -> Value:
        """Return the value of the next terms and the operators between them, up to an operator with a lower precedence than `rank`."""
        left = self._term()
        while (operator := self._peek()) and operator.kind is Kind.MARK and _RANKS.get(operator.text, 0) >= rank:
            self._take()
            if operator.text == "!" and (following := self._peek()) and following.text == "!":
                raise operator.error("!! between numbers is ^ to GNU as, and ! twice to clang: write ^, or parentheses")
            right = self._operation(_RANKS[operator.text] + 1)
            left = _applied(operator, left, right)
        return left

    def _term(self) -> Value:
        token = self._take()
        self._depth += 1
        if self._depth > MAX_DEPTH:
            raise token.error(f"this expression has more than {MAX_DEPTH} parentheses and prefixes inside each other")
        value = self._term_from(token)
        self._depth -= 1
        return value

    def _term_from(self, token: Token) -> Value:
        """Return the value of the term that begins with a token, which is already taken. Raises SourceError."""
        if token.kind is Kind.NUMBER and not token.symbol:
            return Value(token.number())
        if token.kind is not Kind.MARK:
            return self.term(token)
        if token.text == "(":
            value = self._operation(1)
            self._close(token)
            return value
        if token.text in "+-":
            return _sum(Value(0), self._term(), -1 if token.text == "-" else 1)
        if token.text in _PREFIXES:
            return Value(_wrapped(_PREFIXES[token.text](_number(token, self._term()))))
        name = self._peek()
        if token.text == "%" and name and name.kind is Kind.NAME:
            return self._function(self._take())
        raise token.error(f"{token.text} doesn't fit here")

    def _function(self, name: Token) -> Value:
        opening = self._peek()
        if opening is None or opening.text != "(":
            raise name.error(f"%{name.text} takes a symbol in parentheses, as %{name.text}(x)")
        self._take()
        start = self._next
        self._next = _closing(self.tokens, start)
        self._close(opening)
        inner = self.tokens[start : self._next - 1]
        if not inner:
            raise opening.error(f"%{name.text} takes a symbol in parentheses, as %{name.text}(x)")
        return self.function(name, inner)

    def _close(self, opening: Token) -> None:
        token = self._peek()
        if token is None or token.text != ")":
            raise (token or opening).error(f"a closing parenthesis is missing{' before this' if token else ''}")
        self._take()


def _closing(tokens: Operand, start: int) -> int:
    """Return the index of the parenthesis that closes the one before the index `start`; the number of tokens if there is none."""
    depth = 1
    for index in range(start, len(tokens)):
        depth += {"(": 1, ")": -1}.get(tokens[index].text, 0)
        if depth == 0:
            return index
    return len(tokens)


def _number(token: Token, value: Value) -> int:
    """Return a value as a number. Raises SourceError if it is an address, which the operator `token` doesn't take."""
    if not value.is_number:
        raise token.error(f"{token.text} takes numbers, and this has an address: {ONLY_DIFFERENCES}")
    return value.number


def _sum(left: Value, right: Value, sign: int) -> Value:
    """Return the sum of two values in 64 bits; their difference if `sign` is -1."""
    total = left.plus(right, sign)
    return total._replace(number=_wrapped(total.number))


def _applied(operator: Token, left: Value, right: Value) -> Value:
    """Return the result of an operator for the values on its two sides. Raises SourceError."""
    name = operator.text
    if name in "+-":
        return _sum(left, right, 1 if name == "+" else -1)
    if name in _COMPARISONS:
        if left.is_number and right.is_number:
            left, right = Value(signed(left.number)), Value(signed(right.number))
        return Value(-int(_COMPARISONS[name](_number(operator, left.plus(right, -1)))))
    numbers = _number(operator, left), _number(operator, right)
    if name in "/%" and numbers[1] == 0:
        raise operator.error("this divides by zero")
    if name in ("<<", ">>") and not 0 <= numbers[1] < 64:
        raise operator.error(f"this shifts by {numbers[1]}: 0 to 63 fit")
    return Value(_OPERATIONS[name](*numbers))
