"""Labels and constants of a source by name, and the values of operands that use them."""

from collections import Counter
from collections.abc import Sequence
from dataclasses import dataclass, replace
from difflib import get_close_matches
from heapq import nsmallest

from ..tables.table import read_table
from .expression import Expression, signed
from .line import Kind, Operand, SourceError, Token, chain
from .names import absence
from .value import Value

_NO_FUNCTIONS = {
    "got": "the machine has no global offset table: compile with -fno-pic",
    "t": "thread-local storage isn't in this machine",
    "": "those of this assembler are %hi, %lo, %pcrel_hi and %pcrel_lo",
}
MAX_DEPTH = 50  # the longest chain of constants, each of which is defined by a later one
MAX_EVALUATED = 100_000  # the most tokens of such constants to evaluate before sections have their bases
MAX_COMPARED = 200  # names that a missing one is compared with
_CONTROL_REGISTERS = dict(read_table("keywords"))[r"csr\w*"].split()


class UnknownName(SourceError):
    """A name has no value at the place where it is used."""

    def __init__(self, token: Token, message: str) -> None:
        super().__init__(token.line, token.column, message + chain(token.within))
        self.token, self.name = token, "" if token.symbol else token.text


class DefinitionLoop(SourceError):
    """A constant is defined by itself."""


@dataclass(frozen=True)
class _Later:
    """An operand that is evaluated when its value is needed, because a name in it is defined later."""

    operand: Operand
    here: Value


class Symbols:
    """The labels and constants of a source by name, and the values of operands that use them.

    is_placed: whether sections have their bases
    """

    def __init__(self) -> None:
        self.is_placed = False
        self._values: dict[str, Value | _Later] = {}
        self._lines: dict[str, int] = {}
        self._versions: dict[str, str] = {}  # the key of the current value of each constant that directives define
        self._numeric = Counter[int]()
        self._highs: dict[Value, tuple[Operand, Value]] = {}  # operands of %pcrel_hi by the instruction's address
        self._pending: set[str] = set()
        self._found: dict[str, Value] = {}  # values of constants that were evaluated since the last definition
        self._evaluated = 0  # tokens of constants that are defined by later ones

    def define(self, name: Token, here: Value) -> None:
        """Define a label, which may be numeric. Raises SourceError if the name is already defined."""
        self._found.clear()
        if name.kind is Kind.NUMBER:
            self._numeric[int(name.text)] += 1
            self._values[f"{int(name.text)}\n{self._numeric[int(name.text)]}"] = here
            return
        self._check_is_new(name)
        self._values[name.text], self._lines[name.text] = here, name.line

    def assign(self, name: Token, operand: Operand, here: Value, is_once: bool = False) -> None:
        """Give a name the value of an operand. Raises SourceError if the name already has a value that may not be replaced.

        A value that an earlier call of `assign` gave to the name is replaced, unless `is_once` is set.

        here: the address of the statement, the value of a dot in the operand
        """
        if is_once or name.text not in self._versions:
            self._check_is_new(name)
        value: Value | _Later
        try:
            value = self.evaluate(operand, here)
        except UnknownName:
            value = _Later(operand, here)
        except SourceError:
            self.assume(name.text)
            raise
        self._found.clear()
        version = f"{name.text}\n={len(self._values)}"
        self._values[version] = self._values[name.text] = value
        self._versions[name.text], self._lines[name.text] = version, name.line

    def move(self, place: Value, destination: Value) -> None:
        """Give all labels with the address `place` the address `destination` instead."""
        self._found.clear()
        self._values |= {name: destination for name, value in self._values.items() if value == place}

    def assume(self, name: str) -> None:
        """Give a name a value after its definition was refused, so that statements that use the name aren't refused too."""
        self._found.clear()
        self._values.setdefault(name, Value(0))
        self._lines.setdefault(name, 0)

    def _check_is_new(self, name: Token) -> None:
        if name.text in self._values:
            raise name.error(f"{name.text} is defined in line {self._lines[name.text]} already")

    def is_defined(self, name: str) -> bool:
        """Return whether one of the statements that were read so far defines a name."""
        return name in self._values

    def bound(self, operand: Operand) -> Operand:
        """Return an operand with the current meaning of its numeric labels, such as `1b`, and of its names that may get new values."""
        return [self._bound(token) for token in operand]

    def _bound(self, token: Token) -> Token:
        if token.kind is Kind.NAME and token.text in self._versions:
            return replace(token, symbol=self._versions[token.text])
        if token.kind is Kind.NUMBER and token.text[-1] in "bf" and token.text[:-1].isdecimal():
            number = int(token.text[:-1])
            return replace(token, symbol=f"{number}\n{self._numeric[number] + (token.text[-1] == 'f')}")
        return token

    def note_high(self, operands: Sequence[Operand], here: Value) -> None:
        """Save the symbol of %pcrel_hi if an instruction's operands have one. %pcrel_lo of the instruction's label needs it.

        here: the address of the instruction
        """
        for operand in operands:
            texts = [token.text for token in operand[:3]]
            if texts == ["%", "pcrel_hi", "("] and len(operand) > 4:
                self._highs[here] = operand[3:-1], here

    def evaluate(self, operand: Operand, here: Value) -> Value:
        """Return the value of an operand; a dot in it is the address `here`. Raises SourceError."""
        return Expression(
            operand,
            lambda token: here if token.text == "." else self._named(token),
            lambda name, inner: self._function(name, inner, here),
        ).value()

    def constant(self, operand: Operand, here: Value) -> int:
        """Return the value of an operand. Raises SourceError if it isn't a number that is known at this time."""
        value = self.evaluate(operand, here)
        if value.section is not None:
            raise operand[0].error("a number is needed here, and this is an address: la loads one into a register")
        if not value.is_number and not self.is_placed:
            raise operand[0].error("the distance between two sections isn't known here")
        return value.resolved()

    def data(self, operand: Operand, here: Value, size: int) -> bytes:
        """Return the value of an operand, signed or unsigned, as `size` bytes in little-endian order.

        Raises SourceError if the value doesn't fit. Call this once sections have their bases.
        """
        value, width = self.evaluate(operand, here).resolved(), 8 * size
        if not -(1 << width - 1) <= value < 1 << width:
            raise operand[0].error(f"{value} is out of range: {-(1 << width - 1)} to {(1 << width) - 1} fit")
        return (value % (1 << width)).to_bytes(size, "little")

    def addresses(self) -> dict[str, int]:
        """Return the addresses of labels in loaded sections, without numeric labels, once sections have their bases."""
        values = {name: value for name, value in self._values.items() if _is_word(name) and isinstance(value, Value)}
        return {name: it.resolved() for name, it in values.items() if it.section and it.section.permissions}

    def _named(self, token: Token) -> Value:
        """Return the value of a name. Raises SourceError."""
        name = token.symbol or (token.string().decode("utf-8", "replace") if token.kind is Kind.STRING else token.text)
        if name not in self._values:
            raise self._unknown(token)
        value = self._values[name]
        if isinstance(value, Value):
            return value
        if name in self._found:
            return self._found[name]
        if name in self._pending:
            error = token.error(f"{token.text} is defined by itself")
            raise DefinitionLoop(error.line, error.column, error.message)
        if len(self._pending) == MAX_DEPTH:
            raise token.error(f"{token.text} is defined by more than {MAX_DEPTH} constants, each by the next one")
        self._evaluated += 0 if self.is_placed else len(value.operand)
        if self._evaluated > MAX_EVALUATED:
            raise token.error(
                f"{token.text} takes too long to evaluate: define its constants before those that use them"
            )
        self._pending.add(name)
        try:
            found = self.evaluate(value.operand, value.here)
        finally:
            self._pending.discard(name)
        self._found[name] = found
        return found

    def loop(self) -> DefinitionLoop | None:
        """Return the error for the first constant that is defined by itself; None if there is none. Sections must have their bases."""
        for value in self._values.values():
            try:
                if isinstance(value, _Later):
                    self.evaluate(value.operand, value.here)
            except DefinitionLoop as error:
                return error
            except SourceError:  # a name is undefined, but the constant may be unused
                continue
        return None

    def suggest(self, mistakes: Sequence[SourceError]) -> list[SourceError]:
        """Set the fixes of mistakes about undefined names to the nearest defined names, and return all mistakes in the same order.

        A name is compared with at most MAX_COMPARED others, first those with the same first letter, then those of similar length.
        """
        words = [name for name in self._values if _is_word(name)]
        for error in mistakes:
            if isinstance(error, UnknownName) and error.name:
                nearest = nsmallest(MAX_COMPARED, words, key=lambda word, of=error.name: _difference(word, of))  # type: ignore[misc]
                error.fix = get_close_matches(error.name, nearest)
        return [*mistakes]

    def explained(self, error: SourceError) -> SourceError:
        """Return a mistake, or if it is about a name that a later line defines, a mistake that names this line instead."""
        line = self._lines.get(error.name, 0)
        if not line or not isinstance(error, UnknownName):
            return error
        problem = f"{error.name} is defined in line {line}, and its value is needed here: define it before this line"
        return error.token.error(problem)

    def _unknown(self, token: Token) -> SourceError:
        if token.symbol:
            side = "after" if token.text.endswith("f") else "before"
            message = f"there is no label {token.text[:-1]}: {side} here, where {token.text} looks for one"
        else:
            message = f"{token.text} is no register that fits here, and no label or constant known here"
        return UnknownName(token, message)

    def _function(self, name: Token, inner: Operand, here: Value) -> Value:
        """Return the value of %hi, %lo, %pcrel_hi or %pcrel_lo. Raises SourceError.

        name: of the function; inner: the tokens between its parentheses; here: the address of the statement
        """
        function = name.text.lower()
        if function not in ("hi", "lo", "pcrel_hi", "pcrel_lo"):
            reason = next(text for start, text in _NO_FUNCTIONS.items() if function.startswith(start))
            raise name.error(f"there is no %{name.text} here: {reason}")
        value = self.evaluate(inner, here)
        if not (self.is_placed or value.is_number):
            raise name.error(f"%{name.text} of an address is for instructions: its value isn't known here")
        number = value.resolved()
        if function == "pcrel_lo":
            if value not in self._highs:
                raise name.error("%pcrel_lo takes the label of an instruction with %pcrel_hi")
            symbol, here = self._highs[value]
            number = self.evaluate(symbol, here).resolved() - here.resolved()
        elif function == "pcrel_hi":
            number -= here.resolved()
        high = number + 0x800 >> 12
        return Value(high % (1 << 20) if function.endswith("hi") else signed(number - (high << 12)))


def _difference(word: str, other: str) -> tuple[bool, int]:
    """Return whether the first letters of two names differ, and the difference of their lengths."""
    return word[:1] != other[:1], abs(len(word) - len(other))


def _is_word(name: str) -> bool:
    """Return whether a key of the table of values is a label's or constant's name without spaces.

    Other keys are for numeric labels, and for earlier values of a constant.
    """
    return " " not in name and "\n" not in name


def control_register_error(token: Token) -> SourceError:
    """Return the error for a name that isn't a control register. If another extension has the register, the error says so."""
    *others, last = _CONTROL_REGISTERS
    reason = absence(token.text)
    return token.error(
        f"{token.text} isn't a control register of this machine, which has {', '.join(others)} and {last}"
        f"{'. ' if reason else ''}{reason}"
    )
