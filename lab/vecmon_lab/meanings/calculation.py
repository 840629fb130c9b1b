"""The calculation of one element, in parts: each number has a name, bits and a sign, and can be written as text.

`why`, pages, lessons and notebooks print calculations from these parts, in one notation.
"""

import enum
from collections.abc import Iterator
from dataclasses import dataclass
from typing import Literal

from ..instructions.table import ABI_NAMES
from .formula import sext

NumberForm = Literal["signed", "unsigned", "hexadecimal"]
"""The form in which a reader wants numbers. It decides the sign of numbers whose sign doesn't change the result."""


class Sign(enum.Enum):
    """How a formula interprets the bits of a number. EITHER: the result has the same bits for signed and unsigned numbers."""

    SIGNED = "signed"
    UNSIGNED = "unsigned"
    EITHER = "either"


@dataclass(frozen=True)
class Notation:
    """How numbers and names are written.

    form: the form of numbers; hexadecimal numbers have 0x before their digits
    has_abi_names: whether a scalar register is written as a0 instead of x10
    minus: the sign before negative numbers
    """

    form: NumberForm = "signed"
    has_abi_names: bool = False
    minus: str = "-"

    def number(self, value: int) -> str:
        """Return a number as text."""
        digits = f"{abs(value):#x}" if self.form == "hexadecimal" else f"{abs(value)}"
        return f"{self.minus}{digits}" if value < 0 else digits

    def taken(self, bits: int, width: int, sign: Sign) -> int:
        """Return the number that bits represent.

        bits: the bits as an unsigned number; width: the number of bits, or 0 for a number without width, which is returned unchanged
        sign: how the formula interprets the bits
        """
        has_sign = sign == Sign.SIGNED or sign == Sign.EITHER and self.form == "signed"
        return sext(bits, width) if has_sign and width > 1 else bits


@dataclass(frozen=True)
class Term:
    """A number in a calculation, and its name.

    name: `v4[5]`, `v0.mask[5]`, `memory[0x11004]`, `x11`, `sew`; for an immediate, its digits
    scalar: the number of a scalar register, whose ABI name may replace x11; None for other terms
    bits: the number's bits as an unsigned number; without a width, the number itself, which may be negative
    width: the number's width in bits; 1 for a bit of a mask; 0 for an immediate, or for a number of the machine such as `sew`
    sign: how the formula interprets the bits
    function: the function around the name: `signed`, `unsigned`, `sext`, `zext`; or ""
    register, index: for an element of a vector register group, the group's first register and the element's index. A term that
    is an element's index has only `index`.
    step: the distance from this term to the term at the same place in the calculation of the next element, in elements: 1; 0 if both
        calculations use the same term; None if the distance varies
    """

    name: str
    bits: int
    width: int = 0
    sign: Sign = Sign.UNSIGNED
    scalar: int | None = None
    function: str = ""
    register: int | None = None
    index: int | None = None
    step: int | None = 0

    def value(self, notation: Notation) -> int:
        """Return the number that the formula uses."""
        return notation.taken(self.bits, self.width, self.sign)

    def named(self, notation: Notation) -> str:
        """Return the name as text, with the function around it, such as `signed(v4[5])`."""
        has_abi_name = self.scalar is not None and notation.has_abi_names
        name = ABI_NAMES[f"x{self.scalar}"] if has_abi_name else self.name.replace("-", notation.minus)
        is_unsigned = self.name.startswith("-") and self.value(notation) >= 0  # a negative immediate
        function = "unsigned" if is_unsigned else self.function
        return f"{function}({name})" if function else name


Part = str | Term
"""A part of a calculation: text, such as ` + `, or a number."""


@dataclass(frozen=True)
class Condition:
    """A condition that selected one of two formulas, and whether it holds."""

    parts: tuple[Part, ...]
    holds: bool

    def text(self, notation: Notation) -> str:
        """Return the condition with names, with numbers in parentheses, and whether it is true."""
        names, numbers = names_text(self.parts, notation), numbers_text(self.parts, notation)
        return f"{names}{f' ({numbers})' if numbers != names else ''} is {'true' if self.holds else 'false'}"


@dataclass(frozen=True)
class Calculation:
    """Why an element of a vector register, or a scalar register, has its value: a formula with names and with numbers.

    target: the element or register, with its bits after the instruction, and its width
    parts: the right side
    results: the exact value of the right side, first with terms of sign EITHER as signed numbers, and then as unsigned ones
    causes: the conditions that selected this formula
    """

    target: Term
    parts: tuple[Part, ...]
    results: tuple[int, int]
    causes: tuple[Condition, ...] = ()

    def text(self, notation: Notation = Notation()) -> str:
        """Return the equation: `v8[5] = v2[5] * x11 = 6 * 3 = 18`. Equal sides are written once."""
        names, numbers = names_text(self.parts, notation), numbers_text(self.parts, notation)
        sides = dict.fromkeys([self.target.named(notation), names, numbers])
        last = self.result_text(notation)
        shown = " = ".join([*sides, last] if last != numbers else sides)
        return shown + (f", since {' and '.join(each.text(notation) for each in self.causes)}" if self.causes else "")

    def result_text(self, notation: Notation) -> str:
        """Return the exact result. If the number in the target's bits differs from it, this number follows."""
        exact = self.results[notation.form != "signed"]
        bits, width = self.target.bits, self.target.width
        stored = notation.taken(bits, width, Sign.EITHER)
        if exact == stored:
            return notation.number(exact)
        if exact in (bits, sext(bits, width)):
            kind = "signed" if notation.form == "signed" else "unsigned"
            return f"{notation.number(exact)} ({kind}: {notation.number(stored)})"
        return f"{notation.number(exact)}, whose lowest {width} bits are {notation.number(stored)}"


@dataclass(frozen=True)
class Kept:
    """Why an element or a register kept its value, or became all ones.

    target: the element or register, with its bits after the instruction, and its width
    cause: the cause, as a clause without a full stop
    is_ones: whether the element is agnostic, and the policy `ones` set its bits
    """

    target: Term
    cause: str
    is_ones: bool = False

    def text(self, notation: Notation = Notation()) -> str:
        """Return a sentence with the target's name, its value and the cause."""
        name = self.target.named(notation)
        if self.is_ones:
            return f"{name} = {self.target.bits:#x}, all ones, since it is agnostic under policy ones: {self.cause}"
        return f"{name} kept its value {notation.number(self.target.value(notation))}: {self.cause}"


def names_text(parts: tuple[Part, ...], notation: Notation) -> str:
    """Return parts as text, with the names of numbers."""
    return "".join(_written(parts, [part if isinstance(part, str) else part.named(notation) for part in parts]))


def numbers_text(parts: tuple[Part, ...], notation: Notation) -> str:
    """Return parts as text, with numbers in place of their names."""
    texts = [part if isinstance(part, str) else notation.number(part.value(notation)) for part in parts]
    return "".join(_written(parts, texts))


def _written(parts: tuple[Part, ...], texts: list[str]) -> Iterator[str]:
    """Yield the texts of parts, with parentheses around negative numbers next to other parts."""
    for part, text in zip(parts, texts):
        is_negative = isinstance(part, Term) and not text[0].isalnum()
        yield f"({text})" if is_negative and len(parts) > 1 else text
