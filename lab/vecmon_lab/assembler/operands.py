"""The shapes of operands: registers, keywords, addresses in parentheses, and numbers."""

import re

from ..instructions.table import REGISTERS
from ..tables.table import read_table
from .line import Operand, Token

REGISTER_NAMES = {name: name for name in ["v0.t", *(f"{letter}{number}" for letter in "xv" for number in range(32))]}
REGISTER_NAMES |= REGISTERS
"""The names of registers in the machine's syntax, by the names that sources may use."""

KEYWORD = re.compile("|".join(f"{name} (?:{words.replace(' ', '|')})" for name, words in read_table("keywords")))
"""The name of an instruction, a space, and a keyword that the instruction takes as an operand, such as a control register."""


def address_register(operand: Operand) -> Token | None:
    """Return the register of an address in parentheses, as (a0) or 8(a0); None for other operands."""
    if len(operand) < 3 or (operand[-3].text, operand[-1].text) != ("(", ")"):
        return None
    return operand[-2] if operand[-2].text in REGISTER_NAMES else None


def shape(operand: Operand) -> str:
    """Return `scalar` or `vector` for a register, `indirect` for an address in parentheses, and otherwise `number`."""
    if address_register(operand):
        return "indirect"
    text = REGISTER_NAMES.get(operand[0].text, "")
    return {"x": "scalar", "v": "vector"}.get(text[:1], "number")
