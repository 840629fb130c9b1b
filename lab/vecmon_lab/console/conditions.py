"""Conditions of breakpoints. A condition compares two unsigned 64-bit numbers; each is a constant or the value of a register."""

import re
from collections.abc import Callable, Mapping
from dataclasses import dataclass
from operator import eq, ge, gt, le, lt, ne

from .. import LabError
from ..guest.changes import NAMES
from ..guest.guest import Guest
from ..instructions.table import ABI_NAMES
from ..machine.answers import Addresses, ControlRegisters, ScalarRegisters

REGISTERS = {name: number for number, name in ABI_NAMES.items()} | {"fp": "x8"} | {name: name for name in NAMES}
"""Names of scalar and control registers, each with its name in NAMES."""

_SIGNS = {"==": eq, "!=": ne, "<=": le, ">=": ge, "<": lt, ">": gt}
_FORM = re.compile(rf"(\S+?)\s*({'|'.join(_SIGNS)})\s*(\S+)")


@dataclass(frozen=True)
class Condition:
    """A condition: its text, its comparison operator, and the two sides to compare.

    sides: each is the name of a register, or a number
    """

    text: str
    sign: str
    sides: tuple[str | int, str | int]

    @classmethod
    def read(cls, text: str, value: Callable[[str], str]) -> "Condition":
        """Parse a condition. Raises LabError if it is invalid.

        value: returns the hexadecimal digits of the value of a symbol or number
        """
        found = _FORM.fullmatch(text.strip())
        if found is None:
            raise LabError(f"{text.strip()} is no condition: a0 == 5 or vl < 8 is one")
        return cls(text.strip(), found[2], (_side(found[1], value), _side(found[3], value)))

    def holds(self, values: Mapping[str, int]) -> bool:
        """Return whether the condition holds. values: the values of all scalar and control registers, by their names in NAMES"""
        left, right = (values[side] if isinstance(side, str) else side for side in self.sides)
        return bool(_SIGNS[self.sign](left, right))


class Conditions:
    """The conditions of a user's breakpoints. by_address: the conditions, by the breakpoint's address"""

    def __init__(self, guest: Guest) -> None:
        self._guest = guest
        self.by_address: dict[int, Condition] = {}

    def drop_old(self) -> None:
        """Delete the conditions of breakpoints that don't exist any more."""
        if self.by_address:
            (reply,) = self._guest.ask("breaks")
            there = reply.addresses if isinstance(reply, Addresses) else []
            self.by_address = {at: it for at, it in self.by_address.items() if at in there}

    def hold(self, address: int) -> bool:
        """Return whether the condition of the breakpoint at an address holds; True if it has none."""
        if address not in self.by_address:
            return True
        registers, control = self._guest.query("regs", ScalarRegisters), self._guest.query("vcsr", ControlRegisters)
        return self.by_address[address].holds(dict(zip(NAMES, [*registers.x, *vars(control).values()])))

    def text(self, address: int) -> str:
        """Return the condition of a breakpoint for a listing; "" if it has none."""
        return f" if {self.by_address[address].text}" if address in self.by_address else ""


def _side(word: str, value: Callable[[str], str]) -> str | int:
    """Return one side of a condition: the name in NAMES of a register, or else the value of a symbol or number. Raises LabError.

    word: the text of the side; value: as in `Condition.read`
    """
    if word in REGISTERS:
        return REGISTERS[word]
    digits = value(word)
    if not re.fullmatch("[0-9a-fA-F]{1,16}", digits):
        raise LabError(f"{word} is no register, no symbol and no value, which has only hexadecimal digits")
    return int(digits, 16)
