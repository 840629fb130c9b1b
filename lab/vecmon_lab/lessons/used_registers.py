"""The registers that a lesson uses. Its page shows them before other registers."""

from collections.abc import Mapping
from typing import TypedDict

from ..guest.guest import SET_UP_ADDRESS
from ..instructions.accesses import vector_instruction
from ..instructions.scalar_registers import scalar_written
from ..instructions.table import row_of
from ..machine.lines import words_of
from ..page.last_instruction import read_registers
from ..page.state import State, control_of


class UsedRegisters(TypedDict):
    """The registers that a user's lines and instructions use. x, v: the numbers of scalar and vector registers, in rising order, without x0"""

    x: list[int]
    v: list[int]


class UseCounter:
    """Collects the registers that one user uses: those that executed instructions read or write, and those that the user's lines name.

    The lines that fill all registers before a case of an exercise don't count.
    """

    def __init__(self) -> None:
        self._x, self._v = set[int](), set[int]()
        self._named = set[str]()  # names such as `x5`, from lines since the user's machine started

    def follow(self, line: str) -> None:
        """Count the registers that an accepted line names.

        The line that writes the set-up instruction of an exercise's case drops the registers named since the user's machine started.
        """
        match words_of(line):
            case ["leave"] | ["load", _]:
                self._keep_named()
            case ["asm", address, *_] if int(address, 16) == SET_UP_ADDRESS:
                self._named.clear()
            case ["set" | "vset" | "vreg", name, *_]:
                self._named.add(name)

    def execute(self, line: str, before: State) -> None:
        """Add the registers of an executed instruction.

        line: its line in the listing, or "" if it isn't listed; before: the state before it, which has registers
        """
        word = int(line[:8], 16) if line else 0
        if row_of(word) is None:
            return
        control = control_of(before)
        read, vector = read_registers(word, before["x"], before["v"], control), vector_instruction(word, control.vtype)
        self._x.update(map(int, read["x"]), [scalar_written(word)])
        self._v.update(map(int, read["v"]), [0] if vector and vector.is_masked else [])

    def run(self, before: State, after: State) -> None:
        """Add the registers of instructions that were executed between two states.

        All instructions of the listing count, and all registers that have changed.
        """
        for state in (before, after):
            for line in after["code"].values() if "x" in state else ():
                self.execute(line, state)
        self._x.update(_changed(before.get("x", {}), after["x"]))
        self._v.update(_changed(before.get("v", {}), after["v"]))

    def registers(self) -> UsedRegisters:
        """Return all registers so far."""
        self._keep_named()
        return {"x": sorted(self._x - {0}), "v": sorted(self._v)}

    def _keep_named(self) -> None:
        for name in self._named:
            (self._v if name[0] == "v" else self._x).add(int(name[1:]))
        self._named.clear()


def _changed(before: Mapping[str, str], after: Mapping[str, str]) -> set[int]:
    """Return the numbers of registers whose values differ from those before."""
    return {int(number) for number, value in after.items() if before.get(number, value) != value}
