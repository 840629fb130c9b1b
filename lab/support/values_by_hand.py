"""Results of single instructions that are worked by hand (lab/tests/data/values_by_hand.txt), as states of formulas and of the machine."""

import functools
from collections.abc import Mapping, Sequence
from dataclasses import dataclass

from support.places import DATA
from vecmon_lab.guest.guest import Guest
from vecmon_lab.instructions.accesses import REGISTER_BYTES
from vecmon_lab.machine.answers import ControlRegisters, Listing, ScalarRegisters
from vecmon_lab.machine.session import Session
from vecmon_lab.meanings.executed import Before, execute
from vecmon_lab.meanings.formula import Formula

VALUES = DATA / "values_by_hand.txt"
CODE = 0x10000
LMUL = {"m1": 0, "m2": 1, "m4": 2, "m8": 3, "mf8": 5, "mf4": 6, "mf2": 7}
State = Mapping[str, Sequence[str]]
"""The values of registers, `type` and `vl`, as the file has them."""
Registers = tuple[Sequence[int], bytes]
"""All scalar registers, and the bytes of all vector registers."""


@dataclass(frozen=True)
class HandValue:
    """A row: an instruction with a state before, and the registers that it changes."""

    text: str
    before: State
    after: State

    @property
    def name(self) -> str:
        """The mnemonic."""
        return self.text.split()[0]

    @property
    def control(self) -> ControlRegisters:
        """The vector state before: vl and the vector type, tail and mask undisturbed."""
        if "type" not in self.before:
            return ControlRegisters()
        sew, lmul = self.before["type"][0].split(",")
        return ControlRegisters(int(self.before["vl"][0]), (int(sew[1:]) // 8).bit_length() - 1 << 3 | LMUL[lmul])

    def expected(self) -> Registers:
        """The registers after the instruction."""
        return _with_values(*_with_values([0] * 32, bytes(32 * REGISTER_BYTES), self.before), self.after)


@functools.cache
def hand_values() -> Sequence[HandValue]:
    """All rows."""
    rows = (line.split(" | ") for line in VALUES.read_text("ascii").splitlines() if line and not line.startswith("#"))
    return [HandValue(text, _state(before), _state(after)) for text, before, after in rows]


def formula_result(row: HandValue, word: int, formula: Formula | None = None) -> Registers:
    """Return the registers after a row's instruction by its formula, or by another one. Raises LabError, ValueError."""
    x, v = _with_values([0] * 32, bytes(32 * REGISTER_BYTES), row.before)
    after = execute(Before(CODE, word, x, row.control, v, False), formula)
    return [after.x.get(number, value) for number, value in enumerate(x)], bytes(after.v)


def machine_result(session: Session, row: HandValue) -> tuple[int, Registers]:
    """Return the encoding of a row's instruction, and the registers after it, by the machine."""
    guest = Guest(session)
    x, v = _with_values([0] * 32, bytes(32 * REGISTER_BYTES), row.before)
    control = row.control
    guest.ask("leave", "enter", f"map {CODE:x} 1 rwx", f"asm {CODE + 4:x} {row.text}")
    if "type" in row.before:
        sew, lmul = row.before["type"][0].split(",")
        guest.ask(f"asm {CODE:x} vsetivli x0, {control.vl}, {sew}, {lmul}, tu, mu", f"setpc {CODE:x}", "step 1")
    guest.ask(*(f"set x{number} {value:x}" for number, value in enumerate(x) if number))
    guest.ask(*(f"vset v{number} {v[32 * number :][:32].hex()}" for number in range(32)), f"setpc {CODE + 4:x}")
    listing = guest.query(f"dis {CODE + 4:x} 1", Listing)
    guest.ask("step 1")
    scalars = guest.query("regs", ScalarRegisters)
    return listing.words[0].word, (list(scalars.x), b"".join(guest.vectors()))


def _state(text: str) -> State:
    """The values by name of a text such as `x2 80000000; x3 1`."""
    return {name: values for name, *values in (part.split() for part in text.split(";"))}


def _with_values(x: Sequence[int], v: bytes, values: State) -> Registers:
    """Registers with the values that a state has for some of them."""
    scalars, vectors = list(x), bytearray(v)
    for name, numbers in values.items():
        if name.startswith("x"):
            scalars[int(name[1:])] = int(numbers[0], 16)
        elif name[1:].isdecimal():
            block = b"".join(bytes.fromhex(number)[::-1] for number in numbers)
            start = int(name[1:]) * REGISTER_BYTES
            vectors[start : start + len(block)] = block
    return scalars, bytes(vectors)
