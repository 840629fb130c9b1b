"""The state of registers while a random program is drawn: which bits the standard defines, and which values are unread."""

import functools
import random
from collections.abc import Iterable, Sequence

from ..instructions.accesses import ACCUMULATES, FIRST_ELEMENT, REGISTER_BITS, bits_of, needed
from ..instructions.reasons import illegal_reasons
from ..instructions.table import instruction_table
from ..instructions.words import Operand, decode
from ..machine.answers import ControlRegisters

SCALARS = range(1, 29)
"""The scalar registers of programs. x29 has the middle of memory; the code around the program uses x30 and x31."""

_TEMPLATE = {8: "vd", 16: "vs2", 24: "vs1"}  # the places of operands while a row is read


@functools.cache
def operands_of(name: str, vtype: int) -> dict[str, Operand] | None:
    """Return the vector operands of an instruction under a vector type, by their fields; None if it is illegal under the type."""
    row, view = instruction_table()[name], ControlRegisters(vtype=vtype)
    word = row.word(8 << 7 | 16 << 20 | 24 << 15 | 1 << 25)
    instruction = None if illegal_reasons(word, view) else decode(word, view.sew, view.lmul)
    return {_TEMPLATE[each.registers.start]: each for each in instruction.operands} if instruction else None


class DrawnRegisters:
    """Scalar and vector registers of a program.

    fixed: for each vector register, the number of its lowest bits that the standard defines
    x, v: the registers that were written and not read since
    kept: the scalar registers that must not be written now
    """

    def __init__(self, draws: random.Random, has_choices: bool) -> None:
        self.fixed = [REGISTER_BITS] * 32
        self.x, self.v, self.kept = set[int](), set[int](), set[int]()
        self._draws, self._has_choices = draws, has_choices

    def x_source(self) -> int:
        """Return a scalar register to read, preferably one that hasn't been read since it was written."""
        number: int = self._draws.choice([*self.x, *self.x, *SCALARS[::4], self._draws.choice(SCALARS)])
        self.x.discard(number)
        return number

    def x_target(self) -> int:
        """Return a scalar register to write."""
        return self._draws.choice([number for number in SCALARS if number not in self.x | self.kept])

    def source(self, name: str, place: str, operand: Operand, vl: int) -> int | None:
        """Return the first register of an operand to read, preferably an unread one; None if no register is possible."""
        needed_bits = list(needed(name, place, operand, vl))
        fits = [first for first in self._firsts(operand) if self.is_fixed(first, needed_bits)]
        unread = [first for first in fits if not self.v.isdisjoint(range(first, first + len(needed_bits)))]
        return self._draws.choice(unread if unread and self._draws.random() < 0.7 else fits) if fits else None

    def target(self, name: str, operand: Operand, vl: int, read: Iterable[int]) -> int | None:
        """Return the first register of a destination; None if no register is possible.

        Unread values aren't overwritten, except those in registers that the instruction reads. read: these registers
        """
        accumulates, size = name.startswith(ACCUMULATES), len(operand.registers)
        lost, needed_bits = (set[int](), list(bits_of(operand, vl))) if accumulates else (self.v - set(read), [])
        fits = [first for first in self._firsts(operand) if self.is_fixed(first, needed_bits)]
        fits = [first for first in fits if lost.isdisjoint(range(first, first + size))]
        return self._draws.choice(fits) if fits else None

    def is_fixed(self, first: int, needed_bits: Sequence[int]) -> bool:
        """Return whether the standard defines enough bits of consecutive registers.

        first: the first register; needed_bits: the number of lowest bits that are needed, of each register
        """
        return self._has_choices or all(self.fixed[first + at] >= bits for at, bits in enumerate(needed_bits))

    def write(self, name: str, operand: Operand, control: ControlRegisters, is_masked: bool) -> bool:
        """Record that an instruction writes its destination. Return whether the standard then defines all bits of the destination.

        operand: the destination, with its registers
        """
        is_first = name.startswith(FIRST_ELEMENT)
        keeps_tail, keeps_masked = not control.vtype >> 6 & 1 and operand.eew > 1, not control.vtype >> 7 & 1
        if name.startswith("vcompress"):
            is_masked, keeps_masked = True, keeps_tail
        is_whole = operand.is_whole and operand.eew > 1 and not is_first
        if not is_whole and not control.vl:
            return True
        written = [REGISTER_BITS] * 8 if is_whole else bits_of(operand, 1 if is_first else control.vl)
        for number, bits in zip(operand.registers, written):
            old = self.fixed[number]
            body = bits if is_whole or is_first or not is_masked or keeps_masked and old >= bits else 0
            self.fixed[number] = max(body, old) if keeps_tail and body == bits else body
        self.v.update(operand.registers)
        return all(self.fixed[number] == REGISTER_BITS for number in operand.registers)

    def _firsts(self, operand: Operand) -> range:
        return range(0, 33 - len(operand.registers), operand.group)
