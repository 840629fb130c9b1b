"""A random program while it is drawn: its words, the vector state after them, and the digests between them."""

import random
from collections import Counter
from dataclasses import dataclass, field

from ..instructions.accesses import REGISTER_BITS
from ..instructions.table import instruction_table
from ..machine.answers import ControlRegisters
from ..vectors.cases import PLACES
from .registers import DrawnRegisters

FIRST = ControlRegisters(vl=32, vtype=0)
"""The vector state before a program: e8, m1, tu, mu."""

TENTH = 10  # instructions between digests
CHECKPOINT, DONE = -1, -2  # among words: the call for a digest, before the registers that count; and the end
BASE = 29  # the scalar register that has the middle of memory


@dataclass
class Drawn:
    """A program.

    words: its words, with CHECKPOINT and DONE among them; digests: the number of digests that it computes
    coverage: the number of each instruction in it, by name, vector type, whether it is masked, and tail
    executed: the number of instructions that execute, if no branch is taken
    """

    words: list[int] = field(default_factory=list)
    digests: int = 0
    executed: int = 0
    coverage: Counter[tuple[str, int, bool, str]] = field(default_factory=Counter)


class Emitter:
    """Appends instructions to a program.

    draws: the source of random numbers; has_choices: whether the program may depend on what the standard leaves open
    registers, control: the known properties of registers, and the vector state, after the last instruction
    drawn: the program; times: how many times the next instruction executes, since it is in a loop
    counters: the scalar registers that count the iterations of a loop
    """

    def __init__(self, draws: random.Random, has_choices: bool) -> None:
        self.draws, self.has_choices = draws, has_choices
        self.registers, self.control = DrawnRegisters(draws, has_choices), FIRST
        self.drawn, self.times = Drawn(), 1
        self.counters = set[int]()
        self._since = 0  # instructions since the last digest
        self._is_atomic = False  # whether no digest may precede the next instruction

    def emit(self, name: str, bits: int = 0, is_atomic: bool = False, /, **numbers: int) -> bool:
        """Append an instruction; return True. If ten instructions follow the last digest, append a digest first.

        bits: the bits of its operands in the word; is_atomic: whether no digest may be between this instruction and the next one
        numbers: registers by the word's fields, such as `rd`, which replace their part of `bits`
        """
        if self._since >= TENTH and not self._is_atomic:
            self.checkpoint()
        for place, number in numbers.items():
            bits = bits & ~(31 << PLACES[place]) | number << PLACES[place]
        row = instruction_table()[name]
        self.drawn.words.append(row.word(bits))
        self.drawn.executed += self.times
        self._since, self._is_atomic = self._since + 1, is_atomic
        if "rd" in row.fields():
            self.registers.x.update({bits >> 7 & 31} - {0})
        vtype, is_masked = self.control.vtype, "[, v0.t]" in row.operands and not bits >> 25 & 1
        tail = "full" if self.control.vl == self.control.vlmax else "ta" if vtype >> 6 & 1 else "tu"
        self.drawn.coverage[name, vtype & 0x3F, is_masked, tail] += 1
        return True

    def checkpoint(self) -> None:
        """Append the call that computes a digest of the vector registers that the standard defines."""
        fixed = [number for number in range(32) if self.registers.is_fixed(number, [REGISTER_BITS])]
        self.drawn.words += [CHECKPOINT, sum(1 << number for number in fixed)]
        self.drawn.digests += self.times
        self.registers.x.clear()
        self.registers.v -= set(fixed)
        self._since = 0

    def refresh(self, fixed: list[int]) -> None:
        """Load the registers of which the standard now defines fewer bits than before. fixed: for each register, the number of bits before"""
        for number in range(32):
            if not self.registers.is_fixed(number, [fixed[number]]):
                self.emit("vl1re8.v", rs1=self.base(), vd=number)
                self.registers.fixed[number] = REGISTER_BITS
                self.registers.kept = set(self.counters)

    def base(self) -> int:
        """Return a scalar register with an address near the middle of memory. It is a multiple of 8 unless the program has choices."""
        if self.draws.random() < 0.5:
            return BASE
        return self.prepared("addi", self.aligned(self.draws.randrange(-1024, 1024), 8) << 20, rs1=BASE)

    def aligned(self, number: int, width: int) -> int:
        """Return a 12-bit number, rounded down to a multiple of `width` unless the program has choices."""
        return (number if self.has_choices else number & -width) & 0xFFF

    def constant(self, value: int) -> int:
        """Append an instruction that sets a scalar register to a number below 2,048; return the register."""
        return self.prepared("addi", (value & 0xFFF) << 20)

    def prepared(self, name: str, bits: int, is_atomic: bool = False, /, **operands: int) -> int:
        """Append an instruction that prepares an operand of the instruction being drawn. Return the scalar register that it writes.

        The register is reserved until that instruction is drawn. The parameters are as for `emit`.
        """
        number = self.registers.x_target()
        self.registers.kept.add(number)
        self.emit(name, bits, is_atomic, **operands, rd=number)
        self.registers.x.discard(number)
        return number
