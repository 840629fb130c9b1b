"""Draw random programs: each result is read, each access is in memory, and the standard defines all results."""

import random
from collections.abc import Callable

from ..instructions.accesses import REGISTER_BITS
from ..instructions.table import Row, instruction_table
from ..instructions.words import LOAD, OP_V, STORE, SYSTEM, VECTOR_ACCESSES
from ..meanings.extensions import names_lacked_by
from .emitter import DONE, Drawn, Emitter
from .scalar_draws import BRANCH, ScalarDraws, branch_bits
from .vector_draws import VectorDraws

_END = 0x22  # the number of the page after memory
_ARITHMETIC = (0x13, 0x1B, 0x33, 0x3B, 0x37, 0x17)
_JUMPS, _FENCE = (0x6F, 0x67), 0x0F
_ENDS = ("ecall", "ebreak")  # instructions that end programs


def draw_program(seed: str, length: int, has_choices: bool, faults: bool = False) -> Drawn:
    """Return the program for a seed. It executes about `length` instructions, and starts in the vector state FIRST.

    has_choices: whether it may depend on what the standard leaves open
    faults: whether its last instruction is a load or store that faults
    """
    return _Generator(seed, has_choices).program(length, faults)


class _Generator:
    """Draws a program, instruction by instruction."""

    def __init__(self, seed: str, has_choices: bool) -> None:
        self._emitter = Emitter(random.Random(seed), has_choices)
        left_out = {*_ENDS, *names_lacked_by("qemu")}
        rows = [row for row in instruction_table().values() if row.name not in left_out]
        scalars = ScalarDraws(self._emitter, [row for row in rows if row.opcode in _ARITHMETIC])
        self._vectors = VectorDraws(self._emitter)
        self._rows = [*rows, *(row for row in rows if row.opcode != OP_V and row.opcode not in VECTOR_ACCESSES)]
        self._rows += [row for row in rows if row.name.startswith("vset")] * 10
        self._kinds: dict[int, Callable[[Row], bool]] = {
            **dict.fromkeys(_ARITHMETIC, scalars.arithmetic),
            **dict.fromkeys((LOAD, STORE), scalars.access),
            **dict.fromkeys((*_JUMPS, BRANCH), scalars.jump),
            **dict.fromkeys(VECTOR_ACCESSES, self._vectors.access),
            SYSTEM: scalars.control_register,
            OP_V: self._vectors.operation,
            _FENCE: lambda row: self._emitter.emit(row.name),
        }

    def program(self, length: int, faults: bool) -> Drawn:
        """Draw the whole program."""
        while self._emitter.drawn.executed < length:
            draw = self._loop if self._emitter.draws.random() < 0.05 else self._step
            draw()
        self._emitter.refresh([REGISTER_BITS] * 32)
        self._emitter.checkpoint()
        if faults:
            self._fault()
        self._emitter.drawn.words.append(DONE)
        return self._emitter.drawn

    def _fault(self) -> None:
        """Draw a scalar access near address 0, or a store of whole registers past the end of memory."""
        rows = [row for row in self._rows if row.opcode in (LOAD, STORE) or row.name.startswith("vs8r")]
        row = self._emitter.draws.choice(rows)
        if row.opcode in (LOAD, STORE):
            number = {"rd" if row.opcode == LOAD else "rs2": 5}
            self._emitter.emit(row.name, self._emitter.draws.randrange(256) << 23, rs1=0, **number)
        else:
            base = self._emitter.prepared("lui", _END << 12)
            self._emitter.emit("addi", (-8 * self._emitter.draws.randrange(32) & 0xFFF) << 20, rd=base, rs1=base)
            self._emitter.emit(row.name, rs1=base, vd=8 * self._emitter.draws.randrange(4))
        self._emitter.drawn.digests += 1

    def _step(self) -> None:
        """Draw an instruction, with those that prepare it. If one isn't possible now, try others."""
        has_stepped = False
        while not has_stepped:
            row = self._emitter.draws.choice(self._rows)
            has_stepped = self._kinds[row.opcode](row)
            self._emitter.registers.kept = set(self._emitter.counters)

    def _loop(self) -> None:
        """Draw a loop of some instructions that execute two to nine times."""
        times = self._emitter.draws.randrange(2, 10)
        counter = self._emitter.constant(times)
        self._emitter.counters = {counter}
        self._emitter.times, top, fixed = times, len(self._emitter.drawn.words), list(self._emitter.registers.fixed)
        self._vectors.set_type()
        for _ in range(self._emitter.draws.randrange(3, 9)):
            self._step()
        self._emitter.refresh(fixed)
        self._emitter.checkpoint()
        self._emitter.emit("addi", 0xFFF << 20, rd=counter, rs1=counter)
        self._emitter.times, self._emitter.counters = 1, set()
        self._emitter.emit("bne", branch_bits(4 * (top - len(self._emitter.drawn.words))), rs1=counter)
