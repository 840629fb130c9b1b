"""The accesses of vector instructions to the elements of their groups, as the recorder must count them."""

from collections.abc import Sequence
from dataclasses import dataclass

from vecmon_lab.instructions.accesses import REGISTER_BITS, active_of, body_of, vector_instruction
from vecmon_lab.instructions.words import VECTOR_ACCESSES, VectorInstruction
from vecmon_lab.machine.answers import ControlRegisters

UNIT_STRIDE, MASK = 0, 0b01011  # mop, and lumop or sumop


@dataclass(frozen=True)
class Elements:
    """The elements of an instruction's group: which are active, how many are masked off, and how many the tail has."""

    active: Sequence[int]
    masked: int
    tail: int


def elements_of(word: int, control: ControlRegisters, v0: bytes) -> Elements | None:
    """The elements of a vector instruction, by the control registers and v0 before it; None for any other one."""
    instruction = vector_instruction(word, control.vtype)
    if instruction is None:
        return None
    body = body_of(word, instruction, control)
    active = active_of(instruction, body, v0)
    has_tail = instruction.name not in ("vmv.x.s", "vmv.s.x")  # whose tail isn't counted
    tail = _most(word, instruction, control.vlmax) - body.stop if has_tail else 0
    return Elements(active, len(body) - len(active), tail)


def _most(word: int, instruction: VectorInstruction, vlmax: int) -> int:
    """How many elements the group of an instruction has, of whole registers all of theirs."""
    data, is_access = instruction.operands[0], word & 0x7F in VECTOR_ACCESSES
    if (
        is_access
        and data.is_whole
        and data.eew > 1
        or instruction.name.startswith("vmv")
        and instruction.name[4:] == "r.v"
    ):
        return len(data.registers) * REGISTER_BITS // data.eew
    if is_access and word >> 26 & 3 == UNIT_STRIDE and word >> 20 & 31 == MASK:
        return -(-vlmax // 8)
    return vlmax
