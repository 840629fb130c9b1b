"""The vector register operands of an instruction for pages: the properties that are the same for all vector types."""

import functools
from collections.abc import Sequence
from typing import TypedDict

from ..instructions.accesses import vector_instruction
from ..instructions.words import Operand


class ShownOperand(TypedDict):
    """A vector register operand of an instruction.

    register: the number of the first register
    bits: whether the operand is a mask, with a bit for each element
    written: whether the operand is the destination
    masked: whether elements of the operand are masked off if their bit in v0 is 0, and v0 still has the mask after the instruction
    """

    register: int
    bits: bool
    written: bool
    masked: bool


MASK = ShownOperand(register=0, bits=True, written=False, masked=False)
"""The mask v0 of a masked instruction."""


@functools.lru_cache(maxsize=4096)
def shown_operands(word: int) -> Sequence[ShownOperand]:
    """Return the operands of a word, with v0 as the last one if it is the mask; none if the word isn't a vector instruction."""
    instruction = vector_instruction(word, 0)
    if instruction is None:
        return []
    first, *others = instruction.operands
    # A reduction masks off elements of its source.
    masked = others[0] if first.part and first.is_whole and others else first
    is_masked = instruction.leaves_out and (first.noun, first.registers.start) != ("destination", 0)
    shown = [_shown(operand, is_masked and operand is masked) for operand in instruction.operands]
    return [*shown, MASK] if instruction.is_masked else shown


def _shown(operand: Operand, is_masked: bool) -> ShownOperand:
    is_written = operand.noun == "destination"
    return {
        "register": operand.registers.start,
        "bits": operand.eew == 1,
        "written": is_written,
        "masked": is_masked,
    }
