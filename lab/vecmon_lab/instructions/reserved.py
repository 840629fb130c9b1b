"""Encodings that the standard reserves but the machine executes: an instruction reads a register with two element widths."""

from collections import Counter

from .accesses import MULTIPLY_ADDS
from .words import VectorInstruction


def registers_of_two_widths(instruction: VectorInstruction) -> list[int]:
    """Return the numbers of the vector registers that an instruction reads with several element widths, in rising order.

    V 1.0, section 5.2 reserves such an encoding. The destination of a multiply-add is also a source. Masks, including v0, have
    elements of 1 bit.
    """
    reads_destination = instruction.name.startswith(MULTIPLY_ADDS)
    sources = [each for each in instruction.operands if each.noun != "destination" or reads_destination]
    widths = {(number, operand.eew) for operand in sources for number in operand.registers}
    if instruction.is_masked:
        widths.add((0, 1))
    counts = Counter(number for number, _ in widths)
    return sorted(number for number, count in counts.items() if count > 1)
