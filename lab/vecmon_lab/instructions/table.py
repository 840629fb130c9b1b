"""The table of instructions: the names that the assembler accepts. docs/INSTRUCTIONS.md also lists them."""

import functools
import re
from dataclasses import dataclass

from ..tables.table import read_table


@dataclass(frozen=True)
class Row:
    """An instruction: its name, its operands as on the page, and its 32 bits, where `-` is a bit of an operand."""

    name: str
    operands: str
    bits: str

    @property
    def opcode(self) -> int:
        """Bits 6 to 0 of the encoding."""
        return int(self.bits[-7:], 2)

    def fields(self) -> list[str]:
        """Return the operands' names: rd, rs1, rs2, vd, vs1 and vs2 for registers; imm, csr and others for numbers."""
        return re.findall(r"\b(?!v0\b)[a-z]+[0-9]?\b", self.operands.replace("v0.t", ""))

    def word(self, operands: int) -> int:
        """Return the encoding of the instruction with some operands. operands: a word whose bits in the operand fields are used"""
        operand_bits = int(self.bits.replace("1", "0").replace("-", "1"), 2)
        return int(self.bits.replace("-", "0"), 2) | operands & operand_bits


REGISTERS = dict(read_table("registers"))
"""The scalar registers, as x10, by their ABI names."""

ABI_NAMES = {number: name for name, number in reversed(REGISTERS.items())}  # x8 is s0, which comes first


@functools.cache
def instruction_table() -> dict[str, Row]:
    """Return the rows by mnemonic, in the order of docs/INSTRUCTIONS.md. There is no row for `.word`."""
    rows = read_table("instructions")
    return {name: Row(name, operands.removeprefix("-"), bits.replace(" ", "")) for name, operands, bits in rows}


@functools.lru_cache(maxsize=4096)
def row_of(word: int) -> Row | None:
    """Return the row of the instruction that a word encodes; None if there is no such row."""
    return next((row for mask, bits, row in _by_opcode().get(word & 0x7F, ()) if word & mask == bits), None)


@functools.cache
def _by_opcode() -> dict[int, list[tuple[int, int, Row]]]:
    """Return the rows by opcode. Before each row are the mask of its fixed bits, and the values of these bits."""
    rows: dict[int, list[tuple[int, int, Row]]] = {}
    for row in instruction_table().values():
        fixed = int(row.bits.replace("0", "1").replace("-", "0"), 2)
        rows.setdefault(row.opcode, []).append((fixed, row.word(0), row))
    return rows
