"""Scalar instructions of random programs."""

from collections.abc import Sequence
from dataclasses import replace

from ..instructions.table import Row
from ..instructions.words import STORE
from .emitter import BASE, Emitter

BRANCH = 0x63
_CONTROL = {0x009: 2, 0x00A: 4, 0x00F: 8}  # vxsat, vxrm and vcsr, with the number of valid values
_READ = (0x008, *_CONTROL, 0xC20, 0xC21, 0xC22)


class ScalarDraws:
    """Draws scalar instructions. Each method appends one with the operation of a row. It returns False if that isn't possible now."""

    def __init__(self, emitter: Emitter, operations: Sequence[Row]) -> None:
        """operations: arithmetic rows; a branch skips an instruction of one of them"""
        self._emitter, self._operations = emitter, operations

    def arithmetic(self, row: Row, is_atomic: bool = False) -> bool:
        sources = {place: self._emitter.registers.x_source() for place in row.fields() if place in ("rs1", "rs2")}
        return self._emitter.emit(
            row.name, self._emitter.draws.getrandbits(32), is_atomic, **sources, rd=self._emitter.registers.x_target()
        )

    def access(self, row: Row) -> bool:
        number = self._emitter.aligned(self._emitter.draws.randrange(-2048, 2048), 8)
        register = (
            {"rs2": self._emitter.registers.x_source()}
            if row.opcode == STORE
            else {"rd": self._emitter.registers.x_target()}
        )
        bits = number << 20 | (number & 31) << 7  # a store has the low five at the place of rd
        return self._emitter.emit(row.name, bits, rs1=BASE, **register)

    def jump(self, row: Row) -> bool:
        """Draw a branch over an instruction, or a jump to the next instruction."""
        if row.opcode == BRANCH:
            self._emitter.emit(
                row.name,
                branch_bits(8),
                True,
                rs1=self._emitter.registers.x_source(),
                rs2=self._emitter.registers.x_source(),
            )
            return self.arithmetic(self._emitter.draws.choice(self._operations))
        if row.name == "jal":
            return self._emitter.emit(row.name, 2 << 21, rd=self._emitter.registers.x_target())
        return self._emitter.emit(
            row.name, 8 << 20, rs1=self._emitter.prepared("auipc", 0, True), rd=self._emitter.registers.x_target()
        )

    def control_register(self, row: Row) -> bool:
        """Draw a read of a control register, or a write of a valid value."""
        is_immediate, csr, value = row.name.endswith("i"), self._emitter.draws.choice(_READ), 0
        if csr in _CONTROL:
            value = self._emitter.draws.randrange(_CONTROL[csr])
        elif csr == 0x008 and row.name.startswith("csrrw") and self._emitter.has_choices:
            value = self._emitter.draws.randrange(min(32, self._emitter.control.vlmax))
        elif row.name.startswith("csrrw") and csr != 0x008:
            return False
        source = self._emitter.constant(value) if value and not is_immediate else value
        if csr == 0x008 and row.name.startswith("csrrw"):
            self._emitter.control = replace(self._emitter.control, vstart=value)
        return self._emitter.emit(row.name, csr << 20, rs1=source, rd=self._emitter.registers.x_target())


def branch_bits(distance: int) -> int:
    """Return the distance of a branch in the fields of a word."""
    return (distance & 0x1000) << 19 | (distance & 0x800) >> 4 | (distance & 0x7E0) << 20 | (distance & 0x1E) << 7


def jump_bits(distance: int) -> int:
    """Return the distance of a jump in the fields of a word."""
    return (distance & 0x100000) << 11 | distance & 0xFF000 | (distance & 0x800) << 9 | (distance & 0x7FE) << 20
