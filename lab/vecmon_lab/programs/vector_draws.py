"""Vector instructions of random programs. They are legal, and the standard defines their results."""

from dataclasses import replace

from ..instructions.reasons import illegal_reasons
from ..instructions.reserved import registers_of_two_widths
from ..instructions.table import Row
from ..instructions.words import STORE_FP, SUPPORTED, VECTOR_ACCESSES, Operand, decode
from ..machine.answers import ControlRegisters
from ..vectors.cases import PLACES
from .emitter import Emitter
from .registers import operands_of

_UNORDERED, _STRIDED, _TRIES = 1, 2, 4  # two values of the field mop; draws of registers for an instruction, at most


class VectorDraws:
    """Draws vector instructions, with the instructions that prepare them or read their results."""

    def __init__(self, emitter: Emitter) -> None:
        self._emitter = emitter

    def set_type(self, name: str = "") -> bool:
        """Set a vector type, and a vl that the standard defines. name: the name of a vset instruction; "" for any of them"""
        name = name or self._emitter.draws.choice(("vsetvli", "vsetivli", "vsetvl"))
        vtype = self._emitter.draws.choice(SUPPORTED) | self._emitter.draws.randrange(4) << 6
        limit = ControlRegisters(vtype=vtype).vlmax
        length = self._emitter.draws.choice(
            (limit, limit, min(limit, 1), self._emitter.draws.randrange(limit + 1), 2 * limit)
        )
        if name == "vsetivli" and length > 31:
            length = self._emitter.draws.randrange(min(limit, 31) + 1)
        if self._emitter.has_choices:
            length = self._emitter.draws.choice((length, self._emitter.draws.randrange(32)))
        numbers = {"rs1": length if name == "vsetivli" else self._emitter.constant(length)}
        numbers |= {"rs2": self._emitter.constant(vtype)} if name == "vsetvl" else {}
        self._emitter.control = ControlRegisters(min(length, limit), vtype)
        return self._emitter.emit(name, vtype << 20, rd=self._emitter.registers.x_target(), **numbers)

    def operation(self, row: Row) -> bool:
        """Draw an operation. Return False if it isn't legal now."""
        if row.name.startswith("vset"):
            return self.set_type(row.name)
        numbers = self._placed(row)
        return numbers is not None and self._execute(row, numbers)

    def _placed(self, row: Row) -> dict[str, int] | None:
        """Return registers for the vector operands of an instruction, and 1 or 0 for `vm`; None if no legal choice was found."""
        name, control, reads_mask = row.name, self._emitter.control, row.operands.endswith(", v0")
        operands, has_mask = operands_of(name, control.vtype & 0x3F), self._emitter.registers.is_fixed(0, [control.vl])
        is_open = name.startswith("vcompress") and control.vtype >> 6 & 1 and not self._emitter.has_choices
        if operands is None or is_open or reads_mask and not has_mask:
            return None
        is_masked = has_mask and "[, v0.t]" in row.operands and self._emitter.draws.random() < 0.5
        for _ in range(_TRIES):
            numbers = {"vm": int(not is_masked)}
            read = set[int]({0} if is_masked or reads_mask else ())
            for place, operand in reversed(operands.items()):  # vd comes last
                if operand.noun == "destination" or operand.noun == "index" and row.opcode in VECTOR_ACCESSES:
                    number = self._emitter.registers.target(name if place == "vd" else "", operand, control.vl, read)
                else:
                    number = self._emitter.registers.source(name, place, operand, control.vl)
                    read |= set(range(number, number + len(operand.registers))) if number is not None else set()
                if number is None:
                    return None
                numbers[place] = number
            if self._is_fit(row, numbers, read):
                self._emitter.registers.v -= read
                return numbers
        return None

    def _is_fit(self, row: Row, numbers: dict[str, int], read: set[int]) -> bool:
        """Return whether an instruction is legal with these registers, and whether the standard defines its results."""
        word, control = row.word(self._bits(numbers)), self._emitter.control
        instruction = None if illegal_reasons(word, control) else decode(word, control.sew, control.lmul)
        if instruction is None:
            return False
        index = [operand for operand in instruction.operands if operand.noun == "index"]
        others = [number for operand in instruction.operands if operand not in index for number in operand.registers]
        if row.opcode in VECTOR_ACCESSES and index and not {*others, *read}.isdisjoint(index[0].registers):
            return False
        is_own_mask = instruction.leaves_out and instruction.operands[0].registers.start == 0
        return self._emitter.has_choices or not is_own_mask and not registers_of_two_widths(instruction)

    def _bits(self, numbers: dict[str, int]) -> int:
        """Return registers and `vm` in the fields of a word, with random bits for an immediate."""
        bits = numbers["vm"] << 25 | (0 if {"vs1", "rs1"} & set(numbers) else self._emitter.draws.randrange(32) << 15)
        return bits | sum(number << PLACES[place] for place, number in numbers.items() if place != "vm")

    def _execute(self, row: Row, numbers: dict[str, int]) -> bool:
        """Append a vector instruction with these registers. If the standard defines only a part of its results, also read that part."""
        for place in row.fields():
            if place in ("rs1", "rs2") and place not in numbers:
                numbers[place] = self._emitter.registers.x_source()
        numbers |= {"rd": self._emitter.registers.x_target()} if "rd" in row.fields() else {}
        word, control = row.word(self._bits(numbers)), self._emitter.control
        instruction = decode(word, control.sew, control.lmul)
        assert instruction is not None
        self._emitter.emit(row.name, word)
        self._emitter.control = replace(control, vstart=0)
        target = instruction.operands[0]
        if target.noun == "destination":
            is_fixed = self._emitter.registers.write(row.name, target, control, instruction.leaves_out)
            if not (is_fixed or self._emitter.has_choices):
                self._use(target, instruction.leaves_out)
        return True

    def _use(self, target: Operand, is_masked: bool) -> None:
        """Read the part of a destination that the standard defines: count the bits of a mask, or store elements."""
        number, vm = target.registers.start, (not is_masked) << 25
        if target.eew == 1:
            self._emitter.emit("vcpop.m", vm, vs2=number, rd=self._emitter.registers.x_target())
        elif target.is_whole or self._emitter.control.vl == 0:
            self._emitter.emit("vmv.x.s", vs2=number, rd=self._emitter.registers.x_target())
        else:
            for first in range(number, target.registers.stop, target.group):
                self._emitter.emit(f"vse{target.eew}.v", vm, rs1=self._emitter.base(), vd=first)
        self._emitter.registers.v -= set(target.registers)

    def access(self, row: Row) -> bool:
        """Draw a load or store whose elements are in memory, with the instructions that compute its addresses."""
        kind, vl, is_store = int(row.bits[4:6], 2), self._emitter.control.vl, row.opcode == STORE_FP
        is_free = "ff.v" in row.name or kind == _UNORDERED and is_store  # the standard fixes it for one element
        if is_free and vl > 1 and not self._emitter.has_choices:
            return False
        operands = operands_of(row.name, self._emitter.control.vtype & 0x3F) or {}
        index = operands.get("vs2")
        offsets = self._emitter.registers.source("vand.vx", "vs2", replace(index, noun="source"), vl) if index else 0
        numbers = self._placed(row) if offsets is not None else None
        if numbers is None:
            return False
        width = operands["vd"].eew // 8
        if kind == _STRIDED:
            minimum = width * (int(row.bits[:3], 2) + 1)
            stride = self._emitter.draws.randrange(-1024, 1025) // max(vl, 4)
            stride = max(stride, minimum) if is_store and not self._emitter.has_choices else stride
            numbers["rs2"] = self._emitter.constant(self._emitter.aligned(stride, width))
        if index and offsets is not None:
            self._make_index(index, numbers["vs2"], offsets)
        numbers["rs1"] = self._emitter.base()
        return self._execute(row, numbers)

    def _make_index(self, index: Operand, number: int, source: int) -> None:
        """Write offsets to a group: numbers below 512, which are multiples of 8 unless the program has choices.

        index: the operand for the offsets; number: its first register; source: a register whose elements they are computed from
        """
        control = self._emitter.control
        multiplier = (index.emul.numerator.bit_length() - index.emul.denominator.bit_length()) % 8
        other = (index.eew.bit_length() - 4) << 3 | multiplier | control.vtype & 0xC0
        limit = self._emitter.constant(0x1FF if self._emitter.has_choices else 0x1F8)
        self._emitter.emit("vsetvli", other << 20)
        self._emitter.control = replace(control, vtype=other, vstart=0)
        registers = range(number, number + len(index.registers))
        self._emitter.emit("vand.vx", 1 << 25, vd=number, vs2=source, rs1=limit)
        self._emitter.registers.write("vand.vx", replace(index, registers=registers), self._emitter.control, False)
        self._emitter.registers.v -= {*range(source, source + len(registers)), *registers}
        self._emitter.emit("vsetvli", control.vtype << 20)
        self._emitter.control = replace(control, vstart=0)
