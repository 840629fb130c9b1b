"""The last instruction of a program on pages: the registers that it read, and the memory that it accessed.

If the machine's state right before the instruction was read, all of these registers are known. Otherwise only registers that the
instruction can't have changed are known.
"""

import functools
from collections.abc import Collection, Iterable, Mapping, Sequence
from typing import Literal, NotRequired, TypedDict

from ..guest.changes import CONTROLLING, Registers
from ..instructions.accesses import Span, active_spans, is_fault_only_first, vector_instruction
from ..instructions.calls import ECALL
from ..instructions.scalar_registers import scalar_written, scalars_read
from ..instructions.words import LOAD, LOAD_FP, OP_V, STORE, STORE_FP, VECTOR_ACCESSES
from ..machine.answers import ControlRegisters

_OP_VSET = 7  # funct3


class ReadRegisters(TypedDict):
    """The values of registers before an instruction, in hexadecimal digits. Registers whose values are unknown are left out.

    x: the scalar registers that the instruction read, except x0, by number
    v: the vector registers of all its operands, including the destination, by number
    v0, vl, vtype, vstart: the values of these registers, even if the instruction doesn't read them
    """

    x: dict[str, str]
    v: dict[str, str]
    v0: NotRequired[str]
    vl: NotRequired[int]
    vtype: NotRequired[str]
    vstart: NotRequired[int]


class Access(TypedDict):
    """Consecutive bytes of memory that an instruction read or wrote.

    address: the address of the first byte, in hexadecimal digits; length: the number of bytes
    """

    address: str
    length: int
    kind: Literal["read", "write"]


Digits = Mapping[str, str]
"""The values of registers in hexadecimal digits, by the register's number. A vector register has two digits for each byte."""


def read_registers(word: int, x: Digits, v: Digits, control: ControlRegisters) -> ReadRegisters:
    """Return the registers that an instruction read. x, v, control: all registers before the instruction"""
    return {
        "x": _some(x, _scalars_read(word, _call(word, x))),
        "v": _some(v, _of_operands(word, control.vtype)),
        "v0": v["0"],
        "vl": control.vl,
        "vtype": f"{control.vtype:x}",
        "vstart": control.vstart,
    }


def registers_kept(word: int, x: Digits, v: Digits, control: ControlRegisters) -> ReadRegisters:
    """Return the registers that an instruction read and can't have changed. x, v, control: all registers after the instruction"""
    is_vset = word & 0x7F == OP_V and word >> 12 & 7 == _OP_VSET
    written = _of_destination(word, control.vtype)
    scalars = [number for number in _scalars_read(word, _call(word, x)) if number != f"{scalar_written(word)}"]
    vectors = [number for number in _of_operands(word, control.vtype) if number not in written]
    kept: ReadRegisters = {"x": _some(x, scalars), "v": _some(v, vectors)}
    if "0" not in written:
        kept["v0"] = v["0"]
    if not is_vset:
        kept["vtype"] = f"{control.vtype:x}"
    if not is_vset and not is_fault_only_first(word):
        kept["vl"] = control.vl
    if word & 0x7F not in CONTROLLING:
        kept["vstart"] = control.vstart
    return kept


def may_access(word: int) -> bool:
    """Return whether an instruction is a load or store."""
    return word & 0x7F in (LOAD, STORE, LOAD_FP, STORE_FP)


def accesses(word: int, before: Registers, after: ControlRegisters, is_faulting: bool) -> list[Access]:
    """Return the memory that an instruction read or wrote, in the order of its addresses. Adjacent bytes are one access.

    before, after: the registers before the instruction, and the control registers after it
    is_faulting: whether the instruction faulted. Then only the elements before vstart are included
    """
    end = 1 << 64
    if is_faulting:
        end = after.vstart if word & 0x7F in VECTOR_ACCESSES else 0
    elif is_fault_only_first(word):
        end = after.vl
    found = active_spans(word, before.x, before.control, bytes(before.v))
    kind: Literal["read", "write"] = "write" if word & 0x7F in (STORE, STORE_FP) else "read"
    spans = _joined([span for element, span in found if element < end])
    return [{"address": f"{at:x}", "length": length, "kind": kind} for at, length in spans]


def scalar_accesses(word: int, after: Registers) -> list[Access] | None:
    """Return the memory that a scalar instruction accessed; None if the registers after the instruction don't show the address.

    after: the registers after the instruction
    """
    opcode = word & 0x7F
    if opcode in (LOAD_FP, STORE_FP) or opcode == LOAD and scalar_written(word) == word >> 15 & 31 != 0:
        return None
    return accesses(word, after, after.control, is_faulting=False)


def _call(word: int, x: Digits) -> int:
    """Return the number of the system call that an instruction makes; 0 for another instruction."""
    return int(x["17"], 16) if word == ECALL else 0


@functools.lru_cache(maxsize=4096)
def _scalars_read(word: int, call: int) -> Sequence[str]:
    """Return the numbers of the scalar registers that an instruction reads, without x0. The register that a store stores is included.

    call: the result of `_call`
    """
    stored = [word >> 20 & 31] if word & 0x7F == STORE else []
    return [f"{number}" for number in sorted({*scalars_read(word, call), *stored} - {0})]


@functools.lru_cache(maxsize=4096)
def _of_operands(word: int, vtype: int) -> Sequence[str]:
    """Return the numbers of the vector registers of an instruction's operands."""
    instruction = vector_instruction(word, vtype)
    numbers = {number for operand in instruction.operands for number in operand.registers} if instruction else set()
    return [f"{number}" for number in sorted(numbers) if number < 32]


def _of_destination(word: int, vtype: int) -> Collection[str]:
    """Return the numbers of the vector registers that an instruction writes; none for a vset instruction."""
    instruction = vector_instruction(word, vtype)
    operands = instruction.operands if instruction else []
    return {f"{number}" for each in operands if each.noun == "destination" for number in each.registers}


def _some(registers: Digits, numbers: Iterable[str]) -> dict[str, str]:
    return {number: registers[number] for number in numbers}


def _joined(spans: Sequence[Span]) -> list[Span]:
    """Return spans with adjacent and overlapping ones joined."""
    joined, start, end = list[Span](), 0, -1
    for address, length in sorted(spans):
        if address > end >= 0:
            joined.append((start, end - start))
        if address > end:
            start, end = address, address + length
        elif address + length > end:
            end = address + length
    return [*joined, (start, end - start)] if end >= 0 else joined
