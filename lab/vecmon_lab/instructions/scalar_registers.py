"""The scalar registers that an instruction reads and writes, by its word."""

from collections.abc import Iterator

from .accesses import STRIDED
from .calls import A0, ECALL
from .words import LOAD_FP, OP_V, STORE, STORE_FP, SYSTEM, VECTOR_ACCESSES

_NO_RESULT = (0x63, STORE, 0x0F, OP_V, LOAD_FP, STORE_FP)  # opcodes that write no scalar register, except _TO_SCALAR
_OP_VSET, _OP_MVV, _TO_SCALAR = 7, 2, 0b010000  # funct3 of vset and of vmv.x.s, vcpop and vfirst; and funct6 of these
_OF_NOTHING = (0x37, 0x17, 0x6F)  # opcodes of lui, auipc and jal
_TWO_SOURCES = (0x33, 0x3B, 0x63)  # opcodes of instructions that read rs2 too
_CALLS = {93: (17, 10), 64: (17, 10, 11, 12)}  # registers that an exit and a write read, by the value of x17


def scalars_read(word: int, call: int = 0) -> Iterator[int]:
    """Yield the numbers of the scalar registers that an instruction reads, except the register whose value a store stores.

    x0 may be among them. call: for an ECALL, the value of x17, the number of the call
    """
    opcode, funct3, rs1, rs2 = word & 0x7F, word >> 12 & 7, word >> 15 & 31, word >> 20 & 31
    if word == ECALL:
        yield from _CALLS.get(call, (17,))
    elif opcode == OP_V:
        is_vset = funct3 == _OP_VSET
        yield from [rs1] if funct3 in (4, 6) or is_vset and word >> 30 != 3 else []
        yield from [rs2] if is_vset and word >> 30 == 2 else []
    elif opcode in VECTOR_ACCESSES:
        yield from [rs1, rs2] if word >> 26 & 3 == STRIDED else [rs1]
    elif opcode == SYSTEM:
        yield from [rs1] if 0 < funct3 < 4 else []
    elif opcode not in _OF_NOTHING:
        yield from [rs1, rs2] if opcode in _TWO_SOURCES else [rs1]


def may_write_scalar(word: int) -> bool:
    """Return whether an instruction may write a scalar register. An `ecall` may."""
    funct3 = word >> 12 & 7
    is_vset = word & 0x7F == OP_V and funct3 == _OP_VSET
    to_scalar = word & 0x7F == OP_V and funct3 == _OP_MVV and word >> 26 == _TO_SCALAR
    return word & 0x7F not in _NO_RESULT or is_vset or to_scalar


def scalar_written(word: int) -> int:
    """Return the number of the scalar register that an instruction may write; 0 if there is none."""
    if word == ECALL:
        return A0
    return word >> 7 & 31 if may_write_scalar(word) else 0
