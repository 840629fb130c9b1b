"""The vector instruction that a word encodes, and the memory that it accesses, computed from the registers before it."""

import functools
import itertools
import re
from collections.abc import Iterable, Iterator, Sequence

from ..machine.answers import ControlRegisters
from .table import row_of
from .words import LOAD, LOAD_FP, STORE, STORE_FP, VECTOR_ACCESSES, NoInstruction, Operand, VectorInstruction, decode

ACCESSES = (LOAD, STORE, *VECTOR_ACCESSES)  # opcodes of loads and stores
UNIT_STRIDE, STRIDED = 0, 2  # mop; 1 and 3 are indexed
WHOLE_REGISTERS, MASK, FAULT_ONLY_FIRST = 0b01000, 0b01011, 0b10000  # lumop and sumop
REGISTER_BYTES, ROW_BYTES, LINE_BYTES, PAGE_BYTES = (
    32,
    16,
    256,
    4096,
)  # a command shows or writes at most LINE_BYTES of memory
REGISTER_BITS = 8 * REGISTER_BYTES
MULTIPLY_ADDS = ("vmacc", "vnmsac", "vmadd", "vnmsub", "vwmacc")  # the destination is also a source
ACCUMULATES = (*MULTIPLY_ADDS, "vslideup", "vcompress")  # these read their destination
FIRST_ELEMENT = ("vred", "vwred", "vmv.s.x")  # these write only element 0
_GATHERS = ("vrgather", "vslide")  # these read their source up to VLMAX

Span = tuple[int, int]
"""A span of memory: the address of the first byte, and the number of bytes."""


@functools.lru_cache(maxsize=4096)
def vector_instruction(word: int, vtype: int) -> VectorInstruction | None:
    """Return the vector instruction that a word encodes under a vector type; None for a scalar instruction, a vset and an invalid word."""
    view = ControlRegisters(vtype=vtype)
    try:
        return decode(word, view.sew, view.lmul)
    except NoInstruction:
        return None


def stored_spans(word: int, x: Sequence[int], control: ControlRegisters, v: bytes) -> list[Span]:
    """Return spans that contain all bytes that a store may write; none for other instructions.

    Each span has at most 256 bytes, in one page. The spans also contain masked-off elements, and elements after one that faults.

    x, control, v: the scalar registers, the control registers and the bytes of all vector registers, before the store
    """
    if word & 0x7F == STORE:
        return _joined([scalar_span(word, x)])
    instruction = vector_instruction(word, control.vtype) if word & 0x7F == STORE_FP else None
    return _joined(vector_spans(word, x, control, v, instruction) if instruction else ())


def base_address(word: int, x: Sequence[int]) -> int | None:
    """Return the address at which a load or store starts, without its stride and indices; None for other instructions.

    x: the scalar registers before the instruction
    """
    row = row_of(word)
    if row is None or row.opcode not in ACCESSES:
        return None
    return x[word >> 15 & 31] if row.opcode in VECTOR_ACCESSES else scalar_span(word, x)[0]


def active_spans(word: int, x: Sequence[int], control: ControlRegisters, v: bytes) -> Iterator[tuple[int, Span]]:
    """Yield the index of each active element of a load or store, and the span that it accesses; nothing for other instructions.

    A scalar access has one element with index 0. Elements after one that faults are included, and so are elements that a
    fault-only-first load omits.

    x, control, v: the registers before the instruction, as for `stored_spans`
    """
    if word & 0x7F in (LOAD, STORE):
        yield 0, scalar_span(word, x)
    instruction = vector_instruction(word, control.vtype) if word & 0x7F in VECTOR_ACCESSES else None
    if instruction:
        body = body_of(word, instruction, control)
        spans = vector_spans(word, x, control, v, instruction)
        yield from ((element, spans[element - body.start]) for element in active_of(instruction, body, v))


def is_fault_only_first(word: int) -> bool:
    """Return whether a word is a load that reduces vl if an element after the first can't be read (section 7.7)."""
    return word & 0x7F == LOAD_FP and word >> 26 & 3 == UNIT_STRIDE and word >> 20 & 31 == FAULT_ONLY_FIRST


def scalar_span(word: int, x: Sequence[int]) -> Span:
    """Return the span that a scalar load or store accesses. x: the scalar registers before the instruction"""
    offset = (word >> 25 << 5 | word >> (7 if word & 0x7F == STORE else 20) & 31) ^ 0x800
    return (x[word >> 15 & 31] + offset - 0x800) % (1 << 64), 1 << (word >> 12 & 3)


def body_of(word: int, instruction: VectorInstruction, control: ControlRegisters) -> range:
    """Return the indices of an instruction's body elements, from vstart on. For a mask load or store, they are indices of bytes.

    The body of vmv.x.s is element 0 for all values of vl and vstart. The body of vmv.s.x is element 0 if vstart is less than vl
    (section 16.1).

    control: the control registers before the instruction
    """
    if instruction.name == "vmv.x.s":
        return range(1)
    if instruction.name == "vmv.s.x":
        return range(control.vstart < control.vl)
    count = control.vl
    if moves_whole_registers(word, instruction):
        count = len(instruction.operands[0].registers) * REGISTER_BITS // instruction.operands[0].eew
    elif _unit_stride_mode(word) == MASK:
        count = -(-control.vl // 8)
    return range(control.vstart, count)


def moves_whole_registers(word: int, instruction: VectorInstruction) -> bool:
    """Return whether an instruction moves, loads or stores whole registers, whatever vl and vtype are."""
    return _unit_stride_mode(word) == WHOLE_REGISTERS or bool(re.fullmatch("vmv[1248]r.v", instruction.name))


def _unit_stride_mode(word: int) -> int | None:
    """Return the field lumop or sumop of a unit-stride load or store; None for any other instruction."""
    is_unit_stride = word & 0x7F in VECTOR_ACCESSES and word >> 26 & 3 == UNIT_STRIDE
    return word >> 20 & 31 if is_unit_stride else None


def active_of(instruction: VectorInstruction, body: range, v: bytes) -> list[int]:
    """Return the indices of the body elements that aren't masked off. body: from `body_of`; v: the bytes of all vector registers"""
    if not instruction.leaves_out:
        return [*body]
    return [element for element in body if v[element // 8] >> element % 8 & 1]


def vector_spans(
    word: int, x: Sequence[int], control: ControlRegisters, v: bytes, instruction: VectorInstruction
) -> list[Span]:
    """Return the span of each body element of a vector load or store, or of each segment. The first span is that of element vstart.

    x, control, v: the registers before the instruction, as for `stored_spans`
    """
    base, stride, kind = x[word >> 15 & 31], x[word >> 20 & 31], word >> 26 & 3
    data, *indices = instruction.operands
    length = max(1, data.eew // 8) * (1 if data.is_whole else (word >> 29) + 1)
    body = body_of(word, instruction, control)
    if kind in (UNIT_STRIDE, STRIDED):
        step = length if kind == UNIT_STRIDE else stride
        return [((base + element * step) % (1 << 64), length) for element in body]
    first, size = indices[0].registers.start * REGISTER_BYTES, indices[0].eew // 8
    places = (first + element * size for element in body)
    return [((base + int.from_bytes(v[at : at + size], "little")) % (1 << 64), length) for at in places]


def _joined(spans: Iterable[Span]) -> list[Span]:
    """Return rows of 16 bytes that contain all bytes of some spans, as spans. Each has rows of one block of 256 bytes."""
    ends = ((address // ROW_BYTES, (address + length - 1) // ROW_BYTES) for address, length in spans)
    rows = {row for first, last in ends for row in range(first, last + 1)}
    groups = [list(each) for _, each in itertools.groupby(sorted(rows), lambda row: row * ROW_BYTES // LINE_BYTES)]
    return [(each[0] * ROW_BYTES, (each[-1] + 1 - each[0]) * ROW_BYTES) for each in groups]


def bits_of(operand: Operand, vl: int) -> Iterator[int]:
    """Yield, for each register of an operand, how many of the register's lowest bits belong to elements with an index below vl."""
    for at in range(len(operand.registers)):
        yield min(REGISTER_BITS, max(0, vl * operand.eew - REGISTER_BITS * (at % operand.group)))


def needed(name: str, place: str, operand: Operand, vl: int) -> Iterator[int]:
    """Yield, for each register of a source operand, how many of the register's lowest bits an instruction reads.

    name: the instruction's name; place: the field of the operand, such as `vs2`
    """
    if operand.eew > 1 and (operand.is_whole or place == "vs2" and name.startswith(_GATHERS)):
        return iter([REGISTER_BITS] * len(operand.registers))
    return bits_of(operand, -(-vl // 8) * 8 if name == "vsm.v" else vl)
