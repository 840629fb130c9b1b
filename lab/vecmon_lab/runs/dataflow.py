"""The results of an instruction bit by bit, the sources of each, and the other values that the instruction depends on."""

import re
from collections.abc import Iterator
from dataclasses import dataclass

from ..guest.changes import Retired, Registers
from ..instructions.accesses import (
    ACCUMULATES,
    FIRST_ELEMENT,
    REGISTER_BITS,
    active_of,
    active_spans,
    body_of,
    needed,
    scalar_span,
    vector_instruction,
)
from ..instructions.scalar_registers import scalars_read
from ..instructions.words import LOAD, OP_V, STORE, VECTOR_ACCESSES, VectorInstruction
from ..machine.answers import CONTROL

Cell = tuple[str, int]
"""A bit of the vector registers (`v`, 0 to 8,191) or of the scalar registers (`x`, 0 to 2,047), a byte of memory (`memory` and its
address), or a control register (its name and 0).
"""

Part = tuple[set[Cell], set[Cell], str]
"""A part of an instruction's results, written or used for its effect: its places, their sources, and a kind.

The kind of elements is `active`, `masked off` or `tail`; other parts have "".
"""

_VSTART = {("vstart", 0)}
_ACROSS = re.compile("vw?red|vrgather|vslide|vcompress|viota|vms[bio]f")  # these read elements with other indices
_ROUNDS = re.compile("va(add|sub)u?|vsmul|vssr[la]|vnclip")  # these round as vxrm says
_ARITHMETIC, _OF_NOTHING = (0x13, 0x1B, 0x33, 0x3B), (0x37, 0x17, 0x6F, 0x67)  # opcodes; lui, auipc, jal and jalr


@dataclass(frozen=True)
class Executed:
    """An executed instruction, with the registers before it."""

    retired: Retired
    before: Registers


def bits_of_registers(first: int, width: int) -> set[Cell]:
    """Return `width` bits of the vector registers. first: the first bit"""
    return {("v", bit) for bit in range(first, first + width)}


def bits_of_scalar(number: int, first: int = 0, width: int = 64) -> set[Cell]:
    """Return `width` bits of a scalar register. first: the first bit"""
    return {("x", 64 * number + bit) for bit in range(first, first + width)}


def conditions(step: Executed) -> set[Cell]:
    """Return the values that an instruction depends on, apart from its elements and bytes.

    They are scalar registers, the vector type and length, the mask, and for an access the indices.
    """
    control = step.before.control
    scalars = scalars_read(step.retired.word, step.before.x[17])
    places = set[Cell]().union(*map(bits_of_scalar, scalars))
    instruction = vector_instruction(step.retired.word, control.vtype)
    if instruction:
        places |= {("vl", 0), ("vtype", 0)} | (bits_of_registers(0, control.vl) if instruction.is_masked else set())
        for operand in instruction.operands:
            first = REGISTER_BITS * operand.registers.start
            places |= bits_of_registers(first, control.vl * operand.eew) if operand.noun == "index" else set()
    return places


def parts(step: Executed) -> Iterator[Part]:
    """Yield the parts of an instruction's results, written or used for its effect."""
    word, text, before = step.retired.word, step.retired.text, step.before
    opcode, rd = word & 0x7F, word >> 7 & 31
    if opcode in (LOAD, STORE):
        address, length = scalar_span(word, before.x)
        for at in range(length):
            byte, register = {("memory", address + at)}, rd if opcode == LOAD else word >> 20 & 31
            cells = bits_of_scalar(register, 8 * at, 8)
            yield (cells, byte, "") if opcode == LOAD else (byte, cells, "")
        if opcode == LOAD and length < 8:  # the bits above are zeros, or the sign
            yield bits_of_scalar(rd, 8 * length, 64 - 8 * length), {("memory", address + length - 1)}, ""
    if opcode in _ARITHMETIC or opcode in _OF_NOTHING:
        sources = scalars_read(word) if opcode in _ARITHMETIC else ()
        yield bits_of_scalar(rd), set[Cell]().union(*map(bits_of_scalar, sources)), ""
    cells = bits_of_scalar(rd)
    yield from (({(name, 0)} | cells, {(name, 0)}, "") for name in CONTROL if re.match(f"csr.* {name}", text))
    if text.startswith("vset"):
        yield {("vl", 0)} | cells, set() if word & (31 << 15 | 31 << 7) else {("vl", 0)}, ""
        yield {("vtype", 0)}, set(), ""
    if re.match(r"vl\w*ff", text):
        yield {("vl", 0)}, set(), ""
    instruction = vector_instruction(word, before.control.vtype)
    if text.startswith("v"):
        yield _VSTART, _VSTART if instruction else set(), ""
    body = body_of(word, instruction, before.control) if instruction else range(0)
    if instruction and body:
        active = {0} if text.startswith(FIRST_ELEMENT) else {*active_of(instruction, body, before.v)}
        yield from _moved(step, instruction) if word & 0x7F in VECTOR_ACCESSES else ()
        yield from _made(step, instruction, active)


def _moved(step: Executed, instruction: VectorInstruction) -> Iterator[Part]:
    """Yield the parts that a vector load or store moves."""
    before, data = step.before, instruction.operands[0]
    for element, (address, length) in active_spans(step.retired.word, before.x, before.control, bytes(before.v)):
        width = length * data.group // len(data.registers)
        for at in range(length):
            memory = {("memory", address + at)}
            register = data.registers.start + at // width * data.group
            bits = bits_of_registers(REGISTER_BITS * register + 8 * (element * width + at % width), 8)
            yield (memory, bits | _VSTART, "active") if data.noun == "data" else (bits, memory | _VSTART, "active")


def _made(step: Executed, instruction: VectorInstruction, active: set[int]) -> Iterator[Part]:
    """Yield the parts that an operation writes to vector registers, and the agnostic elements of a load."""
    text, control, target = step.retired.text, step.before.control, instruction.operands[0]
    read = [operand for operand in instruction.operands if operand.noun == "source" or text.startswith(ACCUMULATES)]
    sources = [(256 * it.registers.start, it.eew, sum(needed(text, "vs2", it, control.vl))) for it in read]
    if text.startswith(("vred", "vwred")):  # these read only element 0 of vs1
        sources[1] = (*sources[1][:2], sources[1][1])
    sources += [(0, 1, control.vl)] if instruction.is_masked else []
    always = _VSTART | ({("vxrm", 0)} if _ROUNDS.match(text) else set())
    whole = always.union(*(bits_of_registers(first, length) for first, _, length in sources))
    if target.noun == "source":
        first, width, _ = sources[0]
        made_of = bits_of_registers(first, width) | _VSTART if text.startswith("vmv.x.s") else whole
        yield bits_of_scalar(step.retired.word >> 7 & 31), made_of, "active"
    limit = REGISTER_BITS * target.group // target.eew if target.noun == "destination" else 0
    agnostic = {"tail": control.vtype & 0x40 or target.eew == 1, "masked off": control.vtype & 0x80}
    agnostic |= {"active": step.retired.word & 0x7F == OP_V}
    for element in range(control.vstart, limit):
        is_tail = element >= (1 if text.startswith(FIRST_ELEMENT) else control.vl)
        is_masked_off = not is_tail and element not in active and instruction.leaves_out
        kind = "masked off" if is_masked_off else "tail" if is_tail and element not in active else "active"
        same = (bits_of_registers(first + element * width, width) for first, width, _ in sources)
        made_of = whole if _ACROSS.match(text) else always.union(*same)
        for number in target.registers[:: target.group] if agnostic[kind] else ():
            bits = bits_of_registers(REGISTER_BITS * number + element * target.eew, target.eew)
            yield bits, made_of if kind == "active" else set(), kind
