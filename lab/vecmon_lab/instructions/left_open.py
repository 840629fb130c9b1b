"""Results that the RISC-V standards leave open, from the table left_open.txt.

They explain a difference that was found, and predict if an instruction may have other results on another device.
"""

import functools
import re
from collections.abc import Collection, Iterator
from dataclasses import dataclass, replace
from typing import NamedTuple

from ..machine.answers import ControlRegisters
from ..tables.table import read_table
from .accesses import ACCESSES, active_spans, vector_instruction
from .reasons import illegal_reasons
from .reserved import registers_of_two_widths
from .words import STORE, STORE_FP, SUPPORTED, VECTOR_ACCESSES, Trait

_BITS = {0x008: 8, 0x009: 1, 0x00A: 2, 0x00F: 3}  # the number of writable bits in vstart, vxsat, vxrm and vcsr
_ILLEGAL, _MISALIGNED_TARGET, _ACCESS_FAULTS = 2, 0, (5, 7)  # causes
_POLICIES = 0xC0  # the bits vta and vma
_X0_X0 = re.compile(r"vsetvli? x0, x0,")


@dataclass(frozen=True)
class Executed:
    """An instruction with the state before it, and the fault that it caused, if any.

    text: the canonical text
    x, control, v: the scalar registers, the control registers, and the bytes of all vector registers before the instruction
    cause: the cause of the fault; None without a fault
    element: the index of the element that faulted, for a vector access
    """

    word: int
    text: str
    x: list[int]
    control: ControlRegisters
    v: bytes
    cause: int | None = None
    element: int = 0


class OpenResult(NamedTuple):
    """A row of the table.

    kind: the kind of difference, such as `vl` or `trap`
    pattern: a regular expression for the start of an instruction's text
    sentence: an explanation of the difference
    """

    kind: str
    pattern: str
    sentence: str


def left_open(text: str, kinds: Collection[str]) -> OpenResult | None:
    """Return the first row that matches an instruction's text and one of these kinds of difference; None if there is none."""
    return next((row for row in _rows() if row.kind in kinds and re.match(row.pattern, text)), None)


@functools.cache
def _rows() -> list[OpenResult]:
    return [OpenResult(*row) for row in read_table("left_open")]


def open_result(step: Executed) -> str | None:
    """Return why a conforming device may execute an instruction with another result, as a sentence; None if the standard defines it.

    Agnostic elements aren't considered, since a device's policy is known.
    """
    found = left_open(step.text, {*_open_kinds(step)})
    return found.sentence if found else None


def _open_kinds(step: Executed) -> Iterator[str]:
    """Yield the kinds of difference that the standard allows for an instruction."""
    instruction = vector_instruction(step.word, step.control.vtype)
    if step.cause == _ILLEGAL:
        yield from ["operands"] if _has_reserved_operands(step) else []
        yield from ["trap"] if step.text.startswith("vmv") and step.control.vtype >> 63 else []
        return  # illegal because of vstart or vill, on each device
    yield from ["reserved"] if instruction and registers_of_two_widths(instruction) else []
    yield from ["vstart"] if step.control.vstart else []
    yield from ["vtype"] if _asks_for_optional_type(step) else []
    yield from ["vl"] if _has_open_length(step) else []
    yield from ["control"] if _sets_other_bits(step) else []
    yield from ["value"] if step.control.vtype >> 6 & 1 else []
    yield from ["trap"] if step.cause == _MISALIGNED_TARGET else []
    if step.word & 0x7F in ACCESSES:
        yield from _open_access_kinds(step)


def _open_access_kinds(step: Executed) -> Iterator[str]:
    """Yield the kinds of difference that the standard allows only for loads and stores."""
    spans = dict(active_spans(step.word, step.x, step.control, step.v))
    instruction = vector_instruction(step.word, step.control.vtype) if step.word & 0x7F in VECTOR_ACCESSES else None
    for address, length in spans.values():
        width = max(8, instruction.operands[0].eew) // 8 if instruction else length
        if address % width:
            yield "trap"
            break
    accessed = [address + at for address, length in spans.values() for at in range(length)]
    if step.word & 0x7F in (STORE, STORE_FP) and len(accessed) > len(set(accessed)):
        yield "order"
    if step.cause in _ACCESS_FAULTS:
        yield "fault"
        yield from ["elements"] if max(spans, default=0) > step.element else []


def _has_reserved_operands(step: Executed) -> bool:
    """Return whether an illegal vector instruction has reserved operands, so that it isn't illegal only because of vill or vstart."""
    instruction = vector_instruction(step.word, step.control.vtype)
    if instruction is None or (step.control.vtype >> 63 and Trait.UNTYPED not in instruction.traits):
        return False
    return bool(illegal_reasons(step.word, replace(step.control, vstart=0)))


def _new_type(step: Executed) -> int | None:
    """Return the vector type that a vset instruction requests; None for other instructions."""
    name = step.text.split()[0]
    if name == "vsetvl":
        return step.x[step.word >> 20 & 31]
    return step.word >> 20 & {"vsetvli": 0x7FF, "vsetivli": 0x3FF}[name] if name.startswith("vset") else None


def _asks_for_optional_type(step: Executed) -> bool:
    """Return whether a vset requests a fractional LMUL with an element width above LMUL x ELEN.

    A device may support such a type (V 1.0, section 3.4.2).
    """
    vtype = _new_type(step)
    return vtype is not None and vtype >> 8 == 0 and vtype >> 3 & 7 < 4 and 5 <= vtype & 7 < 5 + (vtype >> 3 & 7)


def _has_open_length(step: Executed) -> bool:
    """Return whether a device may choose vl after a vset or a fault-only-first load."""
    vtype = _new_type(step)
    if vtype is None:
        return "ff.v" in step.text and step.control.vl > 1
    if vtype & ~_POLICIES not in SUPPORTED:
        return False  # vl is 0 then
    limit = ControlRegisters(vtype=vtype).vlmax
    if _X0_X0.match(step.text):
        return limit != step.control.vlmax
    source = step.word >> 15 & 31
    wanted = source if step.text.startswith("vsetivli") else step.x[source]
    return limit < wanted < 2 * limit


def _sets_other_bits(step: Executed) -> bool:
    """Return whether an instruction writes bits to a control register that the register doesn't have."""
    if not step.text.startswith("csrr"):
        return False
    source = step.word >> 15 & 31
    value = source if step.word >> 14 & 1 else step.x[source]
    return step.word >> 12 & 3 != 3 and value >> _BITS.get(step.word >> 20, 64) > 0
