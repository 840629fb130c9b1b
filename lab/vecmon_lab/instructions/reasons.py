"""Descriptions of stops, and the reasons why an instruction is illegal.

An instruction is illegal if the RISC-V "V" manual, version 1.0, reserves it, with the choices in docs/DECISIONS.md.
"""

from collections.abc import Iterator, Sequence
from fractions import Fraction

from ..machine.answers import ControlRegisters, ProgramState
from ..machine.image import STACK_PAGES
from ..machine.start_state import RETURN
from ..tables.table import read_table
from .words import VECTOR_ACCESSES, NoInstruction, Operand, Trait, VectorInstruction, decode, listed

ELEN = 64


def illegal_reasons(word: int, view: ControlRegisters) -> list[str]:
    """Return sentences that say why a word is illegal in a state, the most specific one first; none if it is legal.

    view: the control registers in this state, of which only vtype and vstart matter
    """
    try:
        instruction = decode(word, view.sew, view.lmul)
    except NoInstruction as problem:
        return [str(problem)]
    return [] if instruction is None else list(dict.fromkeys(_vector_reasons(instruction, view)))


def _vector_reasons(instruction: VectorInstruction, view: ControlRegisters) -> Iterator[str]:
    if view.vtype >> 63 and Trait.UNTYPED not in instruction.traits:
        yield "The vector type is vill: no vset instruction has set one that is supported."
    else:
        if view.sew == 64 and Trait.BELOW_64 in instruction.traits:
            yield f"Zve64x has no {instruction.name} at SEW 64."
        yield from _operand_reasons(instruction, view)
    if view.vstart != 0 and Trait.FROM_ZERO in instruction.traits:
        yield f"vstart is {view.vstart}, and {instruction.name} has to begin with element 0."


def _operand_reasons(instruction: VectorInstruction, view: ControlRegisters) -> Iterator[str]:
    for operand in instruction.operands:
        yield from _size_reasons(operand, view)
    sized = [operand for operand in instruction.operands if not any(_size_reasons(operand, view))]
    yield from _place_reasons(sized, view)
    target = instruction.operands[0]
    if target.noun != "destination":
        return
    if instruction.is_masked and target.registers.start == 0 and Trait.V0_TOO not in instruction.traits:
        yield "It reads a mask from v0, so v0 can't be its destination."
    if target in sized:
        for source in sized[1:]:
            yield from _overlap_reasons(instruction, target, source)


def _size_reasons(operand: Operand, view: ControlRegisters) -> Iterator[str]:
    """Yield reasons for element widths and multipliers out of range."""
    would, part = f"The {operand.noun} would have", Fraction(operand.eew, view.sew)
    if operand.eew > ELEN:
        yield f"{would} elements of {operand.eew} bits ({part} x SEW {view.sew}), and ELEN is {ELEN}."
    if operand.eew < 8 and not operand.is_whole:
        yield f"{would} elements of {_bits(operand)} (SEW {view.sew} / {part.denominator}), and 8 is the least."
    if not Fraction(1, 8) <= operand.emul <= 8:
        yield f"{would} {_emul(operand, view)}, and EMUL is 1/8 to 8."
    elif len(operand.registers) > 8:
        fields, count = len(operand.registers) // operand.group, len(operand.registers)
        yield f"{fields} fields of {operand.group} registers each are {count}, and 8 is the most."


def _place_reasons(operands: Sequence[Operand], view: ControlRegisters) -> Iterator[str]:
    """Yield reasons for register groups that start at an invalid register, or that extend beyond the last register."""
    misplaced: dict[tuple[str, int], dict[str, None]] = {}
    for operand in operands:
        multiplier = f"The {operand.noun} has {_emul(operand, view)}"
        if operand.is_whole:
            multiplier = f"It names {operand.group} whole registers"
        elif operand.emul == view.lmul:
            multiplier = f"The vector type has LMUL {operand.emul}"
        if operand.registers.start % operand.group != 0:
            misplaced.setdefault((multiplier, operand.group), {})[f"v{operand.registers.start}"] = None
    for (multiplier, group), names in misplaced.items():
        places, lacking = ("even registers", "odd") if group == 2 else (f"registers divisible by {group}", "not")
        verdict = f"{listed(names)} {'are' if len(names) > 1 else 'is'} {lacking}"
        yield f"{multiplier}, so register groups begin at {places}: {verdict}."
    for operand in operands:
        if operand.registers.stop > 32:
            count, first = len(operand.registers), operand.registers.start
            yield f"The {operand.noun} takes {count} registers from v{first} on, and v31 is the last."


def _overlap_reasons(instruction: VectorInstruction, target: Operand, source: Operand) -> Iterator[str]:
    one, other = target.registers, source.registers
    both = range(max(one.start, other.start), min(one.stop, other.stop))
    comparison = "wider" if target.eew > source.eew else "narrower"
    ours, theirs = (f"{each.noun} {_span(each.registers)} ({_bits(each)})" for each in (target, source))
    unlike = f"The {ours} has {comparison} elements than the {theirs}"
    if not both or Trait.ANYWHERE in instruction.traits:
        return
    if Trait.APART in instruction.traits:
        verb = "are" if len(both) > 1 else "is"
        yield f"The destination of {instruction.name} may not overlap its {source.noun}: {_span(both)} {verb} in both."
    elif target.eew < source.eew and one.start != other.start:
        yield f"{unlike}: they may overlap only where both begin with the same register."
    elif target.eew > source.eew and source.emul < 1:
        yield f"{unlike}, which has EMUL {source.emul}: they may not overlap."
    elif target.eew > source.eew and one.stop != other.stop:
        yield f"{unlike}: they may overlap only where both end with the same register."


def _span(registers: range) -> str:
    return " to ".join(f"v{number}" for number in sorted({registers[0], registers[-1]}))


def _bits(operand: Operand) -> str:
    return "1 bit" if operand.eew == 1 else f"{operand.eew} bits"


def _emul(operand: Operand, view: ControlRegisters) -> str:
    return f"EMUL {operand.emul} (EEW {operand.eew} / SEW {view.sew} x LMUL {view.lmul})"


_SENTENCES = dict(read_table("stops"))
_MEMORY_BYTES = 1 << 20  # a user's limit, so no stack can extend further down


def describe_stop(
    where: ProgramState, word: int | None = None, view: ControlRegisters | None = None, text: str = "", end: int = 0
) -> str:
    """Return sentences that describe a stop, or an answer to `step`, `go`, `stop` or `state`.

    where: the stop or the answer
    word, text: the word at the program counter, None if unknown, and its canonical text, "" if unknown
    view: the control registers at the stop; None if unknown. They are needed to say why an instruction is illegal
    end: the address of the ebreak after the program's last instruction; 0 if there is none or it is unknown
    """
    if where.what == "ebreak" and where.pc in (RETURN, end):
        return _SENTENCES["returned" if where.pc == RETURN else "end"]
    value, text = f"{where.value:#x}", text or f"{where.value:#010x}"
    sentence = _SENTENCES[where.what].format(number=where.number, pc=f"{where.pc:#x}", value=value, text=text)
    if view and where.what == "fault cause=2":
        return " ".join([sentence, *illegal_reasons(where.value, view)])
    if view and has_elements(where, word):
        sentence = f"{sentence} It stopped at element {view.vstart}."
    if where.cause in (5, 7) and STACK_PAGES.start - _MEMORY_BYTES <= where.value < STACK_PAGES.start:
        return f"{sentence} {_SENTENCES['stack'].format(size=len(STACK_PAGES) >> 10, first=f'{STACK_PAGES.start:#x}')}"
    return sentence


def has_elements(where: ProgramState, word: int | None) -> bool:
    """Return whether a stop is a fault of a vector load or store. word: the word at the program counter; None if unknown"""
    return where.cause in (5, 7) and word is not None and word & 0x7F in VECTOR_ACCESSES
