"""The changes by one instruction: registers, elements of vector registers, control registers and memory."""

import itertools
from collections.abc import Iterator, Sequence
from dataclasses import dataclass
from fractions import Fraction

from ..instructions.accesses import PAGE_BYTES, REGISTER_BYTES, Span, stored_spans, vector_instruction
from ..instructions.calls import ECALL
from ..instructions.scalar_registers import may_write_scalar
from ..instructions.words import LOAD_FP, OP_V, STORE_FP, SYSTEM, Operand
from ..machine.answers import (
    CONTROL,
    Answer,
    ControlRegisters,
    Listing,
    Memory,
    ScalarRegisters,
    Stop,
    VectorRegister,
    elements_in,
)
from .guest import Guest

WORDS_AT_ONCE = 16  # the most words that one `dis` shows here
NAMES = [*(f"x{number}" for number in range(32)), *CONTROL]  # the names of scalar and control registers
CONTROLLING = (OP_V, SYSTEM, LOAD_FP, STORE_FP)  # opcodes of instructions that may write control registers


@dataclass(frozen=True)
class RegisterChange:
    """A changed scalar register (`x10`) or control register (`vl`, `vtype`, `vstart`, `vxrm`, `vxsat`)."""

    name: str
    before: int
    after: int

    def __str__(self) -> str:
        if self.name == "vtype":
            return f"vtype={vtype_text(self.after)}"
        return f"{self.name}={self.after:x}" if self.name.startswith("x") else f"{self.name}={self.after}"


@dataclass(frozen=True)
class ElementsChange:
    """Consecutive elements that changed in a vector register group.

    register: the number of the group's first register
    width: the width of an element in bits; 1 for a mask. For a mask, all bits from the first changed one to the last are listed
    first: the index of the first element; before, after: the values of the elements
    """

    register: int
    width: int
    first: int
    before: Sequence[int]
    after: Sequence[int]

    def __str__(self) -> str:
        last = self.first + len(self.after) - 1
        numbers = f"{self.first}" if last == self.first else f"{self.first}..{last}"
        values = ("" if self.width == 1 else ",").join(f"{value:0{-(-self.width // 4)}x}" for value in self.after)
        return f"v{self.register}.e{self.width}[{numbers}]={values}"


@dataclass(frozen=True)
class MemoryChange:
    """Consecutive bytes of memory that changed."""

    address: int
    before: bytes
    after: bytes

    def __str__(self) -> str:
        return f"[{self.address:x}]={self.after.hex()}"


Change = RegisterChange | ElementsChange | MemoryChange


@dataclass(frozen=True)
class Retired:
    """An instruction that was executed, or that stopped the program instead.

    pc: the address of the instruction
    word, text: the instruction's word and text; 0 and "" if no instruction can be fetched
    changes: the changes of registers and memory by the instruction
    stop: the stop of the program; None if the instruction was executed
    """

    pc: int
    word: int
    text: str
    changes: list[Change]
    stop: Stop | None


@dataclass
class Registers:
    """All registers: the scalar registers, the control registers, and the bytes of the vector registers."""

    x: Sequence[int]
    control: ControlRegisters
    v: bytearray

    def copy(self) -> "Registers":
        """Return a copy, which doesn't change when the machine is read again."""
        return Registers(self.x, self.control, bytearray(self.v))

    def values(self) -> list[int]:
        """Return the values of the scalar and control registers, in the order of NAMES."""
        return [*self.x, *vars(self.control).values()]

    def groups(self, operand: Operand) -> Iterator[tuple[int, list[int]]]:
        """Yield the number of the first register of each group of an operand, and the values of the group's elements."""
        for register in range(operand.registers.start, min(operand.registers.stop, 32), operand.group):
            group = self.v[register * REGISTER_BYTES : (register + operand.group) * REGISTER_BYTES]
            yield register, elements_in(group, operand.eew)


class Stepper:
    """Steps a guest, and returns the changes by each instruction. Call `look` if the guest was changed in another way.

    registers: the current registers
    last: the registers before the last stepped instruction, and this instruction; None if `look` was called since then
    """

    def __init__(self, guest: Guest) -> None:
        self.guest = guest
        self.last: tuple[Registers, Retired] | None = None
        self.registers = Registers([0] * 32, ControlRegisters(), bytearray(32 * REGISTER_BYTES))
        self.look()

    def look(self) -> list[Change]:
        """Read all registers, and return those that changed since they were last read. Vector registers have elements of width SEW."""
        self._listing: dict[int, tuple[int, str]] = {}  # words and texts by address
        self.last = None
        before = self.registers.copy()
        looks = ["regs", "vcsr", *(f"vreg v{number} 64" for number in range(32))]
        self._apply(self.guest.ask(*looks))
        sew = ControlRegisters(vtype=self.registers.control.vtype & 0x3F).sew
        singles = [Operand("destination", sew, Fraction(1), False, 1, range(32))]
        return self._changes_since(before, singles)

    def step(self) -> Retired:
        """Execute one instruction, and return it with its changes. Its output goes to the guest's `write`, or to `Guest.output`."""
        pc, before = self.guest.pc, self.registers.copy()
        word, text = self.fetch(pc)
        if word == ECALL:
            self.guest.empty_buffer()
            self.guest.runner.look(pc, before.x)
        instruction = vector_instruction(word, before.control.vtype)
        targets = [operand for operand in instruction.operands if operand.noun == "destination"] if instruction else []
        looks, spans = _looks(word, targets), list[Span]()
        if text:
            spans = stored_spans(word, before.x, before.control, before.v)
        peeks = [f"peek {address:x} {length}" for address, length in spans]
        stop, answers = self.guest.step_between(peeks, looks + peeks)
        self._apply(answers)
        if word == ECALL:
            self.guest.empty_buffer()
        stored = [change for span in zip(spans, answers, answers[-len(spans) :]) for change in _memory_changes(*span)]
        for change in stored:
            for address in range(change.address & ~3, change.address + len(change.after), 4):
                self._listing.pop(address, None)
        retired = Retired(pc, word, text, [*self._changes_since(before, targets), *stored], stop)
        self.last = before, retired
        return retired

    def fetch(self, pc: int) -> tuple[int, str]:
        """Return the word at an address and its text; 0 and "" if no instruction can be fetched there."""
        if pc not in self._listing:
            number = min(WORDS_AT_ONCE, (PAGE_BYTES - pc % PAGE_BYTES) // 4)
            (listing,) = self.guest.ask(f"dis {pc:x} {number}")
            if isinstance(listing, Listing):
                self._listing |= {each.address: (each.word, each.text) for each in listing.words}
        return self._listing.get(pc, (0, ""))

    def _apply(self, answers: Sequence[Answer]) -> None:
        """Update the registers from answers to commands that read them."""
        for answer in answers:
            match answer:
                case ScalarRegisters():
                    self.guest.pc, self.registers.x = answer.pc, answer.x
                case ControlRegisters():
                    self.registers.control = answer
                case VectorRegister():
                    at = answer.number * REGISTER_BYTES
                    self.registers.v[at : at + REGISTER_BYTES] = answer.data

    def _changes_since(self, before: Registers, targets: Sequence[Operand]) -> list[Change]:
        """Return the changes of registers since `before`. Of the vector registers, compare only those of the operands `targets`."""
        pairs = zip(NAMES, before.values(), self.registers.values())
        changed = [RegisterChange(name, old, new) for name, old, new in pairs if old != new]
        elements = (_element_changes(target, before, self.registers) for target in targets)
        return [*changed, *itertools.chain(*elements)]


def _looks(word: int, targets: Sequence[Operand]) -> list[str]:
    """Return the commands that read all registers that an instruction may write."""
    looks = ["regs"] if may_write_scalar(word) else []
    looks += ["vcsr"] if word & 0x7F in CONTROLLING else []
    numbers = {number for target in targets for number in target.registers if number < 32}
    return looks + [f"vreg v{number} 64" for number in sorted(numbers)]


def _element_changes(target: Operand, before: Registers, after: Registers) -> Iterator[ElementsChange]:
    """Yield the runs of changed elements in each group of a destination. before, after: the registers before and after"""
    for (register, old), (_, new) in zip(before.groups(target), after.groups(target)):
        for first, last in runs(old, new, target.eew == 1):
            yield ElementsChange(register, target.eew, first, old[first:last], new[first:last])


def _memory_changes(span: Span, *answers: Answer) -> Iterator[MemoryChange]:
    """Yield the runs of changed bytes in a span; nothing for an unmapped span.

    answers: the answers to `peek` for this span before and after the instruction
    """
    before, after = (answer.data if isinstance(answer, Memory) else b"" for answer in answers)
    for first, last in runs(before, after):
        yield MemoryChange(span[0] + first, before[first:last], after[first:last])


def runs(before: Sequence[int], after: Sequence[int], is_joined: bool = False) -> Iterator[tuple[int, int]]:
    """Yield the runs of changed values, each as the index of its first value and the index after its last.

    is_joined: whether to yield one run, from the first changed value to the last
    """
    changed = [place for place, pair in enumerate(zip(before, after)) if pair[0] != pair[1]]
    if is_joined and changed:
        changed = list(range(changed[0], changed[-1] + 1))
    for _, run in itertools.groupby(enumerate(changed), lambda pair: pair[1] - pair[0]):
        places = [place for _, place in run]
        yield places[0], places[-1] + 1


def vtype_text(vtype: int) -> str:
    """Return a vector type as assembler syntax without spaces: `e32,m2,ta,ma`, or `vill`."""
    if vtype >> 63:
        return "vill"
    view = ControlRegisters(vtype=vtype)
    group = f"m{view.lmul}" if view.lmul >= 1 else f"mf{view.lmul.denominator}"
    return f"e{view.sew},{group},{'ta' if vtype >> 6 & 1 else 'tu'},{'ma' if vtype >> 7 & 1 else 'mu'}"
