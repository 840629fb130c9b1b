"""Execute an instruction by its formula, to find which elements it changes, and their new values."""

import ast
import enum
import functools
import struct
from collections.abc import Callable, Mapping, Sequence
from dataclasses import dataclass, field, replace

from .. import LabError
from ..instructions.accesses import (
    REGISTER_BITS,
    REGISTER_BYTES,
    active_of,
    body_of,
    is_fault_only_first,
    vector_instruction,
)
from ..instructions.table import Row, row_of
from ..instructions.words import OP_V, STORE, SUPPORTED, SYSTEM, Operand, VectorInstruction
from ..machine.answers import VILL, ControlRegisters
from .formula import Assignment, Bits, Formula, Names, bits_type, evaluate, scope, sext, zext
from .record import Record, record_of

WORD = (1 << 64) - 1
ElementOutcome = enum.Enum("ElementOutcome", "RESULT KEPT MASKED TAIL BEFORE_START NO_ELEMENTS AFTER_FAULT SHORTENED")
"""Why an element of a destination has its value.

RESULT is the formula's value. With the others the element keeps its value, unless it is agnostic and the policy is `ones`.
"""

# The bit of vtype that makes elements with this outcome agnostic.
_AGNOSTIC = {ElementOutcome.MASKED: 0x80, ElementOutcome.TAIL: 0x40}
REGISTERS = 32
_FORMS = {8: "B", 16: "H", 32: "I", 64: "Q"}  # codes of the module struct, by the width in bits
_SIGNED_FORMS = {8: "b", 16: "h", 32: "i", 64: "q"}
_SCALAR_BITS = bits_type(64)
_CONTROL_FIELDS = {  # fields of writable control registers, by number: the lowest bit and the largest value
    0x008: {"vstart": (0, 0xFF)},
    0x009: {"vxsat": (0, 1)},
    0x00A: {"vxrm": (0, 3)},
    0x00F: {"vxrm": (1, 3), "vxsat": (0, 1)},
}


@dataclass(eq=False)
class NoAccess(Exception):
    """Memory doesn't permit an access, or a jump, to an address."""

    address: int


@dataclass(frozen=True)
class Before:
    """A word to execute, and the state before it.

    v: the bytes of all vector registers
    has_ones: whether agnostic elements become ones
    read: takes an address and a number of bytes; returns these bytes of memory, or None if any of them can't be read
    can_write: takes an address and a number of bytes; returns whether all these bytes of memory can be written
    """

    pc: int
    word: int
    x: Sequence[int]
    control: ControlRegisters
    v: bytes
    has_ones: bool
    read: Callable[[int, int], bytes | None] = lambda address, number: None
    can_write: Callable[[int, int], bool] = lambda address, number: True


@dataclass
class After:
    """The state after an instruction.

    x: the written scalar registers, by number; memory: the stored bytes, by address
    fault: the invalid address of an access or a jump, or None; after a fault, pc is the address of the instruction
    """

    pc: int
    control: ControlRegisters
    v: bytearray
    x: dict[int, int] = field(default_factory=dict)
    memory: dict[int, int] = field(default_factory=dict)
    fault: int | None = None


class Numbers:
    """Numbers by index: a register group, the scalar registers, or memory.

    name: `v4`, `x` or `memory`
    width: the width of each number in bits
    register: the number of the group's first vector register; None if the numbers aren't vector elements
    """

    def __init__(self, name: str, width: int, at: Callable[[int], Bits], register: int | None = None) -> None:
        self.name, self.width, self._at, self.register = name, width, at, register

    @property
    def mask(self) -> "Numbers | None":
        """The bits of the vector register, by their index; None if the numbers aren't vector elements."""
        return None

    def __getitem__(self, number: int) -> Bits:
        return self._at(number)

    def each(self, indices: Sequence[int], is_signed: bool) -> Sequence[int]:
        """Return the numbers at indices, as signed or unsigned numbers."""
        return [sext(self[index]) if is_signed else self[index] for index in indices]

    def name_of(self, index: int) -> str:
        """Return the name of the number at an index: `v4[5]`, `x10`, `memory[0x11004]`."""
        return f"x{index}" if self.name == "x" else f"{self.name}[{index}]"

    def scalar_of(self, index: int) -> int | None:
        """Return the number of the scalar register at an index; None if the numbers aren't scalar registers."""
        return index if self.name == "x" else None


class Elements(Numbers):
    """The elements of a vector register group, and of the registers after it."""

    def __init__(self, v: bytes, register: int, width: int, count: int = 1) -> None:
        """Create the elements.

        v: the bytes of all vector registers; register: the number of the group's first register
        width: the width of an element in bits; count: the number of registers in the group
        """
        super().__init__(f"v{register}", width, functools.partial(element_of, v, register, width), register)
        self._v, self._first, self._bits = v, register, bits_type(width)
        self._count = min(count, REGISTERS - register) * REGISTER_BITS // width

    def __getitem__(self, number: int) -> Bits:
        values = self._values
        return self._bits(values[number]) if 0 <= number < len(values) else self._at(number)

    def each(self, indices: Sequence[int], is_signed: bool) -> Sequence[int]:
        """Return the elements at indices, as signed or unsigned numbers."""
        if indices and not 0 <= min(indices) <= max(indices) < len(self._values):
            return super().each(indices, is_signed)
        values = self._unpacked(_SIGNED_FORMS) if is_signed else self._values
        return [*map(values.__getitem__, indices)]

    @functools.cached_property
    def _values(self) -> tuple[int, ...]:
        """The elements of the group; none for a width that no vector type has, as in reserved encodings."""
        return self._unpacked(_FORMS)

    def _unpacked(self, forms: Mapping[int, str]) -> tuple[int, ...]:
        form = f"<{self._count}{forms[self.width]}" if self.width in forms else ""
        return struct.unpack_from(form, self._v, self._first * REGISTER_BYTES)

    @property
    def mask(self) -> Numbers:
        """The bits of the first register, by their index."""
        return Numbers(f"{self.name}.mask", 1, functools.partial(element_of, self._v, self._first, 1), self._first)


class Memory(Numbers):
    """Memory, by address."""

    def name_of(self, index: int) -> str:
        """Return the name of memory at an address."""
        return f"memory[{index & WORD:#x}]"


class Shared(Numbers):
    """A scalar register or an immediate that takes part in the calculation of each element.

    scalar: the number of the register; None for an immediate
    """

    def __init__(self, name: str, value: Bits, scalar: int | None) -> None:
        super().__init__(name, value.width, lambda _: value)
        self.scalar, self._value = scalar, value

    def each(self, indices: Sequence[int], is_signed: bool) -> Sequence[int]:
        """Return the shared number once for each index, as a signed or unsigned number."""
        return [sext(self._value) if is_signed else self._value] * len(indices)

    def name_of(self, index: int) -> str:
        """Return the name of the register, or the digits of the immediate."""
        return self.name

    def scalar_of(self, index: int) -> int | None:
        """Return the number of the register; None for an immediate."""
        return self.scalar


def element_of(v: bytes | bytearray, register: int, width: int, number: int) -> Bits:
    """Return an element of a register group as an unsigned number. Raises LabError if there is no such element.

    v: the bytes of all vector registers; register: the number of the group's first register
    width: the width of an element in bits, 1 for a mask; number: the index of the element
    """
    at = register * REGISTER_BITS + number * width
    if number < 0 or at + width > 8 * len(v):
        raise LabError(f"there is no element {number}")
    bits = int.from_bytes(v[at // 8 : (at + width + 7) // 8], "little") >> at % 8 & (1 << width) - 1
    return bits_type(width)(bits)


def _memory(before: Before, width: int) -> Numbers:
    def value(address: int) -> Bits:
        data = before.read(address & WORD, width // 8)
        if data is None:
            raise NoAccess(address & WORD)
        return bits_type(width)(int.from_bytes(data, "little"))

    return Memory("memory", width, value)


class Execution:
    """An instruction in a state: its record and formula, its elements, and the values of names in the formula.

    target: the first assignment of the formula
    is_single: whether the instruction writes only one element of its destination register; the other elements are the tail
    body: the indices of the elements from vstart to the end of the body
    active: the indices of the elements of the body that aren't masked off
    operand: the vector register group in the field vd: the destination, or the data of a store; None if there is none
    fields: the number of fields in a segment; 1 if there are no segments
    width: the width in bits of an element that is written, loaded or stored
    scalar: the number of the scalar register that the form has in place of vs1; None for forms without a scalar register
    is_fault_only_first: whether it is a load that reduces vl if an element after the first can't be read
    is_saturated: whether an evaluated formula has limited a number to the range of its target
    names: the values of names in the formula, for the current element
    """

    def __init__(self, before: Before, formula: Formula | None = None) -> None:
        """Raises LabError if the word isn't an instruction with a formula.

        formula: to use in place of the record's; None for the record's
        """
        self.before = before
        row = row_of(before.word)
        if row is None:
            raise LabError(f"{before.word:08x} is no instruction")
        self.row: Row = row
        self.record: Record = record_of(row.name)
        found = formula or self.record.formula_of(row.name)
        if found is None:
            raise LabError(f"{row.name} has no formula")
        self.formula: Formula = found
        self.target: Assignment = found.assignments[0]
        self.is_single = isinstance(self.target.place, ast.Constant)
        self.instruction = instruction = vector_instruction(before.word, before.control.vtype)
        self.body = body_of(before.word, instruction, before.control) if instruction else range(0)
        self.active = active_of(instruction, self.body, before.v) if instruction else []
        operands = instruction.operands if instruction else []
        self.operand: Operand | None = next((it for it in operands if it.place == "vd"), None)
        self.fields = 1
        if self.operand and not self.operand.is_whole:
            self.fields = len(self.operand.registers) // self.operand.group
        self.width = max(8, (self.operand or operands[0]).eew) if operands else 64
        has_scalar = before.word & 0x7F == OP_V and before.word >> 12 & 7 in (4, 6)
        self.scalar = before.word >> 15 & 31 if has_scalar else None
        self.is_fault_only_first = is_fault_only_first(before.word)
        self.is_saturated = False
        self.names = self._names()

    def place(self, assignment: Assignment) -> int:
        """Return the index or the address that an assignment writes, for the current values of its names."""
        return evaluate(assignment.place, self.names)

    def value(self, assignment: Assignment) -> int:
        """Return the value of an assignment, for the current values of its names."""
        return evaluate(assignment.value, self.names)

    def at(self, element: int, number: int = 0) -> None:
        """Set the current element, to which the values of names apply.

        element: the element's index; number: the number of the segment's field, 0 without segments
        """
        self.names["i"], self.names["f"] = element, number
        if self.operand and self.fields > 1:
            register = self.operand.registers.start + number * self.operand.group
            self.names["vd"] = self.names["vs3"] = Elements(self.before.v, register, self.operand.eew)

    @property
    def element(self) -> int:
        """The current element; 0 for an instruction without elements."""
        number = self.names.get("i", 0)
        assert isinstance(number, int)
        return number

    def is_kept(self) -> bool:
        """Return whether the record says that the current element isn't written."""
        return self.record.kept is not None and bool(evaluate(self.record.kept, self.names))

    def outcome(self, element: int) -> ElementOutcome:
        """Return the outcome of an element of the destination, and make it the current element if it is in the body.

        Faults and a reduced vl aren't considered. element: the element's index
        """
        control, body = self.before.control, self.body
        if self.is_single:
            body = range(control.vl > control.vstart)
        if not len(body):
            return ElementOutcome.NO_ELEMENTS
        if element < body.start:
            return ElementOutcome.BEFORE_START
        if element >= body.stop:
            return ElementOutcome.TAIL
        self.at(element)
        if self.is_kept():
            return ElementOutcome.KEPT
        return ElementOutcome.RESULT if self.is_single or element in self.active else ElementOutcome.MASKED

    def _names(self) -> Names:
        before, control, word = self.before, self.before.control, self.before.word
        names: Names = {
            **_names_of_word(word),
            "x": Numbers("x", 64, lambda number: _SCALAR_BITS(before.x[number])),
            "pc": before.pc,
            "vxrm": control.vxrm,
            "vl": control.vl,
            "vlmax": control.vlmax,
            "sew": control.sew,
            "v0": Elements(before.v, 0, 8),
            "clip": functools.partial(self._clipped, True),
            "clipu": functools.partial(self._clipped, False),
        }
        if not self.instruction:
            names |= {f"memory{width}": _memory(before, width) for width in (8, 16, 32, 64)}
        if word & 0x7F == SYSTEM:
            names["csr"] = _control_value(control, word >> 20)
        if word & 0x7F == OP_V and word >> 12 & 7 == 7:
            names |= _requested(before)
        if self.instruction:
            names |= self._operand_names(self.instruction)
        return names

    def _operand_names(self, instruction: VectorInstruction) -> Names:
        before, word = self.before, self.before.word
        names: Names = {
            it.place: Elements(before.v, it.registers.start, max(8, it.eew), it.group) for it in instruction.operands
        }
        names |= {"vs3": names.get("vd"), "memory": _memory(before, self.width), "bytes": self.width // 8}
        if word & 0x7F == OP_V:
            imm = sext(word >> 15, 5) if "imm" in self.row.fields() else word >> 15 & 31
            form, sew = word >> 12 & 7, before.control.sew
            scalar = before.x[word >> 15 & 31] if form & 4 else imm
            names |= {"imm": imm, "uimm": imm, "offset": scalar}
            if form not in (0, 2):  # the forms of vector registers
                name = f"x{self.scalar}" if form & 4 else f"{imm}"
                names["vs1"] = Shared(name, bits_type(sew)(zext(scalar, sew)), self.scalar)
        return names | {"nf": self.fields, "f": 0, "active": self.active}

    def _clipped(self, has_sign: bool, value: int) -> int:
        """Return the nearest number that the destination's width can represent."""
        minimum = -(1 << self.width - 1) if has_sign else 0
        maximum = minimum + (1 << self.width) - 1
        self.is_saturated = self.is_saturated or not minimum <= value <= maximum
        return min(max(value, minimum), maximum)


def execution_of(word: int, vtype: int, formula: Formula | None = None) -> Execution:
    """Return an execution of a word in a state with all registers 0.

    It is for properties that depend only on the word and the vector type. Raises LabError as `Execution` does.

    formula: the formula to use in place of the record's; None for the record's
    """
    v, control = bytes(REGISTERS * REGISTER_BYTES), ControlRegisters(vtype=vtype)
    return Execution(Before(0, word, [0] * 32, control, v, False), formula)


def execute(before: Before, formula: Formula | None = None) -> After:
    """Execute an instruction by its formula, and return the state after it. Raises LabError if the word has no formula.

    formula: the formula to use in place of the record's; None for the record's
    """
    execution = Execution(before, formula)
    after = After(before.pc + 4 & WORD, before.control, bytearray(before.v))
    try:
        if execution.operand and execution.target.kind in ("element", "mask", "memory"):
            _execute_elements(execution, after, execution.operand)
        else:
            _execute_once(execution, after)
    except NoAccess as problem:
        after.pc, after.fault = before.pc, problem.address
    if after.fault is None and execution.instruction:
        after.control = replace(after.control, vstart=0)
    if execution.is_saturated:
        after.control = replace(after.control, vxsat=1)
    return after


def _execute_once(execution: Execution, after: After) -> None:
    """Execute an instruction that isn't executed element by element, and write its results to `after`. Raises NoAccess."""
    before = execution.before
    for assignment in execution.formula.assignments:
        value = execution.value(assignment) & WORD
        match assignment.kind:
            case "x" if execution.names["rd"]:
                after.x[before.word >> 7 & 31] = value
            case "pc" if value % 4:
                raise NoAccess(value)
            case "pc":
                after.pc = value
            case "vl":
                after.control = replace(after.control, vl=value, vstart=0)
            case "vtype":
                after.control = replace(after.control, vtype=value)
            case "csr":
                after.control = _with_control_value(after.control, before.word >> 20, value)
            case "memory":
                after.memory |= _stored(execution, execution.place(assignment), value, assignment.width)


def _execute_elements(execution: Execution, after: After, operand: Operand) -> None:
    """Execute an instruction element by element, from vstart on, and write its results to `after`. Raises NoAccess for a fault.

    operand: the destination, or the data of a store
    """
    for element in execution.active if not execution.is_single else range(1):
        if execution.outcome(element) != ElementOutcome.RESULT:
            continue
        try:
            _execute_element(execution, after, operand, element)
        except NoAccess:
            is_shortened = execution.is_fault_only_first and element > 0
            after.control = replace(after.control, **{"vl" if is_shortened else "vstart": element})
            _set_ones(execution, after, operand, element, has_tail=is_shortened)
            if is_shortened:
                return
            raise
    _set_ones(execution, after, operand, execution.body.stop, has_tail=True)


def _execute_element(execution: Execution, after: After, operand: Operand, element: int) -> None:
    """Write one element, or the element of each field of a segment, to `after`. Raises NoAccess before any of them is written."""
    values = list[tuple[int, int]]()
    for number in range(execution.fields):
        execution.at(element, number)
        values.append((execution.place(execution.target), execution.value(execution.target)))
    if execution.target.kind == "memory":
        for stored in [_stored(execution, address, value, execution.width) for address, value in values]:
            after.memory |= stored
        return
    for number, (place, value) in enumerate(values):
        _write(execution, after, operand, number, place, value)


def _write(execution: Execution, after: After, operand: Operand, number: int, place: int, value: int) -> None:
    """Write an element, or a bit of a mask, to the vector registers of `after`. A bit of a mask is set unless the value is 0.

    number: the number of the segment's field, 0 without segments; place: the index of the element or bit
    """
    width = 1 if execution.target.kind == "mask" else execution.width
    at = (operand.registers.start + number * operand.group) * REGISTER_BITS + place * width
    part, ones = slice(at // 8, (at + width + 7) // 8), (1 << width) - 1
    others = int.from_bytes(after.v[part], "little") & ~(ones << at % 8)
    new = value & ones if width > 1 else bool(value)
    after.v[part] = (others | new << at % 8).to_bytes(part.stop - part.start, "little")


def agnostic(execution: Execution, outcome: ElementOutcome) -> bool:
    """Return whether an element with an outcome becomes all ones.

    It does if the policy is `ones`, the destination isn't a mask, and vtype makes elements with this outcome agnostic.
    """
    operand, vtype = execution.operand, execution.before.control.vtype
    if not execution.before.has_ones or operand is None or operand.noun != "destination" or operand.eew == 1:
        return False
    return (execution.is_single or not operand.is_whole) and bool(vtype & _AGNOSTIC.get(outcome, 0))


def _set_ones(execution: Execution, after: After, operand: Operand, stop: int, has_tail: bool) -> None:
    """Set agnostic elements of the destination to ones: masked-off elements with an index below `stop`, and the tail if `has_tail`."""
    if not any(agnostic(execution, outcome) for outcome in _AGNOSTIC):
        return
    for element in range(operand.group * REGISTER_BITS // operand.eew):
        outcome = execution.outcome(element)
        if agnostic(execution, outcome) and (has_tail if outcome == ElementOutcome.TAIL else element < stop):
            for number in range(execution.fields):
                _write(execution, after, operand, number, element, -1)


def _stored(execution: Execution, address: int, value: int, width: int) -> dict[int, int]:
    """Return the bytes that a store writes, by address. Raises NoAccess if memory doesn't permit the store. width: in bits"""
    address &= WORD
    if not execution.before.can_write(address, width // 8):
        raise NoAccess(address)
    return {address + at & WORD: value >> 8 * at & 255 for at in range(width // 8)}


def immediate_of(word: int) -> int:
    """Return the immediate of a scalar instruction, by its opcode."""
    opcode, funct3 = word & 0x7F, word >> 12 & 7
    if opcode == STORE:
        return sext(word >> 25 << 5 | word >> 7 & 31, 12)
    if opcode == 0x63:
        return sext(word >> 31 << 12 | (word >> 7 & 1) << 11 | (word >> 25 & 63) << 5 | (word >> 8 & 15) << 1, 13)
    if opcode == 0x6F:
        bits = word >> 31 << 20 | (word >> 12 & 255) << 12 | (word >> 20 & 1) << 11 | (word >> 21 & 1023) << 1
        return sext(bits, 21)
    if opcode in (0x17, 0x37):
        return word >> 12
    if opcode in (0x13, 0x1B) and funct3 in (1, 5):
        return word >> 20 & (63 if opcode == 0x13 else 31)
    return word >> 15 & 31 if opcode in (SYSTEM, OP_V) else sext(word >> 20, 12)


@functools.lru_cache(maxsize=4096)
def _names_of_word(word: int) -> Names:
    """Return the names whose values depend only on a word, and the functions of formulas."""
    immediate = immediate_of(word)
    fields = {"rd": word >> 7 & 31, "rs1": word >> 15 & 31, "rs2": word >> 20 & 31}
    return scope(fields | {name: immediate for name in ("imm", "uimm", "shamt", "offset")})


def _control_value(control: ControlRegisters, number: int) -> int:
    """Return the value of a control register. number: of the register, such as 0xC20 for vl"""
    read_only = {0xC20: control.vl, 0xC21: control.vtype, 0xC22: REGISTER_BYTES}
    fields = _CONTROL_FIELDS.get(number, {})
    return read_only.get(number, sum(getattr(control, name) << low for name, (low, _) in fields.items()))


def _with_control_value(control: ControlRegisters, number: int, value: int) -> ControlRegisters:
    """Return the control registers after a value is written to one of them. A read-only register doesn't change.

    number: the number of the written register, such as 0x00F for vcsr
    """
    fields = _CONTROL_FIELDS.get(number, {})
    return replace(control, **{name: value >> low & limit for name, (low, limit) in fields.items()})


def _requested(before: Before) -> dict[str, object]:
    """Return the values of the formula names that only vset instructions use, such as `avl` and `type`."""
    word, x, control = before.word, before.x, before.control
    rd, rs1, has_immediate = word >> 7 & 31, word >> 15 & 31, word >> 30 == 3
    requested = word >> 20 & 0x3FF if has_immediate else word >> 20 & 0x7FF if not word >> 31 else x[word >> 20 & 31]
    limit = ControlRegisters(vtype=requested).vlmax if requested & 0x3F in SUPPORTED and requested < 256 else 0
    keeps_vl = not has_immediate and not rd and not rs1
    is_supported = limit > 0 and (not keeps_vl or limit == control.vlmax)
    avl = rs1 if has_immediate else x[rs1] if rs1 else control.vl if keeps_vl else WORD
    return {"avl": avl, "type": requested, "limit": limit, "is_supported": is_supported, "vill": VILL}
