"""Why a register has its value after an instruction: the formula with its numbers, or the cause why an element kept its value."""

import ast
import re
from dataclasses import dataclass

from .. import LabError
from ..instructions.accesses import REGISTER_BITS
from ..instructions.reasons import illegal_reasons
from ..instructions.table import REGISTERS
from .calculation import Calculation, Kept, Notation, Sign, Term, numbers_text
from .equation import Reader, calculation_of
from .executed import WORD, After, Before, ElementOutcome, Execution, agnostic, element_of, execute
from .formula import evaluate

NO_STEP = "no instruction was executed by a single step: step first"
_NAME = re.compile(r"(\w+)(?:\[(\d+)\]|\s+(\d+))?")


@dataclass(frozen=True)
class Reason:
    """The reason why a register or an element has its value, or why it kept its value.

    of: the calculation of the value, or the cause why it was kept
    """

    of: Calculation | Kept

    @property
    def text(self) -> str:
        """The sentence, with signed numbers, and with registers such as x10."""
        return self.of.text()

    @property
    def value(self) -> int:
        """The unsigned value after the instruction."""
        return self.of.target.bits

    def __str__(self) -> str:
        return self.text


def read_name(text: str) -> tuple[str, int | None]:
    """Return the register and the element that a text names: `v8[5]`, `v8 5`, or `a0`, which has no elements. Raises LabError."""
    found = _NAME.fullmatch(text.strip())
    if found is None:
        raise LabError(f"{text.strip()!r} names no element: v8[5] is one, and x10 or a0 a register")
    number = found[2] or found[3]
    return found[1], int(number) if number else None


class Explanation:
    """The reasons for the results of one instruction. Its formula is executed once."""

    def __init__(self, before: Before) -> None:
        """Raises LabError if the instruction is illegal or has no formula."""
        if reasons := illegal_reasons(before.word, before.control):
            raise LabError(f"the instruction is illegal and changed nothing: {reasons[0]}")
        self._execution, self._after = Execution(before), execute(before)

    def why(self, name: str, element: int | None = None) -> Reason:
        """Return why a scalar register, or an element of a vector register, has its value after the instruction.

        Raises LabError if there is no such register or element, or if a vector register is named without an element.

        name: such as `x10`, `a0` or `v8`; element: the element's index; None for a scalar register
        """
        number = _register(name)
        if not re.fullmatch(r"v\d+", name):
            if element is not None:
                raise LabError(f"{name} is a scalar register, and has no elements")
            return Reason(_why_scalar(self._execution, self._after, number))
        if element is None:
            raise LabError(f"{name} has elements: {name}[0] is one")
        return Reason(_why_element(self._execution, self._after, number, element))


def _register(name: str) -> int:
    """Return the number of a register. Raises LabError if there is no such register. name: such as `x10`, `a0` or `v8`"""
    number = REGISTERS.get(name, name)
    if not re.fullmatch(r"[xv](?:\d|[12]\d|3[01])", number):
        kind = "there is no register" if re.fullmatch(r"[xv]\d+", name) else "a register has another name than"
        raise LabError(f"{kind} {name}: v0 to v31, x0 to x31, and names such as a0")
    return int(number[1:])


def _why_scalar(execution: Execution, after: After, number: int) -> Calculation | Kept:
    """Return why a scalar register has its value after an instruction.

    after: the state after the execution; number: of the register
    """
    before = execution.before
    assignment = next((it for it in execution.formula.assignments if it.kind == "x"), None)
    if number not in after.x or assignment is None:
        target = Term(f"x{number}", before.x[number], 64, Sign.EITHER, number)
        return Kept(target, f"{execution.row.name} doesn't write it")
    return calculation_of(execution, Term(f"x{number}", after.x[number], 64, Sign.EITHER, number), assignment)


def _why_element(execution: Execution, after: After, register: int, element: int) -> Calculation | Kept:
    """Return why an element of a vector register group has its value. Raises LabError if the group has no such element.

    register: the number of any register of the group; element: the index, counted from the first element of this register
    """
    operand, before, at, group = execution.operand, execution.before, 0, 1
    width, is_written = before.control.sew, operand is not None and register in operand.registers
    if operand and is_written:
        at, group, width = register - operand.registers.start, operand.group if operand.eew > 1 else 1, operand.eew
    count = REGISTER_BITS // width
    first, index = register - at % group, at % group * count + element
    if index >= group * count:
        raise LabError(f"v{first} has the elements 0 to {group * count - 1} of {width} bits, and {index} isn't one")
    if is_written:
        if width == 1 and execution.target.kind != "mask":
            index //= 8  # masks are loaded and stored by bytes
        return _why_written(execution, after, first, at // group, index)
    old = element_of(before.v, register, width, element)
    target = Term(f"v{register}[{element}]", old, width, Sign.EITHER)
    return Kept(target, f"{execution.row.name} doesn't write v{register}")


def _why_written(execution: Execution, after: After, register: int, field: int, index: int) -> Calculation | Kept:
    """Return why an element of the operand that the instruction's field vd names has its value.

    register: the number of the group's first register; field: the number of the segment's field, 0 without segments
    index: the index of the element in the group
    """
    is_mask, control = execution.target.kind == "mask", after.control
    unit, name = 1 if is_mask else execution.width, f"v{register}{'.mask' * is_mask}[{index}]"
    old, new = (element_of(data, register, unit, index) for data in (execution.before.v, after.v))
    target, outcome = Term(name, new, unit, Sign.EITHER), execution.outcome(index)
    if outcome != ElementOutcome.RESULT:
        is_ones = agnostic(execution, outcome) and after.fault is None and new == (1 << unit) - 1
        return Kept(target, _cause(execution, outcome, index), new != old or is_ones)
    if after.fault is not None and index >= control.vstart:
        return Kept(target, f"the access of element {control.vstart} faults, so it isn't reached")
    if execution.is_fault_only_first and index >= control.vl:
        return Kept(target, f"the access of element {control.vl} isn't permitted, so vl is {control.vl}")
    execution.at(index, field)
    if execution.target.kind == "memory":
        address = execution.place(execution.target) & WORD
        return Kept(target, f"it is stored: memory[{address:#x}] = {name} = {target.value(Notation())}")
    return calculation_of(execution, target, execution.target)


def _cause(execution: Execution, outcome: ElementOutcome, index: int) -> str:
    """Return why the formula doesn't apply to an element. outcome: the element's outcome, which isn't RESULT"""
    control, body = execution.before.control, execution.body
    stop = f"vl = {control.vl}" if body.stop == control.vl else f"{body.stop}"
    if execution.is_single:
        stop = "1, the one element that is written"
    execution.at(index)
    return {
        ElementOutcome.MASKED: f"masked off by v0[{index}] = 0",
        ElementOutcome.TAIL: f"tail, since {index} >= {stop}",
        ElementOutcome.BEFORE_START: f"before vstart = {control.vstart}",
        ElementOutcome.NO_ELEMENTS: f"no element is written, since vstart = {control.vstart} >= {body.stop}, the end of the body",
        ElementOutcome.KEPT: _kept_cause(execution),
    }[outcome]


def _kept_cause(execution: Execution) -> str:
    """Return why the current element isn't written: the record's condition, with numbers in place of names.

    For vcompress, elements after the packed ones are the tail (section 16.5).
    """
    kept = execution.record.kept
    if execution.record.layout == "compress" and isinstance(kept, ast.Compare):
        packed = evaluate(kept.comparators[0], execution.names)
        return f"tail, since {execution.element} >= {packed}, the number of packed elements"
    condition = numbers_text(Reader(execution, kept, 0).parts(kept), Notation("unsigned")) if kept else ""
    return f"not written, since {condition}"
