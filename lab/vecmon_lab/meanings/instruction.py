"""An executed vector instruction as data: the roles of its operands, the outcomes of its elements, and their calculations."""

import ast
import functools
from collections.abc import Collection, Iterable, Iterator, Sequence
from dataclasses import dataclass, replace
from typing import Literal

from ..instructions.accesses import REGISTER_BITS, REGISTER_BYTES, vector_instruction, vector_spans
from ..instructions.words import STORE_FP, VECTOR_ACCESSES, Operand, Trait
from ..machine.answers import ControlRegisters
from .calculation import Calculation, Part, Sign, Term
from .equation import branches_of, calculation_of_each, formula_parts, numbers_of, sentence_parts
from .executed import Before, Elements, Execution, element_of, execution_of
from .formula import Assignment, evaluate_each

Outcome = Literal["active", "masked", "tail", "prestart", "fault", "pending", "kept", "idle"]
"""The outcome of an element.

tail: also for the elements after those that vcompress packs; kept: the formula doesn't apply, as below a slide's offset
pending: not reached, because the access of an earlier element failed; idle: the instruction doesn't read the element
"""

Role = Literal["destination", "data", "element", "single", "moved", "index"]
"""The role of an operand.

data: stored; element: read element by element; single: read only at element 0; moved: its elements go to other places
index: its elements are indices, or offsets of addresses
"""

End = Literal["ran", "fault", "illegal"]
"""How an instruction ended."""

Mask = Literal["", "mask", "bits"]
"""Whether v0 masks elements off, or is a source with a bit for each element."""

_MOVES = ("gather", "slide", "compress")  # layouts whose elements go to other places


@dataclass(frozen=True)
class Group:
    """A vector register operand.

    register: the number of the first register; size: the number of registers in a group
    groups: the number of consecutive groups: the fields of a segment
    width: the width of an element in bits; 1 for a mask
    """

    role: Role
    register: int
    size: int
    groups: int
    width: int


@dataclass(frozen=True)
class Access:
    """A memory access.

    base: the number of the scalar register with the address
    fields: the number of fields in a segment
    addresses: of the first field of each element, up to the end of the body; for a mask, the addresses of its bytes
    field_bytes: the distance from one field to the next, in bytes
    """

    base: int
    is_store: bool
    fields: int
    addresses: tuple[int, ...]
    field_bytes: int


@dataclass(frozen=True)
class Equation:
    """The calculation of several elements that have one form.

    calculation: the calculation of the first of these elements. Each term's `step` shows how the others' calculations differ
    elements: the indices of the elements, in rising order
    sign: how to interpret the bits of an element to get its exact result: SIGNED, UNSIGNED, or EITHER for the reader's number form
    others: the exact results of the elements whose bits represent another number under `sign`, by element, as
        `Calculation.results`
    """

    calculation: Calculation
    elements: tuple[int, ...]
    sign: Sign
    others: dict[int, tuple[int, int]]


@dataclass(frozen=True)
class ExecutedInstruction:
    """A vector instruction that was executed, or that faulted.

    name: the mnemonic
    layout: how sources correspond to results (`Record.layout`)
    groups: the operands: first the destination or a store's data, then vs2 and vs1; operands with an unsupported width are omitted
    elements: the largest number of elements that the instruction can have under the vector type
    vl, vstart: the values before the instruction
    outcomes: the outcome of each element; for a reduction, of each element of its source
    results: the outcome of each element of the destination
    pairs: each has the index of an element of the source, and the index of the element of the result to which it goes
    does: a sentence about the effect of the instruction, with its own operands
    formula: the formula, with its own operands
    is_shortened: whether the instruction reduced vl because an element can't be read
    scalars: the numbers of the scalar registers among the operands, without x0
    equations: the calculations of active elements; none if the registers before the instruction aren't known
    """

    name: str
    layout: str
    mask: Mask
    end: End
    groups: tuple[Group, ...]
    access: Access | None
    elements: int
    vl: int
    vstart: int
    outcomes: tuple[Outcome, ...]
    results: tuple[Outcome, ...]
    pairs: tuple[tuple[int, int], ...]
    does: tuple[Part, ...]
    formula: tuple[Part, ...]
    scalars: tuple[int, ...]
    equations: tuple[Equation, ...]
    is_shortened: bool


def executed_instruction(
    before: Before, after: ControlRegisters, v: bytes, end: End, is_known: bool = True
) -> ExecutedInstruction | None:
    """Return the data of an executed vector instruction; None if the word isn't a vector instruction. Memory isn't read.

    before: the word and the state before it
    after, v: the control registers and the bytes of all vector registers after the instruction
    end: how the instruction ended
    is_known: whether the registers before the instruction are known. If they aren't, `before` has the registers after it, and the
        result has no equations
    """
    instruction = vector_instruction(before.word, before.control.vtype)
    return _Instruction(before, after, v, end).data(is_known) if instruction else None


class _Form:
    """The properties of a vector instruction that depend only on its word and the vector type.

    does, formula: the instruction's sentence and its formula, in which the terms have no values
    is_whole: whether the operands are whole registers for all vector types
    is_single: whether the instruction reads or writes only element 0 of a register, for all values of LMUL
    elements: the largest number of elements that the instruction can have

    The other attributes are as in `ExecutedInstruction`.
    """

    def __init__(self, word: int, vtype: int) -> None:
        execution = execution_of(word, vtype)
        assert execution.instruction
        self.instruction = instruction = execution.instruction
        self.name, self.layout = execution.row.name, execution.record.layout
        self.is_access, self.is_store = word & 0x7F in VECTOR_ACCESSES, word & 0x7F == STORE_FP
        operands = instruction.operands
        self.is_whole = all(it.is_whole and it.eew > 1 for it in operands) and (
            Trait.UNTYPED in instruction.traits or len(operands) == 2
        )
        self.destination = operands[0] if operands[0].noun == "destination" else None
        is_register = operands[0].is_whole and operands[0].eew > 1 and not self.is_access and self.layout != "reduce"
        self.is_single = is_register and not self.is_whole
        self.elements = max(1, execution.before.control.vlmax)
        if self.is_single or self.is_whole:
            self.elements = len(operands[0].registers) * REGISTER_BITS // operands[0].eew
        self.mask: Mask = "mask" if instruction.leaves_out else "bits" if instruction.is_masked else ""
        self.groups = tuple(self._group(at, operand) for at, operand in enumerate(operands) if _has_elements(operand))
        guard = ("if v0.mask[i]: ",) if instruction.leaves_out and self.layout != "reduce" else ()
        self.does, self.formula = sentence_parts(execution), (*guard, *formula_parts(execution))
        places = {"rd": 7, "rs1": 15, "rs2": 20}
        numbers = [word >> places[field] & 31 for field in execution.row.fields() if field in places]
        self.scalars = tuple(dict.fromkeys(number for number in numbers if number))

    def _group(self, place: int, operand: Operand) -> Group:
        groups = len(operand.registers) // operand.group
        return Group(self._role(place, operand), operand.registers.start, operand.group, groups, operand.eew)

    def _role(self, place: int, operand: Operand) -> Role:
        """Return the role of an operand. place: the operand's index among the instruction's operands"""
        if place == 0 and operand.noun in ("destination", "data"):
            return "data" if self.is_store else "destination"
        is_second = place == 2
        if operand.noun == "index" or self.layout == "gather" and is_second:
            return "index"
        if self.layout in _MOVES and not is_second and not self.is_access:
            return "moved"
        is_scalar = self.destination is None and operand.is_whole and operand.eew > 1
        return "single" if is_scalar or self.layout == "reduce" and is_second else "element"


def _has_elements(operand: Operand) -> bool:
    """Return whether an operand's element width is supported. An unsupported width, such as 4 bits, makes the instruction illegal."""
    return operand.part is None or 8 <= operand.eew <= 64


@functools.lru_cache(maxsize=4096)
def _form_of(word: int, vtype: int) -> _Form:
    """Return the form of a vector instruction under a vector type."""
    return _Form(word, vtype)


@functools.lru_cache(maxsize=4096)
def _outcomes_of(elements: int, start: int, end: int, stop: int, how: End, mask: bytes) -> tuple[Outcome, ...]:
    """Return the outcome of each element.

    elements: the number of elements
    start: the index of the first element that isn't prestart; after a fault, the index of the element that faulted
    end: the index of the first element that isn't reached
    stop: the index after the last element of the body
    how: how the instruction ended
    mask: the bytes of v0 if v0 masks elements off, otherwise empty
    """

    def outcome(element: int) -> Outcome:
        if how == "illegal":
            return "pending"
        if element >= stop:
            return "tail"
        if element < start:
            return "prestart"
        if how == "fault":
            return "fault" if element == start else "pending"
        if mask and not mask[element // 8] >> element % 8 & 1:
            return "masked"
        return "active" if element < end else "pending"

    return tuple(outcome(element) for element in range(elements))


@functools.lru_cache(maxsize=4096)
def _active(outcomes: tuple[Outcome, ...]) -> Sequence[int]:
    """Return the indices of the elements with the outcome `active`."""
    return [element for element, outcome in enumerate(outcomes) if outcome == "active"]


class _Instruction:
    """Computes the data of an executed instruction."""

    def __init__(self, before: Before, after: ControlRegisters, v: bytes, end: End) -> None:
        self.before, self.after, self.v, self.end = before, after, v, end
        self.form = form = _form_of(before.word, before.control.vtype)
        self.execution, self.instruction = Execution(before), form.instruction
        self.layout, self.destination, self.elements = form.layout, form.destination, form.elements
        self.is_access, self.is_whole = form.is_access, form.is_whole

    def data(self, is_known: bool) -> ExecutedInstruction:
        """Return the executed instruction.

        is_known: whether the registers before the instruction are known
        """
        form, control, outcomes = self.form, self.before.control, self._outcomes()
        pairs = self._pairs(outcomes) if self.destination and not self.is_access else ()
        results = self._results(outcomes, len(pairs))
        return ExecutedInstruction(
            form.name,
            form.layout,
            form.mask,
            self.end,
            form.groups,
            self._access() if self.is_access else None,
            self.elements,
            control.vl,
            control.vstart,
            outcomes,
            results,
            pairs,
            form.does,
            form.formula,
            form.scalars,
            tuple(self._equations(results)) if is_known and self.end == "ran" else (),
            self.execution.is_fault_only_first and self.end == "ran" and self.after.vl < control.vl,
        )

    def _access(self) -> Access:
        before, (data, *_) = self.before, self.instruction.operands
        whole = replace(before.control, vstart=0)
        spans = vector_spans(before.word, before.x, whole, before.v, self.instruction)
        fields = 1 if data.is_whole else len(data.registers) // data.group
        addresses = tuple(address for address, _ in spans)
        return Access(before.word >> 15 & 31, self.form.is_store, fields, addresses, max(8, data.eew) // 8)

    def _stop(self) -> int:
        """Return the index after the last element of the body."""
        vl = self.before.control.vl
        if self.is_whole:
            return self.elements
        if self.is_access and self.instruction.operands[0].eew == 1:
            return min(self.elements, (vl + 7) // 8 * 8)  # masks are loaded and stored by bytes
        return min(1, vl) if self.form.is_single else vl

    def _outcomes(self) -> tuple[Outcome, ...]:
        """Return the outcome of each element."""
        if self.form.is_single and not self.destination and self.end == "ran":
            others: list[Outcome] = ["idle"] * (self.elements - 1)
            return ("active", *others)  # for all values of vl and vstart
        stop = self._stop()
        start = (self.after if self.end == "fault" else self.before.control).vstart
        end = self.after.vl if self.execution.is_fault_only_first else stop
        mask = self.before.v[:REGISTER_BYTES] if self.instruction.leaves_out else b""
        return _outcomes_of(self.elements, start, end, stop, self.end, mask)

    def _results(self, outcomes: tuple[Outcome, ...], count: int) -> tuple[Outcome, ...]:
        """Return the outcome of each element of the destination.

        outcomes: the result of `_outcomes`; count: the number of pairs that `_pairs` returns
        """
        if not self.destination or self.is_access:
            return outcomes
        if self.layout == "reduce":
            first: Outcome = "active" if self.before.control.vl else "tail"
            others: list[Outcome] = ["tail"] * (len(outcomes) - 1)
            return (first, *others)
        if self.layout == "compress":
            return tuple("tail" if each == "active" and at >= count else each for at, each in enumerate(outcomes))
        if not (kept := self._kept(outcomes)):
            return outcomes
        return tuple("kept" if at in kept else each for at, each in enumerate(outcomes))

    def _kept(self, outcomes: tuple[Outcome, ...]) -> Collection[int]:
        """Return the indices of the active elements that aren't written, according to the instruction's record."""
        condition, active = self.execution.record.kept, _active(outcomes)
        holds = evaluate_each(condition, self.execution.names, active) if condition else []
        return {element for element, is_kept in zip(active, holds) if is_kept}

    def _pairs(self, outcomes: tuple[Outcome, ...]) -> tuple[tuple[int, int], ...]:
        """Return pairs: the index of an element of the source, and the index of the element of the result to which it goes.

        There are none if elements of the source go to the element with the same index.
        """
        active = _active(outcomes)
        if self.layout == "reduce":
            return tuple((element, 0) for element in active)
        if self.layout == "compress":
            mask, first = self.before.v, self.instruction.operands[2].registers.start
            chosen = [element for element in active if element_of(mask, first, 1, element)]
            return tuple((element, place) for place, element in enumerate(chosen))
        if self.layout not in _MOVES:
            return ()
        kept = self._kept(outcomes)
        written = [element for element in active if element not in kept]
        pairs = [pair for branch in self._branches(written) for pair in self._sources(*branch)]
        return tuple(sorted(pairs, key=lambda pair: pair[1]))

    def _sources(self, node: ast.expr, elements: Sequence[int]) -> Iterator[tuple[int, int]]:
        """Yield pairs: the index of the source element that a gather or a slide reads, and the index of the element of the result.

        node: a branch of the formula; elements: the indices of the result's elements that this branch calculates
        """
        names = self.execution.names
        if isinstance(node, ast.Subscript) and numbers_of(node, names) is names["vs2"]:
            sources = evaluate_each(node.slice, names, elements)
            yield from (pair for pair in zip(sources, elements) if 0 <= pair[0] < self.elements)

    def _branches(self, elements: Sequence[int]) -> Sequence[tuple[ast.expr, Sequence[int]]]:
        """Return the branches of the formula's conditions that elements select.

        Each branch comes with the indices of the elements that select it. Branches are in the order of their first elements. A
        branch that no element selects is left out. elements: the indices to consider
        """
        if not elements:
            return []
        found = branches_of(self._assignment.value, self.execution.names, elements)
        return sorted(found, key=lambda branch: branch[1][0])

    @property
    def _assignment(self) -> Assignment:
        return self.execution.formula.assignments[0]

    def _equations(self, results: tuple[Outcome, ...]) -> Iterator[Equation]:
        """Yield the calculations of the active elements: one equation for all elements whose calculations have the same form.

        results: the outcomes of the destination's elements
        """
        if self.is_access:
            return
        if self.destination is None:
            number = self.before.word >> 7 & 31
            if number:
                yield self._equation([0], Term(f"x{number}", 0, 64, Sign.EITHER, number))
            return
        for node, elements in self._branches(_active(results)):
            groups: Iterable[Sequence[int]] = ([element] for element in elements)
            for shown in groups if self.layout == "scan" else [elements]:
                yield self._equation(shown, self._target(shown[0]), self._is_copy(node))

    def _is_copy(self, node: ast.expr) -> bool:
        """Return whether a branch of the formula is an element as wide as the result, so that both have the same bits."""
        names = self.execution.names
        width = self.instruction.operands[0].eew
        return isinstance(node, ast.Subscript) and numbers_of(node, names).width == width

    def _target(self, element: int) -> Term:
        """Return an element of the destination as a term, with its bits after the instruction."""
        assert self.destination
        register, width = self.destination.registers.start, self.destination.eew
        name = f"v{register}{'.mask' * (width == 1)}[{element}]"
        bits = element_of(self.v, register, width, element)
        return Term(name, bits, width, Sign.EITHER, register=register, index=element, step=1)

    def _equation(self, elements: Sequence[int], target: Term, is_copy: bool = False) -> Equation:
        """Return the equation for elements whose calculations have the same form.

        elements: the indices of the elements; target: the first of the elements, or the scalar register that is written
        is_copy: the result of `_is_copy` for their branch of the formula
        """
        self.execution.at(elements[0])
        is_single = is_copy or self.destination is None or self.destination.eew == 1
        shown = elements[:1] if is_single else elements
        calculation, results = calculation_of_each(self.execution, target, self._assignment, shown)
        if target.scalar is not None:
            bits = calculation.results[1] & (1 << target.width) - 1
            calculation = replace(calculation, target=replace(target, bits=bits))
            return Equation(calculation, tuple(elements), Sign.SIGNED, {})
        if is_single:
            return Equation(calculation, tuple(elements), Sign.EITHER, {})
        return Equation(calculation, tuple(elements), *self._exact(elements, results))

    def _exact(
        self, elements: Sequence[int], results: Sequence[tuple[int, int]]
    ) -> tuple[Sign, dict[int, tuple[int, int]]]:
        """Return the sign under which the bits of most elements represent their exact results, as in `Equation`.

        Also return the exact results of the elements whose bits represent another number under this sign, by element.

        elements: the indices of the elements; results: their exact results, as in `Calculation.results`
        """
        operand = self.instruction.operands[0]
        values = Elements(self.v, operand.registers.start, operand.eew, operand.group)
        unsigned, signed = values.each(elements, False), values.each(elements, True)
        pairs = [(Sign.EITHER, signed, unsigned), (Sign.SIGNED, signed, signed), (Sign.UNSIGNED, unsigned, unsigned)]
        best: tuple[Sign, dict[int, tuple[int, int]]] | None = None
        for sign, *own in pairs:
            stored = [*zip(*own)]
            if results == stored:
                return sign, {}
            others = {each: found for each, found, bits in zip(elements, results, stored) if found != bits}
            best = (sign, others) if best is None or len(others) < len(best[1]) else best
        assert best
        return best
