"""The vector instruction that was executed last, as data for pages: `meanings/instruction.py` as JSON, with equal outcomes in runs."""

import functools
import itertools
from collections.abc import Iterator, Sequence
from typing import Literal, NotRequired, TypedDict

from ..guest.changes import Registers
from ..machine.answers import ControlRegisters
from ..meanings.calculation import Condition, Part, Sign, Term
from ..meanings.executed import Before
from ..meanings.instruction import (
    Access,
    End,
    Equation,
    ExecutedInstruction,
    Group,
    Outcome,
    Role,
    executed_instruction,
)


class ShownTerm(TypedDict):
    """A number in a formula or an equation, and its name. Keys that don't apply are missing.

    value: the number in decimal digits, for a scalar register or a number with a name
    name: the name, such as `sew`; missing for registers, and for the index of the element
    scalar: the number of the scalar register
    register: the number of the first vector register of the group that has the element
    width: the width of the number in bits, 1 for a bit of a mask
    sign: whether the bits are a signed or an unsigned number; if it is missing, the reader's form of numbers decides
    function: the function around the name, such as `signed`
    index: the index of the element; if `by` is `element`, the distance from the index of the result's element. Missing if it is 0
    by: `element` if each element of the result uses another element, at the distance `index`; `pair` if it uses the source in its pair;
        missing if all elements of the result use the same number
    """

    value: NotRequired[str]
    name: NotRequired[str]
    scalar: NotRequired[int]
    register: NotRequired[int]
    width: NotRequired[int]
    sign: NotRequired[Literal["signed", "unsigned"]]
    function: NotRequired[str]
    index: NotRequired[int]
    by: NotRequired[Literal["element", "pair"]]


class ShownCondition(TypedDict):
    """A condition that selected an equation, and whether it holds."""

    parts: Sequence[str | ShownTerm]
    holds: bool


class ShownEquation(TypedDict):
    """The calculation of elements whose calculations have the same form.

    elements: runs of the elements, each as the index of its first element and the number of elements
    parts: the right side of the equation, for the first of the elements
    causes: the conditions that selected this equation
    sign: whether the elements' bits, which are the results, are signed or unsigned numbers; if it is missing, the reader's form of
        numbers decides
    others: the exact results of elements whose bits represent another number, by the element's index: with terms of undefined sign
        as signed numbers, and as unsigned numbers
    target: the scalar register that is written, if the result isn't elements
    """

    elements: Sequence[Sequence[int]]
    parts: Sequence[str | ShownTerm]
    causes: NotRequired[Sequence[ShownCondition]]
    sign: NotRequired[Literal["signed", "unsigned"]]
    others: NotRequired[dict[str, Sequence[str]]]
    target: NotRequired[ShownTerm]


class ShownGroup(TypedDict):
    """A vector register operand: `Group` in meanings/instruction.py."""

    role: Role
    register: int
    size: int
    groups: int
    width: int


class ShownAccess(TypedDict):
    """A memory access: `Access` in meanings/instruction.py.

    store: whether it is a store; bytes: the distance from one field of a segment to the next, in bytes
    start, step: the address of element 0 in hexadecimal digits, and the number of bytes from each element, or byte of a mask, to the next
    addresses: the address of each element in hexadecimal digits, in place of `start` and `step` if the distances differ
    """

    base: int
    store: bool
    fields: int
    bytes: int
    start: NotRequired[str]
    step: NotRequired[int]
    addresses: NotRequired[Sequence[str]]


class OutcomeRun(TypedDict):
    """The outcome of consecutive elements, and the number of these elements."""

    outcome: Outcome
    count: int


class PairRun(TypedDict):
    """Pairs of an element of the source and an element of the result, whose source elements are consecutive.

    source, result: the indices of the elements in the first pair; count: the number of pairs
    step: the distance from the result's element in one pair to that in the next: 1, or 0 if it is the same element
    """

    source: int
    result: int
    count: int
    step: int


class ShownExecuted(TypedDict):
    """The vector instruction that was executed last, or that faulted: `ExecutedInstruction` in meanings/instruction.py.

    does: a sentence about the instruction's effect, with names in backquotes; the terms are its scalar registers
    results: the outcomes of the destination's elements; missing if they are the same as `outcomes`
    shortened: true if the instruction reduced vl because an element can't be read; otherwise missing
    known: whether the values of the source registers before the instruction are known
    old: whether the values of the destination's registers before the instruction are known
    follows: whether the state right before the instruction was read, so that all registers before it are known
    """

    does: Sequence[str | ShownTerm]
    formula: Sequence[str | ShownTerm]
    layout: str
    mask: Literal["", "mask", "bits"]
    end: End
    groups: Sequence[ShownGroup]
    access: NotRequired[ShownAccess]
    elements: int
    vl: int
    vstart: int
    outcomes: Sequence[OutcomeRun]
    results: NotRequired[Sequence[OutcomeRun]]
    pairs: Sequence[PairRun]
    scalars: Sequence[int]
    equations: Sequence[ShownEquation]
    shortened: NotRequired[bool]
    known: bool
    old: bool
    follows: bool


def shown_executed(
    word: int,
    before: Registers,
    after: ControlRegisters,
    v: bytes,
    end: End,
    known: tuple[bool, bool, bool],
) -> ShownExecuted | None:
    """Return the data of an executed instruction word; None if the word has no vector operands.

    before: the registers before the instruction; if they are unknown, the registers after it
    after, v: the control registers and the bytes of all vector registers after the instruction
    end: how the instruction ended
    known: whether the values before the instruction are known of its source registers, of its destination, and of all registers
    """
    state = Before(0, word, before.x, before.control, bytes(before.v), False)
    data = executed_instruction(state, after, v, end, known[0])
    return _shown(data, *known) if data else None


def _shown(data: ExecutedInstruction, known: bool, old: bool, follows: bool) -> ShownExecuted:
    equations = [each for each in data.equations if old or not _reads_destination(data, each)]
    shown: ShownExecuted = {
        "does": _named(data.does),
        "formula": _named(data.formula),
        "layout": data.layout,
        "mask": data.mask,
        "end": data.end,
        "groups": [_group(each) for each in data.groups],
        "elements": data.elements,
        "vl": data.vl,
        "vstart": data.vstart,
        "outcomes": _runs(data.outcomes),
        "pairs": list(_pair_runs(data.pairs)),
        "scalars": data.scalars,
        "equations": [_equation(each) for each in equations],
        "known": known,
        "old": old,
        "follows": follows,
    }
    if data.access:
        shown["access"] = _access(data.access)
    if data.results != data.outcomes:
        shown["results"] = _runs(data.results)
    if data.is_shortened:
        shown["shortened"] = True
    return shown


def _reads_destination(data: ExecutedInstruction, equation: Equation) -> bool:
    """Return whether an equation has an element of the destination on its right side."""
    first = data.groups[0]
    parts = equation.calculation.parts
    return first.role == "destination" and any(
        isinstance(each, Term) and each.register == first.register for each in parts
    )


def _group(group: Group) -> ShownGroup:
    return {
        "role": group.role,
        "register": group.register,
        "size": group.size,
        "groups": group.groups,
        "width": group.width,
    }


def _access(access: Access) -> ShownAccess:
    shown: ShownAccess = {
        "base": access.base,
        "store": access.is_store,
        "fields": access.fields,
        "bytes": access.field_bytes,
    }
    addresses = access.addresses
    steps = {later - first for first, later in itertools.pairwise(addresses)}
    if len(steps) <= 1:
        shown["start"], shown["step"] = f"{addresses[0] if addresses else 0:x}", steps.pop() if steps else 0
    else:
        shown["addresses"] = [f"{address:x}" for address in addresses]
    return shown


@functools.lru_cache(maxsize=4096)
def _runs(outcomes: Sequence[Outcome]) -> Sequence[OutcomeRun]:
    """Return outcomes as runs of equal outcomes."""
    return [{"outcome": outcome, "count": len([*run])} for outcome, run in itertools.groupby(outcomes)]


def _pair_runs(pairs: Sequence[tuple[int, int]]) -> Iterator[PairRun]:
    """Yield pairs of source and result as runs in which the sources are consecutive."""
    run: PairRun | None = None
    for source, result in pairs:
        step = result - (run["result"] + run["step"] * (run["count"] - 1)) if run else 0
        if (
            run
            and source == run["source"] + run["count"]
            and step in (0, 1)
            and (run["count"] == 1 or step == run["step"])
        ):
            run["count"], run["step"] = run["count"] + 1, step
        else:
            if run:
                yield run
            run = {"source": source, "result": result, "count": 1, "step": 1}
    if run:
        yield run


def _equation(equation: Equation) -> ShownEquation:
    calculation = equation.calculation
    shown: ShownEquation = {
        "elements": _element_runs(equation.elements),
        "parts": _parts(calculation.parts, equation.elements[0]),
    }
    if calculation.causes:
        shown["causes"] = [_condition(each, equation.elements[0]) for each in calculation.causes]
    if equation.sign != Sign.EITHER:
        shown["sign"] = "signed" if equation.sign == Sign.SIGNED else "unsigned"
    if equation.others:
        shown["others"] = {f"{element}": [f"{value}" for value in each] for element, each in equation.others.items()}
    if calculation.target.scalar is not None:
        shown["target"] = _term(calculation.target, 0)
    return shown


def _condition(condition: Condition, element: int) -> ShownCondition:
    return {"parts": _parts(condition.parts, element), "holds": condition.holds}


def _element_runs(elements: Sequence[int]) -> list[list[int]]:
    """Return consecutive elements as runs, each with its first element and the number of elements. The elements are in rising order."""
    if elements[-1] - elements[0] == len(elements) - 1:  # one run, the most frequent case
        return [[elements[0], len(elements)]]
    runs = list[list[int]]()
    for element in elements:
        if runs and element == sum(runs[-1]):
            runs[-1][1] += 1
        else:
            runs.append([element, 1])
    return runs


@functools.lru_cache(maxsize=4096)
def _named(parts: Sequence[Part]) -> Sequence[str | ShownTerm]:
    """Return the parts of a sentence or formula that is for all elements, with adjacent texts joined. Its terms are scalar registers."""
    shown = list[str | ShownTerm]()
    for part in parts:
        last = shown[-1] if shown else None
        if isinstance(part, str) and isinstance(last, str):
            shown[-1] = last + part
        else:
            shown.append(part if isinstance(part, str) else {"scalar": part.scalar or 0})
    return shown


def _parts(parts: Sequence[Part], element: int = 0) -> list[str | ShownTerm]:
    """Return the parts of a formula, or of the calculation of one element."""
    return [part if isinstance(part, str) else _term(part, element) for part in parts]


def _term(term: Term, element: int) -> ShownTerm:
    """Return a term of the calculation of one element."""
    shown: ShownTerm = {}
    if term.scalar is not None:
        shown["scalar"] = term.scalar
    elif term.index is None:
        shown["name"] = term.name
    if term.index is None:
        shown["value"] = f"{term.bits}"
    if term.register is not None:
        shown["register"] = term.register
    if term.width:
        shown["width"] = term.width
    if term.sign != Sign.EITHER and term.width > 1:
        shown["sign"] = "signed" if term.sign == Sign.SIGNED else "unsigned"
    if term.function:
        shown["function"] = term.function
    if term.index is not None:
        index = {1: term.index - element, None: 0}.get(term.step, term.index)
        if index:
            shown["index"] = index
        if term.step != 0:
            shown["by"] = "pair" if term.step is None else "element"
    return shown
