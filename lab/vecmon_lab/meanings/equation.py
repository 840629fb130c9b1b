"""Calculations from formulas: the parts of a formula for one element, with the instruction's registers and their values."""

import ast
import functools
import re
from collections.abc import Callable, Iterable, Iterator, Mapping, Sequence
from dataclasses import dataclass

from .calculation import Calculation, Condition, Part, Sign, Term
from .executed import Execution, Numbers, Shared, execution_of
from .formula import Assignment, Formula, Names, elements_in, evaluate, evaluate_each

MAX_TERMS = 8  # the number of elements in the longest list that is shown completely
_PLACE = re.compile(
    r"\b_(\d+)\b"
)  # a term's placeholder in the text of a formula; no name of the language has this form
_OPERANDS = re.compile(r"x\[(\w+)\]|\bv(?:d|s[123])\b|the immediate")  # in the sentence of a record
_CONVERSIONS = ("signed", "sext", "zext")
_COUNTERS = ("j", "f")  # numbers that are always shown as digits
_IMMEDIATES = ("imm", "uimm", "shamt", "offset")
_SUMS = ("sum", "bitand", "bitor", "bitxor")  # functions whose lowest bits depend only on the lowest bits of numbers
_NO_WIDTH = 65  # above the width of all terms
_RING = (ast.Add, ast.Sub, ast.Mult, ast.BitAnd, ast.BitOr, ast.BitXor)  # operations with the same property


def calculation_of(execution: Execution, target: Term, assignment: Assignment) -> Calculation:
    """Return the calculation of an assignment, for the current values of its names.

    target: the element or register, with its bits after the instruction
    """
    return calculation_of_each(execution, target, assignment, [execution.element])[0]


def calculation_of_each(
    execution: Execution, target: Term, assignment: Assignment, elements: Sequence[int]
) -> tuple[Calculation, list[tuple[int, int]]]:
    """Return the calculation of the first of several elements, and the exact results of all of them, as `Calculation.results`.

    The calculations of the elements must have the same form. The execution's current element must be the first of them.

    target: the first element, with its bits after the instruction; elements: the indices of the elements
    """
    reader = Reader(execution, assignment.value, target.width)
    node, causes = reader.chosen(assignment.value)
    results = reader.results(node, elements)
    return Calculation(target, reader.parts(node), results[0], tuple(causes)), results


def branches_of(node: ast.expr, names: Names, elements: Sequence[int]) -> Iterator[tuple[ast.expr, Sequence[int]]]:
    """Yield the branches of a conditional expression that elements select, each with the indices of the elements that select it.

    A branch that no element selects is left out. If the expression isn't conditional, yield the expression with all elements.

    node: the expression; names: the values of the names in it, except `i`; elements: the indices of elements, the values of `i`
    """
    if not isinstance(node, ast.IfExp):
        yield node, elements
        return
    holds = evaluate_each(node.test, names, elements)
    for branch, verdict in ((node.body, True), (node.orelse, False)):
        chosen = [element for element, each in zip(elements, holds, strict=True) if bool(each) == verdict]
        if chosen:
            yield from branches_of(branch, names, chosen)


def formula_parts(execution: Execution) -> tuple[Part, ...]:
    """Return an instruction's formula with its own operands: `v8[i] = v4[i] * x11 + v8[i]`. Its terms are scalar registers."""
    writer, parts = _FormulaWriter(execution), list[Part]()
    for assignment in execution.formula.assignments:
        parts += ["; "] if parts else []
        parts += [*writer.parts(assignment.target), " = ", *writer.parts(assignment.value)]
    return tuple(parts)


def sentence_parts(execution: Execution) -> tuple[Part, ...]:
    """Return the sentence of an instruction's record, with the instruction's own operands in backquotes. The terms are scalar registers."""
    names, terms = execution.names, list[Term]()

    def operand(found: re.Match[str]) -> str:
        field, numbers = found[1], names.get(found[0])
        if field:
            number = names[field]
            assert isinstance(number, int)
            terms.append(Term(f"x{number}", execution.before.x[number], 64, Sign.EITHER, number))
            return f"`_{len(terms) - 1}`"
        if found[0] == "the immediate":
            return f"`{names['imm']}`"
        return f"`{numbers.name}`" if isinstance(numbers, Numbers) else found[0]

    return _parts_of(_OPERANDS.sub(operand, execution.record.does_of(execution.row.name)), terms)


class _FormulaWriter:
    """Writes a formula with an instruction's operands, in the form that holds for all elements."""

    def __init__(self, execution: Execution) -> None:
        self._execution, self._terms = execution, list[Term]()
        self._mixed = frozenset().union(*(_mixed(each.value) for each in execution.formula.assignments))

    def parts(self, node: ast.expr) -> tuple[Part, ...]:
        """Return the parts of an expression."""
        self._terms = []
        return _parts_of(ast.unparse(self._shown(node)), self._terms)

    def _shown(self, node: ast.expr) -> ast.expr:
        names = self._execution.names
        match node:
            case ast.Subscript(ast.Name("x"), ast.Name(field)):
                number = names[field]
                assert isinstance(number, int)
                return self._place(number)
            case ast.Subscript() if id(node) in self._mixed:
                return ast.Call(ast.Name("unsigned"), [self._operand(node)], [])
            case ast.Subscript():
                return self._operand(node)
            case ast.Attribute(base, name):
                return ast.Attribute(self._shown(base), name, ast.Load())
            case ast.Name("offset") if self._execution.scalar is not None:
                return self._place(self._execution.scalar)
            case ast.Name(name) if isinstance(numbers := names.get(name), Numbers) and numbers.register is not None:
                return ast.Name(numbers.name)
            case ast.Name(name) if name in (*_IMMEDIATES, "bytes", "nf"):
                return ast.Name(_bracketed(f"{names[name]}"))
            case ast.Call(ast.Name(name), [ast.GeneratorExp() as loop]):
                return ast.Name(f"{name}{ast.unparse(_changed(loop, self._shown))}")  # with its parentheses
            case ast.BinOp(one, ast.Mult(), ast.Name("bytes")) if names["bytes"] == 1:
                return self._shown(one)
        return _changed(node, self._shown)

    def _operand(self, node: ast.Subscript) -> ast.expr:
        """Return an element, or the scalar in its place."""
        if isinstance(node.value, ast.Name) and isinstance(shared := self._execution.names[node.value.id], Shared):
            return ast.Name(_bracketed(shared.name)) if shared.scalar is None else self._place(shared.scalar)
        return ast.Subscript(self._shown(node.value), self._shown(node.slice), ast.Load())

    def _place(self, scalar: int) -> ast.expr:
        self._terms.append(Term(f"x{scalar}", self._execution.before.x[scalar], 64, Sign.EITHER, scalar))
        return ast.Name(f"_{len(self._terms) - 1}")


def _bracketed(digits: str) -> str:
    """Return digits, in parentheses if the number is negative."""
    return f"({digits})" if digits.startswith("-") else digits


def _parts_of(text: str, terms: Sequence[Term]) -> tuple[Part, ...]:
    """Return a text as parts. Each placeholder in the text becomes the term with its number."""
    texts = _PLACE.split(text)
    parts = [terms[int(part)] if place % 2 else part for place, part in enumerate(texts)]
    return tuple(part for part in parts if part != "")


class Reader:
    """Reads the parts of a formula with the values of an execution's names.

    The sign of a term doesn't matter if it can't change the lowest bits of the result: if the term is at least as wide as the
    result, and is only used in additions, multiplications and similar operations.
    """

    def __init__(self, execution: Execution, value: ast.expr, width: int) -> None:
        """value: the whole right side of the formula; width: the width of its target in bits, 0 for a target without width"""
        self._execution, self._names = execution, execution.names.copy()
        word, vtype = execution.before.word, execution.before.control.vtype
        self._free = _free_terms(value, width if width > 1 else _NO_WIDTH, execution.formula, word, vtype)
        self._mixed = _mixed(value)

    def chosen(self, node: ast.expr) -> tuple[ast.expr, list[Condition]]:
        """Return the branch of a conditional expression that the current element selects, and the conditions that select it.

        For another expression, return the expression itself and no conditions.
        """
        causes = list[Condition]()
        while isinstance(node, ast.IfExp):
            holds = bool(evaluate(node.test, self._names))
            causes.append(Condition(self.parts(node.test), holds))
            node = node.body if holds else node.orelse
        return node, causes

    def results(self, node: ast.expr, elements: Sequence[int]) -> list[tuple[int, int]]:
        """Return the exact value of an expression for each element, as a pair.

        For the pair's first value, terms whose sign doesn't matter are signed numbers; for its second value, they are unsigned.
        """
        unsigned = evaluate_each(node, self._names, elements)
        if not self._free:
            return [(value, value) for value in unsigned]
        signed = evaluate_each(_with_signs(node, self._free), self._names, elements)
        return [*zip(signed, unsigned, strict=True)]

    def parts(self, node: ast.expr) -> tuple[Part, ...]:
        """Return the parts of an expression."""
        return _joined(self._filled(_slots_of(node, self._free, self._mixed)))

    def _filled(self, slots: "Slots") -> Iterator[Part]:
        """Yield the parts of an expression, for the current values of names."""
        for slot in slots:
            if isinstance(slot, _Slot):
                yield self._term(slot)
            elif isinstance(slot, _ListSlot):
                yield from self._list(slot)
            else:
                yield slot

    def _term(self, slot: "_Slot") -> Part:
        """Return the term in a slot. A counter is text."""
        node, names = slot.node, self._names
        if isinstance(node, ast.Subscript):
            return self._element(slot, node)
        value = evaluate(node, names)
        match node:
            case ast.Name("i"):
                return Term(f"{value}", value, index=value, step=1)
            case ast.Name("offset") if (scalar := self._execution.scalar) is not None:
                return Term(f"x{scalar}", value, 64, Sign.UNSIGNED, scalar)
            case ast.Name(name) if name not in _COUNTERS:
                return Term(f"{value}" if name in _IMMEDIATES else name, value)
        return f"{value}"

    def _element(self, slot: "_Slot", node: ast.Subscript) -> Term:
        """Return the term for an element, a scalar register or memory."""
        numbers, index = numbers_of(node, self._names), evaluate(node.slice, self._names)
        sign = Sign.UNSIGNED if numbers.width == 1 else slot.sign
        name, scalar, value = numbers.name_of(index), numbers.scalar_of(index), int(numbers[index])
        place, step = (None, 0) if numbers.register is None else (index, _step(node.slice))
        has_digits = isinstance(numbers, Shared) and scalar is None  # an immediate's digits include its sign
        function = "" if has_digits else slot.function
        return Term(name, value, numbers.width, sign, scalar, function, numbers.register, place, step)

    def _list(self, slot: "_ListSlot") -> Iterator[Part]:
        """Yield the parts of a function call. For a sum, they are the numbers to add, with plus signs between them."""
        separator = " + " if slot.name == "sum" else ", "
        arguments = [part for each in slot.arguments for part in self._arguments(*each, separator)]
        if slot.name == "sum":
            return iter(arguments[1:] or ["0"])
        return iter([f"{slot.name}(", *arguments[1:], ")"])

    def _arguments(self, slots: "Slots", loop: ast.comprehension | None, separator: str) -> Iterator[Part]:
        """Yield a separator and the parts of an argument.

        If the argument is a list, do this for each number in the list; for some numbers of a long list, yield "..." instead.

        slots: the argument, or the expression for a number in the list; loop: the loop over the list; None for another argument
        """
        if loop is None:
            yield from (separator, *self._filled(slots))
            return
        numbers = elements_in(loop, self._names)
        left_out = range(MAX_TERMS - 1, len(numbers) - 1) if len(numbers) > MAX_TERMS else range(0)
        for place, number in enumerate(numbers):
            if place not in left_out:
                self._names["j"] = number
                yield from (separator, *self._filled(slots))
            elif place == left_out.start:
                yield from (separator, "...")


@dataclass(frozen=True)
class _Slot:
    """The place of a term in an expression.

    node: an element, a scalar register, memory, or the name of a number
    sign, function: the sign and the function of the term
    """

    node: ast.expr
    sign: Sign = Sign.UNSIGNED
    function: str = ""


@dataclass(frozen=True)
class _ListSlot:
    """The place of a function call.

    arguments: the slots of each argument, with the loop over a list if the argument is a list, or None
    """

    name: str
    arguments: tuple[tuple["Slots", ast.comprehension | None], ...]


Slots = tuple[str | _Slot | _ListSlot, ...]
"""An expression as text, with slots for its terms, which have no values yet."""


@functools.lru_cache(maxsize=4096)
def _slots_of(node: ast.expr, free: frozenset[int], mixed: frozenset[int]) -> Slots:
    """Return the slots of an expression. free, mixed: the `id`s of the terms from `_free_terms` and `_mixed`"""
    writer = _SlotWriter(free, mixed)
    texts = _PLACE.split(ast.unparse(writer.shown(node)))
    return tuple(writer.slots[int(text)] if place % 2 else text for place, text in enumerate(texts) if text)


class _SlotWriter:
    """Replaces the terms of an expression with slots."""

    def __init__(self, free: frozenset[int], mixed: frozenset[int]) -> None:
        self.slots = list[_Slot | _ListSlot]()
        self._free, self._mixed = free, mixed

    def shown(self, node: ast.expr) -> ast.expr:
        """Return an expression with placeholders in place of its terms, and add a slot for each term to `slots`."""
        match node:
            case ast.Call(ast.Name(name), [ast.Subscript() as term]) if name in _CONVERSIONS:
                return self._place(_Slot(term, Sign.UNSIGNED if name == "zext" else Sign.SIGNED, name))
            case ast.Call(ast.Name(name), arguments):
                return self._place(_ListSlot(name, tuple(map(self._argument, arguments))))
            case ast.Subscript():
                sign = Sign.EITHER if id(node) in self._free else Sign.UNSIGNED
                return self._place(_Slot(node, sign, "unsigned" if id(node) in self._mixed else ""))
            case ast.Name():
                return self._place(_Slot(node))
        return _changed(node, self.shown)

    def _argument(self, node: ast.expr) -> tuple[Slots, ast.comprehension | None]:
        """Return the slots of a function's argument and None; for a list, the slots of its element and the loop over the list."""
        element, loop = (node.elt, node.generators[0]) if isinstance(node, ast.GeneratorExp) else (node, None)
        return _slots_of(element, self._free, self._mixed), loop

    def _place(self, slot: _Slot | _ListSlot) -> ast.expr:
        self.slots.append(slot)
        return ast.Name(f"_{len(self.slots) - 1}")


def _joined(parts: Iterable[Part]) -> tuple[Part, ...]:
    """Return parts with adjacent texts joined."""
    joined = list[Part]()
    for part in parts:
        if isinstance(part, str) and joined and isinstance(joined[-1], str):
            joined[-1] += part
        else:
            joined.append(part)
    return tuple(joined)


@functools.lru_cache(maxsize=4096)
def _free_terms(value: ast.expr, width: int, formula: Formula, word: int, vtype: int) -> frozenset[int]:
    """Return the `id`s of the terms whose sign doesn't matter.

    They depend only on the word and the vector type, which determine the widths of numbers. width: the target's width in bits
    """
    return frozenset(id(node) for node in _free(value, width, execution_of(word, vtype, formula).names))


@functools.lru_cache(maxsize=1024)
def _with_signs(node: ast.expr, free: frozenset[int]) -> ast.expr:
    """Return an expression in which terms whose sign doesn't matter are signed. free: the `id`s of these terms"""
    if id(node) in free:
        return ast.Call(ast.Name("sext", ast.Load()), [node], [])
    return _changed(node, lambda each: _with_signs(each, free))


@functools.lru_cache(maxsize=1024)
def _step(index: ast.expr) -> int | None:
    """Return the number by which an operand's index increases from one element of the result to the next; None if it varies."""
    parts = list(ast.walk(index))
    if not any(isinstance(part, ast.Name) and part.id == "i" for part in parts):
        return 0
    return None if any(isinstance(part, ast.Subscript | ast.Call) for part in parts) else 1


def numbers_of(node: ast.Subscript, names: Names) -> Numbers:
    """Return the object that an expression indexes: a register group, its mask, memory or the scalar registers."""
    is_mask = isinstance(node.value, ast.Attribute)
    base = node.value.value if isinstance(node.value, ast.Attribute) else node.value
    assert isinstance(base, ast.Name)
    numbers = names[base.id]
    assert isinstance(numbers, Numbers)
    mask = numbers.mask if is_mask else None
    return mask or numbers


def _changed(node: ast.expr, change: Callable[[ast.expr], ast.expr]) -> ast.expr:
    """Return a copy of an expression, in which each part is the result of `change` for the part.

    The names of functions and of indexed objects stay the same.
    """

    def value(each: object) -> object:
        if isinstance(each, ast.comprehension):
            return ast.comprehension(each.target, each.iter, [change(test) for test in each.ifs], 0)
        if isinstance(each, list):
            return [value(one) for one in each]
        return change(each) if isinstance(each, ast.expr) else each

    same: Mapping[str, tuple[type[ast.expr], ...]] = {"func": (ast.Call,), "value": (ast.Subscript, ast.Attribute)}
    fields = {
        name: each if name in same and isinstance(node, same[name]) else value(each)
        for name, each in ast.iter_fields(node)
    }
    return type(node)(**fields)


def _free(node: ast.expr, width: int, names: Names) -> Iterator[ast.expr]:
    """Yield the terms whose sign doesn't change the lowest `width` bits of an expression."""
    match node:
        case ast.Subscript() if numbers_of(node, names).width >= width:
            yield node
        case ast.IfExp(_, one, other):
            yield from (each for branch in (one, other) for each in _free(branch, width, names))
        case ast.BinOp(one, operation, other) if isinstance(operation, _RING):
            yield from (each for side in (one, other) for each in _free(side, width, names))
        case ast.BinOp(one, ast.LShift()) | ast.UnaryOp(ast.USub() | ast.Invert(), one) | ast.GeneratorExp(one):
            yield from _free(one, width, names)
        case ast.Call(ast.Name(name), arguments) if name in _SUMS:
            yield from (each for argument in arguments for each in _free(argument, width, names))
        case ast.Call(ast.Name("sext" | "zext"), [one, ast.Constant(bits)]):
            yield from _free(one, bits, names)
    yield from _compared(node, names)


def _compared(node: ast.expr, names: Names) -> Iterator[ast.expr]:
    """Yield both terms of a comparison for equality if they have the same width, so that their sign doesn't matter."""
    match node:
        case ast.Compare(ast.Subscript() as one, [ast.Eq() | ast.NotEq()], [ast.Subscript() as other]):
            if numbers_of(one, names).width == numbers_of(other, names).width > 1:
                yield from (one, other)


@functools.lru_cache(maxsize=1024)
def _mixed(value: ast.expr) -> frozenset[int]:
    """Return the `id`s of the unsigned terms that are multiplied with signed ones."""
    found = set[int]()
    for node in ast.walk(value):
        match node:
            case ast.BinOp(ast.Subscript() as term, ast.Mult(), ast.Call(ast.Name("signed"))):
                found.add(id(term))
            case ast.BinOp(ast.Call(ast.Name("signed")), ast.Mult(), ast.Subscript() as term):
                found.add(id(term))
    return frozenset(found)
