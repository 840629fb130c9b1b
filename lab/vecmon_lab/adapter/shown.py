"""The values of a stopped program that a client is shown, and the numbers by which it requests the rows below a value."""

import re
from collections.abc import Sequence
from dataclasses import dataclass
from typing import Any

from .. import LabError
from . import evaluation, expressions
from .instants import Frame, Instant
from .requests import Completions, Evaluate, SetExpression, SetVariable, ValueFormat, Variables
from .variables import Item, Scope, scopes_of

_INDEX = re.compile(r"\[([0-9]+)\]")
_EXPRESSION = re.compile(r"\{([^{}]*)\}")
_WORD = re.compile(r"[\w.$]*$")


@dataclass(frozen=True)
class _Reference:
    """The scope or the value that a `variablesReference` of the client denotes.

    frame: the number of its frame; root: the name of a scope, or an expression; is_scope: whether `root` is a scope
    path: the names of the rows that lead from `root` to the value, from the outermost row on
    """

    frame: int
    root: str
    is_scope: bool
    path: Sequence[str] = ()


class Shown:
    """The scopes, variables and values of a stopped program, in the form that the protocol has for the client.

    A reference is the number with which the client requests the rows below a scope or a value: the protocol's `variablesReference`. A scope
    or a value gets its number when it is first returned. The numbers are valid until the program moves; a change of the program by the
    client doesn't change them (see `renewed`).
    """

    def __init__(self, instant: Instant, references: Sequence[_Reference] = ()) -> None:
        """instant: the state of the program; references: those that have numbers already, in the order of their numbers from 1 on"""
        self.instant = instant
        self._references = [*references]

    def renewed(self, instant: Instant) -> "Shown":
        """Return the values after the client has changed the program, with the same numbers of references.

        instant: the state of the program after the change
        """
        return Shown(instant, self._references)

    def scopes(self, frame: int) -> list[dict[str, Any]]:
        """Return the scopes of a frame. frame: the frame's number. Raises LabError if there is no such frame."""
        return [self._scope(frame, each) for each in scopes_of(self.instant, self._frame(frame))]

    def variables(self, wanted: Variables) -> list[dict[str, Any]]:
        """Return the rows below a reference, in the protocol's form.

        wanted: the request. It has the reference, the index of the first row, the number of rows (0 for all) and the form of numbers.

        Raises LabError if no scope or value has this reference, or if the index or the number of rows is negative.
        """
        reference = self._reference(wanted.variables_reference)
        if min(wanted.start, wanted.count) < 0:
            raise LabError("start and count aren't negative")
        rows = self._rows(reference, wanted.start, wanted.count, wanted.format.hex)
        return [self._variable(each, reference) for each in rows]

    def set_variable(self, wanted: SetVariable) -> None:
        """Set the value of a row below a reference. Raises LabError if there is no such row, or if its value can't be changed."""
        item = self._row(self._reference(wanted.variables_reference), wanted.name, False)
        if item.change is None:
            raise LabError(f"{wanted.name} can't be changed")
        item.change(wanted.value)

    def value_again(self, number: int, name: str, form: ValueFormat) -> dict[str, Any]:
        """Return the present value of a row after a change, as fields of the protocol. Raises LabError if there is no such row.

        number: the number of the reference above the row; name: the row's name; form: how numbers are written
        """
        reference = self._reference(number)
        shown = self._variable(self._row(reference, name, form.hex), reference)
        return {key: shown[key] for key in ("value", "variablesReference", "memoryReference") if key in shown}

    def set_expression(self, wanted: SetExpression) -> None:
        """Set the register, element or variable that an expression names. Raises LabError if that isn't possible."""
        evaluation.set_expression(self.instant, self._frame(wanted.frame_id), wanted.expression, wanted.value)

    def evaluate(self, wanted: Evaluate) -> dict[str, Any]:
        """Return the value of an expression, in the protocol's form. Raises LabError if it can't be evaluated."""
        frame = self._frame(wanted.frame_id)
        item = evaluation.evaluate(self.instant, frame, wanted.expression, wanted.context, wanted.format.hex)
        reference = _Reference(wanted.frame_id, wanted.expression, False)
        shown = self._variable(item, reference, is_root=True)
        keys = ("type", "variablesReference", "indexedVariables", "memoryReference", "presentationHint")
        return {"result": item.value} | {key: shown[key] for key in keys if key in shown}

    def number(self, expression: str) -> int:
        """Return the number that an expression has in the innermost frame. Raises LabError if it can't be evaluated."""
        return expressions.evaluate(expression, evaluation.FrameNames(self.instant, self._frame(0))).number

    def filled_in(self, text: str) -> str:
        """Return a text in which each expression in braces is replaced by its value, or by the reason why it has none."""

        def value(found: re.Match[str]) -> str:
            try:
                return evaluation.evaluate(self.instant, self._frame(0), found[1], "", False).value
            except LabError as error:
                return f"{{{error}}}"

        return _EXPRESSION.sub(value, text)

    def completions(self, wanted: Completions, starts_at_1: bool) -> list[dict[str, Any]]:
        """Return the names that complete a text at a column. Raises LabError if the frame is unknown.

        starts_at_1: whether the client counts columns from 1, not from 0
        """
        before = wanted.text[: max(0, wanted.column - starts_at_1)]
        found = _WORD.search(before)
        start = found[0] if found else ""
        names = evaluation.completions(self.instant, self._frame(wanted.frame_id), start)
        place = {"start": len(before) - len(start), "length": len(start)}
        return [{"label": name, **place} for name in names]

    def place_of(self, number: int, name: str) -> tuple[int, int] | None:
        """Return the address and the number of bytes of a row; None if the row isn't in memory. Raises LabError if there is no such row.

        number: the number of the reference above the row; name: the row's name
        """
        return self._row(self._reference(number), name, False).place

    def place_of_expression(self, frame: int, text: str) -> tuple[int, int] | None:
        """Return the address and the number of bytes of the memory that has the value of an expression.

        frame: the number of the frame in which the expression is evaluated. Returns None if the expression can't be evaluated, or if its
        value isn't in memory.
        """
        try:
            return evaluation.evaluate(self.instant, self._frame(frame), text, "", False).place
        except LabError:
            return None

    def _frame(self, number: int) -> Frame:
        """Return the frame with a number: 1 for the innermost one. Raises LabError if there is no such frame.

        A request without a frame has the number 0, for which the innermost frame is returned.
        """
        frames = self.instant.frames
        if not 0 <= number <= len(frames):
            raise LabError(f"there is no frame {number}")
        return frames[max(0, number - 1)]

    def _reference(self, number: int) -> _Reference:
        if number == 0:
            raise LabError("variablesReference 0 contains nothing: give that of the scope or the variable above")
        if not 1 <= number <= len(self._references):
            raise LabError(f"there is no variablesReference {number} at this stop")
        return self._references[number - 1]

    def _number(self, reference: _Reference) -> int:
        """Return the number that the client uses for a reference. A new reference gets the next number."""
        if reference not in self._references:
            self._references.append(reference)
        return self._references.index(reference) + 1

    def _scope(self, frame: int, scope: Scope) -> dict[str, Any]:
        number = self._number(_Reference(frame, scope.name, True))
        hint = {"presentationHint": scope.hint} if scope.hint else {}
        return {"name": scope.name, "variablesReference": number, "expensive": scope.is_costly, **hint}

    def _variable(self, item: Item, parent: _Reference, is_root: bool = False) -> dict[str, Any]:
        """Return a row in the protocol's form. If there are rows below this row, it gets the number of a reference to them.

        parent: the reference above the row; is_root: whether the row is the expression of `parent` itself
        """
        shown: dict[str, Any] = {"name": item.name, "value": item.value, "variablesReference": 0}
        shown |= {"type": item.type} if item.type else {}
        shown |= {"evaluateName": item.expression} if item.expression else {}
        shown |= {"memoryReference": f"{item.address:#x}"} if item.address is not None else {}
        if item.children:
            path = () if is_root else (*parent.path, item.name)
            number = self._number(_Reference(parent.frame, parent.root, parent.is_scope, path))
            shown |= {"variablesReference": number} | ({"indexedVariables": item.count} if item.count else {})
        elif item.change is None:
            shown["presentationHint"] = {"attributes": ["readOnly"]}
        return shown

    def _rows(self, reference: _Reference, start: int, count: int, is_hex: bool) -> list[Item]:
        """Return `count` rows below a reference, from the row `start` on; if `count` is 0, all rows from there on."""
        frame = self._frame(reference.frame)
        if reference.is_scope:
            scope = next((each for each in scopes_of(self.instant, frame) if each.name == reference.root), None)
            rows = scope.items if scope else None
        else:
            rows = evaluation.evaluate(self.instant, frame, reference.root, "", is_hex).children
        for name in reference.path:
            rows = self._named(rows, name, is_hex).children if rows else None
        return rows(start, count, is_hex) if rows else []

    def _row(self, reference: _Reference, name: str, is_hex: bool) -> Item:
        """Return the row called `name` below a reference. Raises LabError if there is none."""
        return self._named(lambda start, count, is_hex: self._rows(reference, start, count, is_hex), name, is_hex)

    def _named(self, rows: Any, name: str, is_hex: bool) -> Item:
        """Return the row called `name`, such as `x` or `[3]`. Raises LabError if there is none.

        rows: returns rows, as `Item.children` does
        """
        found = _INDEX.fullmatch(name)
        own: list[Item] = rows(int(found[1]), 1, is_hex) if found else rows(0, 0, is_hex)
        for item in own:
            if item.name == name:
                return item
        raise LabError(f"there is no {name} here")
