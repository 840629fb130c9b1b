"""The last instruction: its meaning in a sentence, and its operands with the reason for each element of the result."""

from dataclasses import replace

from .. import LabError
from ..meanings.calculation import Notation, Part
from .instants import Instant, LastInstruction
from .vectors import VectorGroup, operand_groups

NO_STEP = "no instruction was executed yet"


def last_items(instant: Instant) -> list[tuple[str, str, VectorGroup | None]]:
    """Return the rows about the last instruction. Raises LabError if the state before it can't be found.

    Each row is a name, a text and a register group. The row of an operand has the operand's register group, and "" as name and text. Each
    other row has None in place of the group.
    """
    last = instant.last
    if last is None:
        return [("instruction", NO_STEP, None)]
    rows: list[tuple[str, str, VectorGroup | None]] = [
        ("instruction", f"{last.text}  at {instant.program.place(last.pc)}", None)
    ]
    executed = last.executed
    if executed is None:
        return rows
    rows.append(("does", _text(executed.does), None))
    rows.append(("formula", _text(executed.formula), None))
    rows.append(("vl", f"{executed.vl}  (of {executed.elements})", None))
    found = operand_groups(executed, bytes(last.before.v), bytes(instant.registers.v))
    named = {group.name: group for group in found}  # an operand that is read twice is shown once
    return [*rows, *(("", "", _with_reasons(last, group)) for group in named.values())]


def why(instant: Instant, name: str, element: int | None) -> str:
    """Return the reason why a register or an element has its value after the last instruction.

    name: the name of the register; element: the index of an element; None for a scalar register

    Raises LabError if no instruction was executed, if it has no explanation, or if the register or element doesn't exist.
    """
    last = instant.last
    if last is None or last.explanation is None:
        raise LabError(NO_STEP if last is None else f"{last.text} has changed nothing")
    return last.explanation.why(name, element).text


def _with_reasons(last: LastInstruction, group: VectorGroup) -> VectorGroup:
    """Return the register group of a destination with the reason for each element in place of the element's outcome.

    The group of a source is returned unchanged, and so is each group if there is no explanation.
    """
    if not group.is_result or last.explanation is None:
        return group
    texts = dict(group.outcomes)
    for index in range(len(group.values)):
        try:
            texts[index] = last.explanation.why(group.expression, index).text
        except LabError:
            break
    return replace(group, outcomes=texts)


def _text(parts: tuple[Part, ...]) -> str:
    """Return a sentence or a formula as text. Its terms are written as the names of their registers."""
    return "".join(part if isinstance(part, str) else part.named(Notation()) for part in parts)
