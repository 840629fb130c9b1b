"""Inlay hints: the vector length after an instruction that sets it, register groups of different widths, and vector types at labels."""

import bisect
from collections.abc import Iterator
from typing import TypedDict

from ..assembler.instruction import Statement
from ..guest.vector_flow import VectorState
from ..instructions.table import row_of
from ..instructions.words import Operand
from ..machine.answers import VILL, ControlRegisters
from .analysis import Analysis
from .diagnostics import listed_types
from .positions import Position, position


class InlayHint(TypedDict):
    """A text that an editor shows after the end of a line."""

    position: Position
    label: str
    paddingLeft: bool


def hints(analysis: Analysis, first: int, last: int) -> list[InlayHint]:
    """Return the hints of the lines from `first` to `last`, counted from 1. Where the vector type is unknown, there are none."""
    found = list[InlayHint]()
    labels = _labels(analysis)
    for number in range(max(first, 1), min(last, len(analysis.lines)) + 1):
        texts = [_at_label(analysis, labels[number])] if number in labels else []
        own = [each for each in analysis.by_line.get(number, []) if not each.within]
        texts += [text for each in own for text in _after(analysis, each)]
        shown = "; ".join(filter(None, texts))
        if shown:
            end = len(analysis.plain[number - 1].rstrip()) + 1
            found.append({"position": position(analysis.lines, number, end), "label": shown, "paddingLeft": True})
    return found


def _labels(analysis: Analysis) -> dict[int, int]:
    """Return the address of each instruction that has a label, by the line of the label, from 1."""
    lines, found = sorted(analysis.by_line), dict[int, int]()
    for each in analysis.names:
        at = bisect.bisect_left(lines, each.line)
        if each.defines in ("label", "numeric label") and at < len(lines):
            address = analysis.program.labels.get(each.name, analysis.by_line[lines[at]][0].address)
            if address == analysis.by_line[lines[at]][0].address:
                found[each.line] = address
    return found


def _at_label(analysis: Analysis, address: int) -> str:
    """Return the text about the vector type at a label; "" if the type is unknown, or the same as after the instruction above the label.

    The type at the label is different if a jump to the label comes from a place with another type. address: the address of the label
    """
    state = analysis.flow.states.get(address)
    if state is None or state.types is None or state.types == {VILL}:
        return ""
    above = analysis.flow.after(address - 4) if address - 4 in analysis.flow.states else None
    if len(state.types) > 1:
        return f"type differs by the way here: {listed_types(state.types)}"
    return f"here {listed_types(state.types)}" if above is None or above.types != state.types else ""


def _after(analysis: Analysis, statement: Statement) -> Iterator[str]:
    """Yield the texts after an instruction: vl, if the instruction sets it, and the register groups if their elements have different widths."""
    word = analysis.words.get(statement.address)
    row = row_of(word) if word is not None else None
    if row is None or statement.address not in analysis.flow.states:
        return
    if row.name.startswith("vset"):
        yield set_text(analysis.flow.after(statement.address))
    instruction = analysis.instruction(statement)
    operands = [each for each in instruction.operands if each.eew > 1 and not each.is_whole] if instruction else []
    if len({each.eew for each in operands}) > 1 and word is not None and not _is_refused(analysis, statement):
        yield ", ".join(f"{each.place} {group_text(each)}" for each in operands)


def _is_refused(analysis: Analysis, statement: Statement) -> bool:
    """Return whether an instruction is illegal, so that it has no register groups."""
    return any(each.statement is statement for each in analysis.illegal)


def set_text(state: VectorState) -> str:
    """Return the text about vl and VLMAX, such as `vl 4, VLMAX 8`; "" if the vector type is unknown.

    state: the vector state after an instruction that sets the vector type
    """
    if state.vtype is None:
        return ""
    if state.vtype == VILL:
        return "vill, vl 0"
    most = ControlRegisters(vtype=state.vtype).vlmax
    return f"vl ≤ {most}, VLMAX {most}" if state.vl is None else f"vl {state.vl}, VLMAX {most}"


def group_text(operand: Operand) -> str:
    """Return the registers of an operand and the width of its elements in bits, such as `v8–v11 (e32)`."""
    first, last = operand.registers[0], operand.registers[-1]
    return f"v{first}{f'–v{last}' if last > first else ''} (e{operand.eew})"
