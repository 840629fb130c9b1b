"""The text for the word under the pointer: its meaning in general, and in this source."""

from collections.abc import Iterator

from ..assembler.instruction import Statement
from ..assembler.line import Kind, Line, SourceError, Token, tokens_of
from ..assembler.names import SOURCE_NAMES
from ..assembler.operands import REGISTER_NAMES
from ..guest.changes import vtype_text
from ..guest.vector_flow import VectorState
from ..instructions.accesses import REGISTER_BITS
from ..instructions.table import ABI_NAMES
from ..instructions.words import Operand
from ..machine.answers import VILL, ControlRegisters
from ..meanings.describe import describe
from .analysis import Analysis
from .diagnostics import illegal_message, listed_types
from .hints import group_text
from .navigation import occurrence_at
from .positions import Position, Range, index_at, range_of


def hover(analysis: Analysis, where: Position) -> tuple[list[str], Range] | None:
    """Return the lines of text about the word at a position, and the word's range; None if there is no text about it."""
    token = word_at(analysis, where)
    if token is None:
        return None
    meaning = _label(analysis, where) or _meaning(token) or _vector_register(analysis, token)
    texts = [*_here(analysis, token), *meaning]
    return (texts, range_of(analysis.lines, token.line, token.column, len(token.text))) if texts else None


def word_at(analysis: Analysis, where: Position) -> Token | None:
    """Return the name or the number at a position, or the one that ends there; None if there is none, as in a comment."""
    number = where["line"] + 1
    if not 0 < number <= len(analysis.plain):
        return None
    column = index_at(analysis.lines[number - 1], where["character"]) + 1
    try:
        tokens = tokens_of(Line(analysis.plain[number - 1], number))
    except SourceError:
        return None
    words = [it for it in tokens if it.kind in (Kind.NAME, Kind.NUMBER)]
    found = [it for it in words if it.column <= column <= it.column + len(it.text)]
    return found[-1] if found else None


def _meaning(token: Token) -> list[str]:
    """Return the lines about the meaning that a name has in every source; none if it has no such meaning."""
    register = REGISTER_NAMES.get(token.text, "")
    name = token.text.lower()
    if found := describe(name):
        return found
    if register.startswith("x"):
        own = ABI_NAMES.get(register, "")
        return [f"{register} is {own} in the ABI" if token.text == register and own else f"{token.text} is {register}"]
    return []


def _vector_register(analysis: Analysis, token: Token) -> list[str]:
    """Return the lines about a vector register: its size, and the operands of the line's instructions that contain it.

    Return no lines for other words.
    """
    if not REGISTER_NAMES.get(token.text, "").startswith("v"):
        return []
    texts, number = [f"{token.text}: a vector register of {REGISTER_BITS} bits"], int(token.text.removeprefix("v"))
    for statement in analysis.by_line.get(token.line, []):
        instruction = analysis.instruction(statement)
        own = [each for each in instruction.operands if number in each.registers] if instruction else []
        texts += [f"  {operand_text(each)}" for each in own]
    return texts


def operand_text(operand: Operand) -> str:
    """Return the text about an operand: its field, its use, its registers, EEW and EMUL."""
    place = "vs3" if operand.noun == "data" else operand.place
    return f"{place} {operand.noun}: {group_text(operand)}, EEW {operand.eew}, EMUL {operand.emul}"


def _label(analysis: Analysis, where: Position) -> list[str]:
    """Return the lines about a name that the source defines: its address, its definition, and the vector type at the address.

    Return no lines if the source doesn't define the name at the position.
    """
    found = occurrence_at(analysis, where)
    if found is None:
        return []
    line = next((it.line for it in analysis.names if it.name == found.name and it.defines), 0)
    name = found.name.partition("\n")[0]
    address = analysis.program.labels.get(found.name)
    texts = [f"{name}: {address:#x}, line {line}" if address is not None else f"{name}, line {line}"]
    if line:
        texts.append(f"  {analysis.lines[line - 1].strip()}")
    state = analysis.flow.states.get(address) if address is not None else None
    return [*texts, *(f"  {text}" for text in state_texts(state))]


def _here(analysis: Analysis, token: Token) -> Iterator[str]:
    """Yield the lines about the instruction whose name is at a token, under the vector type in force before it."""
    if token.text.lower() not in SOURCE_NAMES:
        return
    for statement in analysis.by_line.get(token.line, []):
        if statement.place(0) == (token.line, token.column):
            yield from _instruction_here(analysis, statement)


def _instruction_here(analysis: Analysis, statement: Statement) -> Iterator[str]:
    """Yield the lines about an instruction: its text and word, the vector type before it, and the register groups of its operands."""
    word = analysis.words.get(statement.address)
    yield f"here: {statement.text}" + (f"  [{word:08x}]" if word is not None else "")
    yield from (f"  {text}" for text in state_texts(analysis.state(statement)))
    instruction = analysis.instruction(statement)
    yield from (f"  {operand_text(operand)}" for operand in (instruction.operands if instruction else []))
    for illegal in analysis.illegal:
        if illegal.statement is statement:
            yield f"  {illegal_message(illegal)}"
    yield ""


def state_texts(state: VectorState | None) -> Iterator[str]:
    """Yield the lines about the vector type and the length in a state; none if they are unknown."""
    if state is None or state.types is None:
        return
    if state.vtype is None:
        yield f"vtype by the way here: {listed_types(state.types)}"
    elif state.vtype == VILL:
        yield "vtype: vill; no instruction has set a supported type"
    else:
        most = ControlRegisters(vtype=state.vtype).vlmax
        yield f"vtype: {vtype_text(state.vtype)}; vl: {state.vl if state.vl is not None else f'{most} at most'}"
