"""Completions: the names at the start of a statement, and the texts that fit as the operand at the caret."""

import functools
import re
from collections.abc import Iterator, Sequence
from typing import NotRequired, TypedDict

from ..assembler.line import Kind, Line, SourceError, Token, tokens_of
from ..assembler.names import SOURCE_NAMES
from ..assembler.source import DIRECTIVES
from ..assembler.statements import split_line
from ..assembler.vector_type import PARTS
from ..instructions.accesses import vector_instruction
from ..instructions.table import REGISTERS, Row, instruction_table
from ..meanings.describe import describe
from ..tables.table import read_table
from .analysis import Analysis
from .hints import group_text
from .positions import Position, Range, TextEdit, index_at, position

_KEYWORD, _FUNCTION, _VARIABLE, _CONSTANT, _REFERENCE, _METHOD, _ENUM = 14, 3, 6, 21, 18, 2, 20  # kinds of items
_SCALARS = sorted(REGISTERS, key=lambda name: "atsrg".find(name[0]) % 6 + 6 * (name in ("sp", "tp")))
"""The names of the scalar registers, with those that programs use most at the start."""

_VECTORS = [f"v{number}" for number in range(32)]
_CONTROL_REGISTERS = dict(read_table("keywords"))[r"csr\w*"].split()
_NUMBERS = ("imm", "uimm", "shamt", "number")
_LABELS = ("offset", "label", "symbol", "address")
_TAKES_LABEL = (".globl", ".global", ".weak", ".word", ".dword", ".quad", ".type", ".size")


class Item(TypedDict):
    """A completion. textEdit: a change that replaces the part of the word that the user has typed already"""

    label: str
    kind: int
    detail: str
    sortText: str
    textEdit: TextEdit
    documentation: NotRequired[str]


def completions(analysis: Analysis, where: Position) -> list[Item]:
    """Return the completions at a position; none in a comment, or if the statement can't be divided into tokens."""
    number = where["line"] + 1
    if not 0 < number <= len(analysis.lines):
        return []
    index = index_at(analysis.lines[number - 1], where["character"])
    if len(analysis.plain[number - 1].rstrip()) < len(analysis.lines[number - 1][:index].rstrip()):
        return []  # in a comment
    *_, statement = split_line(Line(analysis.plain[number - 1].ljust(index)[:index], number))
    try:
        tokens = tokens_of(statement)
    except SourceError:
        return []
    while len(tokens) > 1 and tokens[1].text == ":":
        tokens = tokens[2:]
    is_typing = bool(tokens) and tokens[-1].column + len(tokens[-1].text) == index + 1 and _is_word(tokens[-1])
    typed = tokens.pop() if is_typing else None
    start = typed.column if typed else index + 1
    span: Range = {
        "start": position(analysis.lines, number, start),
        "end": position(analysis.lines, number, index + 1),
    }
    found = _operands(analysis, tokens, number) if tokens else _first_words(analysis)
    first = typed.text[0].lower() if typed else ""
    return [_item(at, span, *each) for at, each in enumerate(found) if each[0].lower().startswith(first)]


def _item(at: int, span: Range, label: str, kind: int, detail: str) -> Item:
    """Return a completion. at: its index in the list; span: the range that it replaces"""
    edit: TextEdit = {"range": span, "newText": label}
    return {"label": label, "kind": kind, "detail": detail, "sortText": f"{at:04}", "textEdit": edit}


def resolved(item: Item) -> Item:
    """Return a completion with the description of its name, if there is one."""
    if texts := describe(item["label"]):
        item["documentation"] = "\n".join(texts)
    return item


def _is_word(token: Token) -> bool:
    return token.kind in (Kind.NAME, Kind.NUMBER)


def _first_words(analysis: Analysis) -> Iterator[tuple[str, int, str]]:
    """Yield the names that may begin a statement, each with its kind and a detail, such as its operands."""
    yield from ((it.name, _METHOD, "macro") for it in analysis.names if it.defines == "macro")
    for name in sorted(SOURCE_NAMES):
        yield name, _FUNCTION, ", ".join(forms_of(name)[0]) if forms_of(name) else ""
    yield from ((name, _KEYWORD, "directive") for name in sorted(DIRECTIVES))


def _operands(analysis: Analysis, tokens: Sequence[Token], number: int) -> Iterator[tuple[str, int, str]]:
    """Yield the texts that fit as the operand at the caret, each with its kind and a detail.

    tokens: the tokens of the statement before the word at the caret, first the name of the instruction; number: the line's number, from 1
    """
    name = tokens[0].text.lower()
    place = sum(token.text == "," for token in tokens)
    is_inside = tokens[-1].text == "("
    before = tokens[-1].text in (",", "(") or len(tokens) == 1
    if name in _TAKES_LABEL:
        yield from _labels(analysis)
    if not before:
        return
    seen = set[str]()
    for form in forms_of(name):
        if place < len(form):
            for item in _fitting(analysis, name, form[place], number, is_inside):
                if item[0] not in seen:
                    seen.add(item[0])
                    yield item


def _fitting(analysis: Analysis, name: str, field: str, number: int, is_inside: bool) -> Iterator[tuple[str, int, str]]:
    """Yield the texts that fit as an operand, each with its kind and a detail.

    name: the name of the instruction; field: the operand in the table of instructions; number: the line's number, from 1
    is_inside: whether the caret is after `(`
    """
    if is_inside:
        yield from ((register, _VARIABLE, REGISTERS[register]) for register in _SCALARS)
    elif field in ("(rs1)", "address"):
        yield from ((f"({register})", _VARIABLE, REGISTERS[register]) for register in _SCALARS)
    elif re.fullmatch("v[ds][123]?|vs|vt", field):
        yield from _vectors(analysis, name, field, number)
    elif field in ("v0", "v0.t"):
        yield field, _VARIABLE, "mask"
    elif field == "csr":
        yield from ((register, _VARIABLE, "control register") for register in _CONTROL_REGISTERS)
    elif field.startswith("vtype "):
        yield from ((word, _ENUM, describe(word)[0].partition(": ")[2]) for word in PARTS[int(field.split()[1])])
    elif field in _LABELS or name in ("la", "lla"):
        yield from _labels(analysis)
    elif re.fullmatch("r[ds][12]?|rt|scalar", field):
        yield from ((register, _VARIABLE, REGISTERS[register]) for register in _SCALARS)
    elif field in _NUMBERS or field.startswith("imm"):
        yield from ((it.name, _CONSTANT, "constant") for it in analysis.names if it.defines == "constant")


def _labels(analysis: Analysis) -> Iterator[tuple[str, int, str]]:
    """Yield the labels of the source, each with its kind and a detail."""
    for each in analysis.names:
        if each.defines == "label":
            yield each.name, _REFERENCE, f"line {each.line}"


def _vectors(analysis: Analysis, name: str, field: str, number: int) -> Iterator[tuple[str, int, str]]:
    """Yield the vector registers at which the group of an operand may begin under the vector type in force; all of them if it is unknown."""
    vtype, row = analysis.state_before_line(number).vtype, instruction_table().get(name)
    if vtype is None or vtype >> 63 or row is None:
        yield from ((register, _VARIABLE, "") for register in _VECTORS)
        return
    for start, register in enumerate(_VECTORS):
        instruction = vector_instruction(_word(row, field, start), vtype)
        own = [it for it in instruction.operands if _place(it.place, row) == field] if instruction else []
        if not own:
            yield register, _VARIABLE, ""
        elif start % own[0].group == 0 and own[0].registers.stop <= 32:
            yield register, _VARIABLE, group_text(own[0])


def _place(place: str, row: Row) -> str:
    """Return the name of a vector operand's field in the row of its instruction: `vs3`, not `vd`, for a store."""
    return "vs3" if place == "vd" and "vs3" in row.fields() else place


def _word(row: Row, field: str, register: int) -> int:
    """Return the word of an instruction without a mask. field: the field of a vector operand; register: its value; all other fields are 0"""
    low = {"vd": 7, "vs3": 7, "vs1": 15, "vs2": 20}.get(field, 7)
    return row.word(register << low | 1 << 25)


@functools.lru_cache(maxsize=1024)
def forms_of(name: str) -> list[list[str]]:
    """Return the forms of an instruction or a pseudo-instruction, each as a list of operands. Each part of a vector type is an operand."""
    row = instruction_table().get(name)
    forms = [re.sub(r"[\[\]]", "", row.operands)] if row else []
    rows = [*read_table("pseudo"), *read_table("aliases")]
    forms += [form.partition(" ")[2] for form, *_ in rows if form.split()[0] == name]
    forms += ["rd, imm"] if name == "li" else []
    types = ", ".join(f"vtype {part}" for part in range(len(PARTS)))
    return [form.replace("vtypei", types).split(", ") for form in forms if form not in ("", "*")]
