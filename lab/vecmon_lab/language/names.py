"""The places where a source defines and uses names: of labels, numeric labels, constants and macros.

The source is divided into tokens in the assembler's way. Parts that a condition leaves out are included, so that renaming changes them, too.
"""

from collections import Counter
from collections.abc import Iterator, Sequence
from dataclasses import dataclass
from typing import Literal

from ..assembler.line import Kind, Line, SourceError, Token, tokens_of
from ..assembler.names import SOURCE_NAMES
from ..assembler.operands import REGISTER_NAMES
from ..assembler.source import DIRECTIVES
from ..assembler.statements import split_line

NameKind = Literal["label", "numeric label", "constant", "macro"]
_DEFINING = {".equ": "constant", ".set": "constant", ".equiv": "constant", ".comm": "label", ".lcomm": "label"}
_INPUT = "#>"


@dataclass(frozen=True)
class Occurrence:
    """A name at a place in a source.

    name: the name; for a numeric label, its number and the number of its definition, with a line feed between them
    line, column: the place, counted from 1; length: the number of characters
    defines: the kind of the name, if it is defined here; None if it is used here
    """

    name: str
    line: int
    column: int
    length: int
    defines: NameKind | None = None


def occurrences(lines: Sequence[str], plain: Sequence[str]) -> list[Occurrence]:
    """Return the places where a source defines or uses the names that it defines, in the source's order.

    lines: the lines of the source; plain: the same lines without comments
    """
    found, numeric = list[Occurrence](), Counter[int]()
    for number, (line, text) in enumerate(zip(lines, plain), 1):
        for statement in split_line(Line(text, number)):
            found += _names(_tokens(statement), numeric)
        if line.lstrip().startswith(_INPUT):
            start = line.index(_INPUT) + len(_INPUT)
            found += _uses(_tokens(Line(line[start:], number, start + 1)), numeric)
    defined = {each.name for each in found if each.defines}
    return [each for each in found if each.name in defined]


def _tokens(line: Line) -> list[Token]:
    """Return the tokens of a statement; none if it can't be divided into tokens."""
    try:
        return tokens_of(line)
    except SourceError:
        return []


def _names(tokens: list[Token], numeric: Counter[int]) -> Iterator[Occurrence]:
    """Yield the names in a statement.

    numeric: the number of definitions so far of each numeric label, by the label's number. A definition in the statement increases it.
    """
    while len(tokens) > 1 and tokens[1].text == ":":
        label, _, *tokens = tokens
        if label.kind is Kind.NUMBER and label.text.isdecimal():
            numeric[int(label.text)] += 1
            yield _numeric(label, int(label.text), numeric[int(label.text)], "numeric label")
        elif label.kind is Kind.NAME:
            yield _at(label, "label")
    if not tokens:
        return
    first, *others = tokens
    name = first.text.lower()
    if others and others[0].text in ("=", "==") and first.kind is Kind.NAME:
        yield _at(first, "constant")
    elif name in _DEFINING and others and others[0].kind is Kind.NAME:
        yield _at(others[0], "constant" if _DEFINING[name] == "constant" else "label")
        others = others[1:]
    elif name == ".macro" and others and others[0].kind is Kind.NAME:
        yield _at(others[0], "macro")
        others = others[1:]
    elif first.kind is Kind.NAME and name not in SOURCE_NAMES and name not in DIRECTIVES:
        yield _at(first)  # a call of a macro
    yield from _uses(others, numeric)


def _uses(tokens: Sequence[Token], numeric: Counter[int]) -> Iterator[Occurrence]:
    """Yield the names that operands use. tokens: the operands; numeric: as for `_names`"""
    for before, token, after in zip([None, *tokens], tokens, [*tokens[1:], None]):
        if token.kind is Kind.NUMBER and token.text[-1] in "bf" and token.text[:-1].isdecimal():
            number = int(token.text[:-1])
            yield _numeric(token, number, numeric[number] + (token.text[-1] == "f"))
        is_plain = before is None or before.text not in ("%", "@", "\\")
        is_whole = after is None or after.text != "\\" or after.column != token.column + len(token.text)
        if token.kind is Kind.NAME and is_plain and is_whole and token.text not in REGISTER_NAMES:
            yield _at(token)


def _at(token: Token, defines: NameKind | None = None) -> Occurrence:
    return Occurrence(token.text, token.line, token.column, len(token.text), defines)


def _numeric(token: Token, number: int, which: int, defines: NameKind | None = None) -> Occurrence:
    return Occurrence(f"{number}\n{which}", token.line, token.column, len(token.text), defines)
