"""Plain instructions, which depend only on their own line: their operands are registers, keywords and numbers.

Most instructions of a source are plain ones, and the source in an editor is read again after each change. So plain instructions are
cached by the text of their line. The key doesn't have the number of the line, so a line that moves isn't parsed again.
"""

import functools
from collections.abc import Callable, Iterable, Sequence
from dataclasses import dataclass, replace
from typing import NamedTuple

from .instruction import Instruction, Statement
from .line import Kind, Line, Operand, SourceError, Token, split_operands, tokens_of
from .names import SOURCE_NAMES
from .operands import KEYWORD, REGISTER_NAMES, address_register
from .pseudo import templates
from .symbols import Symbols
from .value import Value
from .vector_type import completed

_SAVED = 1 << 13  # lines in the cache


@dataclass(frozen=True)
class PlainInstruction:
    """An instruction or pseudo-instruction of a line, and the labels before it. All places are in line 0 of a source.

    name: the token with the mnemonic; made: the machine's instructions, the first one at address 0
    """

    labels: Sequence[Token]
    name: Token
    made: Sequence[Statement]


class PlacedInstruction(NamedTuple):
    """A plain instruction in a source. line: the number of its line; place: the address of its first machine instruction"""

    plain: PlainInstruction
    line: int
    place: Value

    def statements(self, symbols: Symbols, note: Callable[[SourceError], None]) -> Iterable[Statement]:
        """Return the machine instructions with their addresses and line. Call this once sections have their bases."""
        first, line = self.place.resolved(), self.line
        return [
            Statement(first + each.address, line, each.column, each.text, each.offsets, (), each.alias)
            for each in self.plain.made
        ]


def plain_instruction(line: Line) -> PlainInstruction | None:
    """Return the plain instruction of a statement.

    Return None if the statement isn't a plain instruction, has a mistake, or comes from a macro or an included file.
    """
    return None if line.places or line.within else _found(line.text, line.column)


@functools.lru_cache(maxsize=_SAVED)
def _found(text: str, column: int) -> PlainInstruction | None:
    """Return the plain instruction of a statement's text, with its places in line 0; None as for `plain_instruction`.

    column: of the text's first character in the line
    """
    try:
        tokens, labels = tokens_of(Line(text, 0, column)), list[Token]()
        while len(tokens) > 1 and tokens[1].text == ":" and tokens[0].kind is Kind.NAME:
            label, _, *tokens = tokens
            labels.append(label)
        if not tokens or tokens[0].kind is not Kind.NAME or any(token.text in ("=", "==") for token in tokens[1:2]):
            return None
        name = replace(tokens[0], text=tokens[0].text.lower())
        operands = split_operands(tokens[1:])
        if name.text not in SOURCE_NAMES or not all(_is_plain(name, operand) for operand in operands):
            return None
        if completed(name, operands):
            return None
        symbols, errors, start = Symbols(), list[SourceError](), Value(0)
        texts = templates(name, operands, lambda operand: symbols.constant(operand, start))
        made = [*Instruction(name, operands, start, texts, 0, name.column).statements(symbols, errors.append)]
    except SourceError:
        return None
    return None if errors else PlainInstruction(labels, name, made)


def _is_plain(name: Token, operand: Operand) -> bool:
    """Return whether an operand is a register, a keyword, a number, or an address without names. name: the instruction's mnemonic"""
    if len(operand) == 1 and operand[0].text in REGISTER_NAMES:
        return True
    if len(operand) == 1 and KEYWORD.fullmatch(f"{name.text} {operand[0].text}"):
        return True
    expression = operand[:-3] if address_register(operand) else operand
    return all(token.kind is Kind.MARK or _is_number(token) for token in expression)


def _is_number(token: Token) -> bool:
    """Return whether a token is a number, and not a numeric label such as `1f`."""
    return token.kind is Kind.NUMBER and not (token.text[-1] in "bf" and token.text[:-1].isdecimal())
