"""An instruction of a source in the machine's syntax, and the places in the source that its text comes from."""

import functools
import re
from collections.abc import Callable, Iterator, Sequence
from dataclasses import dataclass
from string import Formatter
from typing import NamedTuple

from ..instructions.table import Row, instruction_table
from .expression import signed
from .line import Operand, Place, SourceError, Token, chain
from .names import INSTRUCTION_NAMES, PSEUDO_NAMES, near_names, no_instruction
from .operands import KEYWORD, REGISTER_NAMES, address_register
from .symbols import Symbols, UnknownName, control_register_error
from .value import Value

_TEXT_BYTES, _VECTOR_TYPE = 256, "eSEW, mLMUL, ta|tu, ma|mu"
_REACH = {"jal": 1 << 20, "auipc": 1 << 30}

_Pieces = list[tuple[str, Place]]  # pieces of a text, each with its place in the source


class Statement(NamedTuple):
    """A machine instruction: its address, its source line, its text for asm, and where each character of it was typed.

    line: the number of the source line that executes the instruction; column: the column where the instruction begins in that line
    offsets: where each character of the text was typed, and then where the text ends: the number of lines after `line`, and the
        column. So the offsets of an instruction don't change if its line moves
    within: the calls and files that the instruction comes from, innermost first
    alias: the pseudo-instruction as the source has it, if this is the first instruction of its expansion and has another name;
        otherwise ""
    """

    address: int
    line: int
    column: int
    text: str
    offsets: tuple[Place, ...]
    within: tuple[str, ...] = ()
    alias: str = ""

    def place(self, at: int) -> Place:
        """Return the line and column where the character at an index of the text was typed.

        The index may be the length of the text. Then return the place after the last character.
        """
        lines, column = self.offsets[at]
        return self.line + lines, column

    @property
    def command(self) -> str:
        """The monitor's command that writes the instruction."""
        return f"asm {self.address:x} {self.text}"


def refusal(statement: Statement, column: int, written: str = "") -> SourceError:
    """Return the mistake in the source for a statement that the machine refused with E15.

    column: the column of the statement's text that the refusal names, from 1 on
    written: the statement's text as the source has it, if `with_fitting_operand` has replaced an operand; otherwise ""
    """
    read = written or statement.text
    is_negative = statement.text[: column - 1].endswith("-")  # the machine names the column of the digits
    token = re.match(r"-[0-9]+|[a-z0-9._]+|.", statement.text[column - 1 - is_negative :])
    row = instruction_table().get(statement.text.split()[0])
    fix: Sequence[str] = ()
    form = f"; the form is {row.name} {row.operands}".replace("vtypei", _VECTOR_TYPE).rstrip() if row else ""
    if token is None:
        message = f"an operand is missing at the end{form}"
    elif token[0] == ",":
        message = f"there is an operand too many, as the machine reads it: {read}{form}"
    elif column == 1 and token[0] in PSEUDO_NAMES:
        message = f"{token[0]} is a pseudo-instruction, which only a source has"
    elif column == 1:
        message, fix = no_instruction(token[0], INSTRUCTION_NAMES), near_names(token[0], INSTRUCTION_NAMES)
    else:
        is_number = token[0].lstrip("-")[:1].isdecimal()
        limits = number_range(row, statement.text[: column - 1]) if row and is_number else ""
        message = f"{token[0]} doesn't fit here, as the machine reads it: {read}{form}{limits}"
    return SourceError(*statement.place(column - 1), message + chain(statement.within), "E15", fix)


_FITTING = {"imm": "0", "shamt": "0", "uimm": "0", "offset": "0", "csr": "vl", "imm(rs1)": "0(x0)", "(rs1)": "(x0)"}
_FITTING |= {
    **dict.fromkeys(("rd", "rs1", "rs2"), "x0"),
    **dict.fromkeys(("vd", "vs1", "vs2", "vs3"), "v0"),
    "v0": "v0",
}


def with_fitting_operand(statement: Statement, column: int) -> Statement | None:
    """Return a statement with a valid operand in place of the operand at a column of its text.

    Return None if there is no operand at the column, or if no operand is known that fits there. column: from 1 on
    """
    name, space, _ = statement.text.partition(" ")
    row = instruction_table().get(name)
    forms = row.operands.replace("[, v0.t]", "").split(", ") if row else []
    before = statement.text[: column - 1]
    number = before.count(",")
    start = before.rfind(", ") + 2 if number else len(name + space)
    if column <= start or column > len(statement.text) or number >= len(forms) or forms[number] not in _FITTING:
        return None
    form = forms[number]
    if form.endswith("(rs1)") and "(" in statement.text[start:]:  # replace either the number or the register
        opening = statement.text.index("(", start)
        form, start, stop = ("rs1", opening + 1, ")") if column > opening else ("imm", start, "(")
    else:
        stop = ","
    end = statement.text.find(stop, column - 1)
    end = len(statement.text) if end < 0 else end
    fitting, offsets = _FITTING[form], statement.offsets
    text = statement.text[:start] + fitting + statement.text[end:]
    return statement._replace(text=text, offsets=(*offsets[:start], *[offsets[start]] * len(fitting), *offsets[end:]))


def number_range(row: Row, before: str) -> str:
    """Return the range of numbers that an operand may have, as the end of a message; "" if the operand isn't a number with a range.

    row: the instruction; before: the text of the instruction before the operand, whose commas show which operand it is
    """
    forms = row.operands.replace("[, v0.t]", "").split(", ")
    place = before.count(",")
    form = forms[place].split("(")[0] if place < len(forms) else ""
    is_upper, is_vector = row.name in ("lui", "auipc"), row.name.startswith("v")
    ranges = {
        "imm": (0, 1048575) if is_upper else (-16, 15) if is_vector else (-2048, 2047),
        "shamt": (0, 31 if row.name.endswith("w") else 63),
        "uimm": (0, 31),
        "csr": (0, 4095),
        "vtypei": (0, 1023 if row.name == "vsetivli" else 2047),
    }
    return f", with {form} from {ranges[form][0]} to {ranges[form][1]}" if form in ranges else ""


@functools.lru_cache(maxsize=1024)
def _holes(template: str) -> Sequence[tuple[str, str | None, str | None]]:
    """Return the literal texts of a template, each with the operand's number and the kind of the hole after it.

    After the last text there may be no hole: then the number and the kind are None.
    """
    return [(literal, hole, what) for literal, hole, what, _ in Formatter().parse(template)]


@dataclass(frozen=True)
class Instruction:
    """An instruction or pseudo-instruction with its expansion. Its operands are evaluated when sections have their bases.

    place: the address of the first machine instruction
    templates: the expansion, a text with holes for each machine instruction (see pseudo.py)
    line, column: where the instruction starts in the source; for an instruction in the body of a macro, where the macro is called
    """

    name: Token
    operands: list[Operand]
    place: Value
    templates: list[str]
    line: int
    column: int

    def statements(self, symbols: Symbols, note: Callable[[SourceError], None]) -> Iterator[Statement]:
        """Yield the machine instructions of the expansion, except those with mistakes. Call this once sections have their bases.

        symbols: the values of names; note: is called with each mistake
        """
        for index, template in enumerate(self.templates):
            errors = list[SourceError]()
            pieces = self._template_pieces(symbols, template, errors)
            text = "".join(piece for piece, _ in pieces)
            if len(text) > _TEXT_BYTES and not errors:
                message = f"an instruction has at most {_TEXT_BYTES} characters, and this one {len(text)}"
                errors.append(self.name.error(message))
            for error in errors:
                note(error)
            if not errors:
                last = self.operands[-1][-1] if self.operands else self.name
                offsets = [(line - self.line, column) for piece, (line, column) in pieces for _ in piece]
                offsets.append((last.line - self.line, last.column + len(last.text)))
                address = self.place.resolved() + 4 * index
                alias = "" if index or text.split()[0] == self.name.text else self._written
                yield Statement(address, self.line, self.column, text, tuple(offsets), self.name.within, alias)

    @property
    def _written(self) -> str:
        """The name and the operands as the source has them, with a space after each comma."""
        operands = ("".join(token.text for token in operand) for operand in self.operands)
        return f"{self.name.text} {', '.join(operands)}".rstrip()

    def _template_pieces(self, symbols: Symbols, template: str, errors: list[SourceError]) -> _Pieces:
        """Return the text of a template with its holes filled, in pieces. errors: mistakes in operands are appended to this list"""
        pieces = _Pieces()
        for literal, hole, what in _holes(template):
            operand = [] if hole is None else self.operands[int(hole)]
            pieces.append((literal, _place(operand[0] if operand and pieces else self.name)))
            try:
                pieces += self._pieces(symbols, operand, what or "") if operand else []
            except SourceError as error:
                errors.append(error)
        return pieces

    def _pieces(self, symbols: Symbols, operand: Operand, what: str) -> _Pieces:
        """Return the text for a hole: an operand in the machine's syntax, or a value computed from the operand. Raises SourceError.

        what: the kind of the hole (see pseudo.py)
        """
        first, place = operand[0], _place(operand[0])
        if what.startswith(("label", "symbol")):
            return [(self._distance(symbols, operand, what.partition(".")[2]), place)]
        if what == "word":
            return [(f"0x{symbols.data(operand, self.place, 4)[::-1].hex()}", place)]
        if first.text in REGISTER_NAMES or KEYWORD.fullmatch(f"{self.name.text} {first.text}"):
            if len(operand) > 1:
                raise operand[1].error(f"{operand[1].text} doesn't fit here: a comma may be missing before it")
            return [(REGISTER_NAMES.get(first.text, first.text), place)]
        register = address_register(operand)
        expression = operand[:-3] if register else operand
        try:
            number = symbols.constant(expression, self.place) if expression else 0
        except UnknownName:
            place_of_csr = int(self.name.text.startswith("csrr"))
            if self.name.text.startswith("csr") and any(it is operand for it in self.operands[place_of_csr:][:1]):
                raise control_register_error(first) from None
            raise
        return self._number_pieces(operand, register, signed(number) if number >> 63 == 1 else number, what)

    def _number_pieces(self, operand: Operand, register: Token | None, number: int, what: str) -> _Pieces:
        """Return the text of an operand: a number, or an address with a number before a register. Raises SourceError.

        register: the register of the address; None if the operand is only a number
        number: the operand's number; what: the kind of the hole (see pseudo.py)
        """
        place, is_vector = _place(operand[0]), self.name.text.startswith("v")
        if what == "imm-1" and not -15 <= number <= 16:
            raise operand[0].error(f"{self.name.text} takes a number from -15 to 16")
        if register is None:
            return [(str(number - (what == "imm-1")), place)]
        if is_vector and number:
            raise operand[0].error("the address of a vector instruction has no distance: it is (a0) or 0(a0)")
        text = f"{REGISTER_NAMES[register.text]})"
        return [("(" if is_vector else f"{number}(", place), (text, _place(register))]

    def _distance(self, symbols: Symbols, operand: Operand, part: str) -> str:
        """Return the distance in bytes from the instruction to a label, as digits. Raises SourceError.

        part: `high` or `low` for the part of the distance that auipc or addi has; "" for the whole distance
        """
        value = symbols.evaluate(operand, self.place)
        if value.section is None:
            message = "a label is needed here: a number is an address to some assemblers, and a distance to others"
            raise operand[0].error(message)
        distance = value.resolved() - self.place.resolved()
        reach = _REACH.get(self.templates[0].split()[0], 1 << 12)
        if not -reach <= distance < reach:
            raise operand[0].error(f"this is {distance} bytes away, and {-reach} to {reach - 2} can be reached")
        high = distance + 0x800 >> 12
        parts = {"": distance, "high": high % (1 << 20), "low": distance - (high << 12)}
        return str(parts[part])


def _place(token: Token) -> Place:
    """Return the place where a token was typed."""
    return token.line, token.column
