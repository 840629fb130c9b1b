"""The console's output: the program's output, rows of text, registers by both names, and coloured elements."""

import itertools
import os
import re
import sys
import textwrap
from collections.abc import Iterable, Iterator
from fractions import Fraction

from ..guest.changes import Change, RegisterChange, vtype_text
from ..instructions.accesses import ROW_BYTES
from ..machine.answers import ControlRegisters, Memory, ScalarRegisters, VectorRegister, elements_in
from ..output import write_out
from ..instructions.table import ABI_NAMES

COLOURS = {"tail": "2", "masked": "35", "changed": "33", "refused": "31"}
ROUNDING = ["rnu", "rne", "rdn", "rod"]  # vxrm, the manual's section 3.8
WIDTH, ELEMENTS_WIDTH = 96, 72  # the most characters of a row, and of the elements in a row


class Screen:
    """Standard output, with or without colours. A row starts on a new line, also after output of the program."""

    def __init__(self, has_colours: bool) -> None:
        self._has_colours = has_colours
        self._is_new_line = True

    @property
    def columns(self) -> int:
        """The characters in a row of the terminal; without a terminal there is no limit."""
        return os.get_terminal_size(sys.stdout.fileno()).columns or WIDTH if sys.stdout.isatty() else sys.maxsize

    @property
    def width(self) -> int:
        """The most characters in a row of registers or memory."""
        return min(WIDTH, self.columns)

    def write(self, data: bytes) -> None:
        """Print the program's output unchanged."""
        sys.stdout.flush()
        write_out(data)
        self._is_new_line = data.endswith(b"\n")

    def say(self, *rows: str, kind: str = "") -> None:
        """Print rows. A row that is too long for the terminal is wrapped after a word. kind: as in `paint`"""
        columns = self.columns
        wrap = textwrap.TextWrapper(
            columns, subsequent_indent=" " * 8, break_long_words=False, break_on_hyphens=False
        ).wrap
        parts = ([row] if len(row) <= columns or "\033" in row else wrap(row) for row in rows)
        for row in itertools.chain.from_iterable(parts):
            print("" if self._is_new_line else "\n", self.paint(row, kind), sep="")
            self._is_new_line = True
        sys.stdout.flush()

    def report(self, sentence: str) -> None:
        """Print a sentence about progress on standard error, if that is a terminal."""
        if sys.stderr.isatty():
            print(f"{sentence[:1].upper()}{sentence[1:]}.", file=sys.stderr, flush=True)

    def paint(self, text: str, kind: str) -> str:
        """Return a text in the colour of a kind, a key of COLOURS; unchanged if the kind is empty or there are no colours."""
        return f"\033[{COLOURS[kind]}m{text}\033[0m" if kind and self._has_colours else text

    def element_rows(self, register: VectorRegister, control: ControlRegisters, mask: int | None) -> Iterator[str]:
        """Yield rows with the elements of a register. Elements in the tail, and masked-off elements, have colours.

        control: the control registers, which decide which elements are the tail
        mask: the bits of v0 as a number, bit 0 for element 0; None if v0 isn't a mask
        """
        values = [f"{value:0{register.width // 4}x}" for value in elements_in(register.data, register.width)]
        name, group = f"v{register.number}", max(1, int(Fraction(register.width, control.sew) * control.lmul))
        first = register.number % group * len(values)
        texts = [self.paint(value, _placement(first + place, control, mask)) for place, value in enumerate(values)]
        limit = max(1, min(ELEMENTS_WIDTH, self.width - 4) // (register.width // 4 + 1))
        room = 1 << limit.bit_length() - 1
        for row in range(0, len(texts), room):
            yield f"{'' if row else name:3} {' '.join(texts[row : row + room])}"


def _placement(element: int, control: ControlRegisters, mask: int | None) -> str:
    """Return `tail` or `masked` for an element in the tail or a masked-off element, and otherwise "". If vtype is vill, return "".

    element: the index of the element; mask: as in `Screen.element_rows`
    """
    if control.vtype >> 63:
        return ""
    if element >= control.vl:
        return "tail"
    return "" if mask is None or mask >> element & 1 else "masked"


def both_names(name: str) -> str:
    """Return both names of a scalar register, as x10/a0. Another name is unchanged. name: such as x10"""
    return f"{name}/{ABI_NAMES[name]}" if name in ABI_NAMES else name


def change_text(change: Change) -> str:
    """Return the text of a change. A scalar register has both of its names."""
    text = str(change)
    return text.replace(change.name, both_names(change.name), 1) if isinstance(change, RegisterChange) else text


def change_rows(texts: Iterable[str], width: int) -> Iterator[str]:
    """Yield changes in rows of at most `width` characters. A change that is longer than a row is split between its numbers."""
    pieces = [(number, piece) for text in texts for number, piece in enumerate(_pieces(text, width - 8))]
    row = " " * 4
    for number, piece in pieces:
        if not row.isspace() and len(row) + len(piece) + 2 * (number == 0) > width:
            yield row
            row = " " * 8 + piece
        else:
            row += piece if number else f"  {piece}"
    yield row


def _pieces(text: str, limit: int) -> list[str]:
    """Return a change in pieces of at most `limit` characters. A piece ends after a number, a name, or the digits of a byte."""
    if len(text) <= limit:
        return [text]
    if "," in text:
        return re.findall("[^,=]+[,=]?", text)
    name, _, digits = text.partition("=")
    room = (limit - len(name) - 1) // 2 * 2
    return [f"{name}={digits[:room]}", *(digits[at : at + room] for at in range(room, len(digits), room))]


def register_rows(registers: ScalarRegisters, width: int) -> Iterator[str]:
    """Yield rows with the program counter and the scalar registers, at most three to a row."""
    named = {"pc": registers.pc} | {f"x{number}": value for number, value in enumerate(registers.x)}
    cells = [f"{both_names(name):8} {value:016x}" for name, value in named.items()]
    room = max(1, min(3, (width + 2) // 27))
    for row in range(0, len(cells), room):
        yield "  ".join(cells[row : row + room])


def control_row(control: ControlRegisters, policy: str) -> str:
    """Return a row with the vector control registers and the policy."""
    first = f"vl={control.vl} vtype={control.vtype:x} ({vtype_text(control.vtype)}) vstart={control.vstart}"
    return f"{first} vxrm={control.vxrm} ({ROUNDING[control.vxrm]}) vxsat={control.vxsat} policy={policy}"


def memory_rows(memory: Memory, width: int) -> Iterator[str]:
    """Yield rows of at most 16 bytes of memory, as hexadecimal digits and as ASCII. width: the most characters in a row, if it has several bytes"""
    room = max(each for each in (1, 2, 4, 8, ROW_BYTES) if each == 1 or 4 * each + 11 <= width)
    for place in range(0, len(memory.data), room):
        row = memory.data[place : place + room]
        text = "".join(chr(byte) if 32 <= byte < 127 else "." for byte in row)
        yield f"{memory.address + place:8x}  {row.hex(' '):{3 * room - 1}}  {text}"
