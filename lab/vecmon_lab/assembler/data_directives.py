"""Directives that put numbers, texts and zeros into a section."""

from collections.abc import Callable, Sequence
from dataclasses import replace
from functools import partial

from .. import LabError
from ..instructions.accesses import PAGE_BYTES
from .assembly import Assembly
from .line import Operand, Token, check_count
from .sections import PROGRAM_PAGES, TOO_LARGE
from .value import Value

WIDTHS = {".byte": 1, ".half": 2, ".word": 4, ".dword": 8}
WIDTHS |= {".2byte": 2, ".hword": 2, ".short": 2, ".4byte": 4, ".long": 4, ".int": 4, ".8byte": 8, ".quad": 8}
STRINGS = {".ascii": b"", ".asciz": b"\0", ".string": b"\0"}  # the bytes that follow each text, by directive
_OTHER_SIZES = {
    ".float": 4,
    ".single": 4,
    ".double": 8,
    ".octa": 16,
}  # bytes for each operand of directives that are refused
MOST_BYTES = PROGRAM_PAGES * PAGE_BYTES

Directive = Callable[[Token, list[Operand]], None]


class DataDirectives:
    """The directives of data in a source."""

    def __init__(self, assembly: Assembly) -> None:
        self._assembly, self._symbols = assembly, assembly.symbols
        self.directives: dict[str, Directive] = {
            **dict.fromkeys(STRINGS, self._put_strings),
            **dict.fromkeys(WIDTHS, self._put_numbers),
            **dict.fromkeys((".zero", ".space", ".skip"), self._put_room),
            **dict.fromkeys((".uleb128", ".sleb128"), self._put_leb),
            ".fill": self._put_copies,
            ".incbin": self._put_file,
        }

    def keep_room(self, name: str, operands: Sequence[Operand]) -> None:
        """Reserve bytes for the data of a directive that is refused, so that the data after it has the right addresses."""
        self._assembly.sections.current.size += _OTHER_SIZES.get(name, 0) * len(operands)

    def _put_strings(self, name: Token, operands: list[Operand]) -> None:
        _check_some(name, operands)
        for operand in operands:
            with self._assembly.noting():
                data = b"".join(token.string() for token in operand) + STRINGS[name.text]
                self._assembly.put_item(name, len(data), partial(bytes, data), None)

    def _put_numbers(self, name: Token, operands: list[Operand]) -> None:
        _check_some(name, operands)
        width, section = WIDTHS[name.text], self._assembly.sections.current
        for operand in operands:
            here = self._assembly.here()
            if len(operand) == 3 and operand[1].text == ":":
                self._put_rars_copies(operand, width)
            elif width == 4 and "x" in section.permissions and section.size % 4 == 0:
                self._assembly.put_instruction(name, [operand], [".word {0:word}"])
            else:
                value = partial(self._number, operand, here)
                self._assembly.put_item(name, width, partial(self._symbols.data, operand, here, width), value)

    def _put_rars_copies(self, operand: Operand, width: int) -> None:
        """Reserve bytes for copies in RARS's form, as 0:10, and note the mistake that .fill must be used instead.

        operand: the number, a colon and the count; width: the size of a number in bytes
        """
        number, colon, count = operand
        form = f".fill {count.text}, {width}, {number.text}"
        self._assembly.note(colon.error(f"{number.text}:{count.text} isn't in this assembler: write {form}"))
        self._assembly.put(number, width * self._size(replace(number, text=".fill"), [count]))

    def _number(self, operand: Operand, here: Value) -> int:
        """Return the value of an operand, once sections have their bases. Raises SourceError."""
        return self._symbols.evaluate(operand, here).resolved()

    def _put_room(self, name: Token, operands: list[Operand]) -> None:
        """Put a number of bytes, which are 0 or have the value of the second operand."""
        check_count(name, operands, 1, 2)
        size = self._size(name, operands[0])
        if len(operands) == 1:
            self._assembly.put(name, size)
        else:
            self._assembly.put(name, size, lambda: self._symbols.data(operands[1], Value(0), 1) * size)

    def _put_copies(self, name: Token, operands: list[Operand]) -> None:
        """Put copies of a number; the operands are their count, their size and the number."""
        check_count(name, operands, 1, 3)
        count = self._size(name, operands[0])
        size = self._assembly.constant(operands[1]) if len(operands) > 1 else 1
        if not 0 <= size <= 8:
            raise operands[1][0].error(f"the copies of {name.text} have 0 to 8 bytes")
        number = self._assembly.constant(operands[2]) if len(operands) > 2 else 0
        copy = (number % (1 << 32)).to_bytes(8, "little")[
            :size
        ]  # the number takes at most 4 bytes, as in stock assemblers
        if count * size > MOST_BYTES:
            raise operands[0][0].error(f"these are more than the {MOST_BYTES:,} bytes that a user has")
        self._assembly.put(name, count * size, partial(bytes, copy * count) if any(copy) else None)

    def _size(self, name: Token, operand: Operand) -> int:
        """Return the value of an operand that is a number of bytes or copies. Raises SourceError if it is negative or too large."""
        size = self._assembly.constant(operand)
        if size < 0:
            raise operand[0].error(
                f"{name.text} takes how many {'copies' if name.text == '.fill' else 'bytes'} there are"
            )
        if size > MOST_BYTES:
            raise name.error(TOO_LARGE)
        return size

    def _put_leb(self, name: Token, operands: list[Operand]) -> None:
        """Put numbers in DWARF's variable-length encoding (LEB128)."""
        _check_some(name, operands)
        for operand in operands:
            number = self._assembly.constant(operand)
            if number < 0 and name.text == ".uleb128":
                raise operand[0].error(".uleb128 takes a number that isn't negative")
            data = _leb(number, name.text == ".sleb128")
            self._assembly.put_item(name, len(data), partial(bytes, data), None)

    def _put_file(self, name: Token, operands: list[Operand]) -> None:
        """Put bytes of a file. The operands are the file, the offset of the first byte, and the largest number of bytes."""
        check_count(name, operands, 1, 3)
        content = read_file(self._assembly, name, operands[0])
        skipped, *count = [self._assembly.constant(operand) for operand in operands[1:]] or [0]
        if skipped < 0 or min(count, default=0) < 0:
            raise name.error(".incbin takes a file, how many bytes of it to leave out, and how many to take")
        if skipped > len(content):
            raise operands[1][0].error(f"the file has {len(content):,} bytes, and this leaves out {skipped:,}")
        data = content[skipped : skipped + count[0]] if count else content[skipped:]
        self._assembly.put_item(name, len(data), partial(bytes, data), None)


def read_file(assembly: Assembly, name: Token, operand: Operand) -> bytes:
    """Return the bytes of a file. Raises SourceError if the file can't be read, or if files are refused.

    name: the directive; operand: the file's name in quotes
    """
    path = b"".join(token.string() for token in operand).decode("utf-8", "replace")
    if assembly.files is None:
        raise name.error(
            f"{name.text} isn't here: files are read only by run, explore and console, from your own folder"
        )
    try:
        return assembly.files(path)
    except LabError as error:
        raise operand[0].error(f"{error}") from error


def _check_some(name: Token, operands: Sequence[Operand]) -> None:
    if not operands:
        raise name.error(f"{name.text} takes one operand or more")


def _leb(number: int, is_signed: bool) -> bytes:
    """Return a number in LEB128: groups of 7 bits, the lowest first; bit 7 is set in each byte except the last."""
    groups = bytearray()
    while True:
        group, number = number & 0x7F, number >> 7
        is_last = number in (0, -1) and (number != 0) == (group >> 6 == 1) if is_signed else number == 0
        groups.append(group | (0 if is_last else 0x80))
        if is_last:
            return bytes(groups)
