"""The state of assembling a source: its sections, names, instructions, data and mistakes so far."""

import contextlib
from collections.abc import Callable, Iterator

from .data_runs import DataItem
from .instruction import Instruction
from .line import Line, Operand, SourceError, Token
from .plain import PlacedInstruction, PlainInstruction
from .sections import PROGRAM_PAGES, TOO_LARGE, Sections
from .symbols import Symbols
from .value import Value

FileReader = Callable[[str], bytes]
"""A function that returns the bytes of the file with a name from the source. It raises LabError if it refuses the file."""


class Assembly:
    """The parts of a program while its source is read. Parts that need addresses are completed once sections have their bases.

    files: reads the files of .include and .incbin; None if these directives are refused
    instructions: the instructions so far; items: the numbers and texts of directives so far
    locals: the names in .local; exported: the names in .globl and similar directives
    is_ended: whether the rest of the source is ignored
    line: the statement that is being read
    mistakes, warnings: the mistakes and warnings so far, by line and column
    """

    def __init__(self, files: FileReader | None = None) -> None:
        self.files = files
        self.symbols, self.sections = Symbols(), Sections()
        self.instructions: list[Instruction | PlacedInstruction] = []
        self.items: list[DataItem] = []
        self.locals: set[str] = set()
        self.exported: set[str] = set()
        self.is_ended = False
        self.line = Line("", 0)
        self.mistakes: dict[tuple[int, int], SourceError] = {}
        self.warnings: dict[tuple[int, int], SourceError] = {}

    def note(self, error: SourceError) -> None:
        """Note a mistake, unless one is already noted at the same line and column."""
        self.mistakes.setdefault((error.line, error.column), error)

    def warn(self, warning: SourceError) -> None:
        """Note a warning, unless one is already noted at the same line and column."""
        self.warnings.setdefault((warning.line, warning.column), warning)

    @contextlib.contextmanager
    def noting(self) -> Iterator[None]:
        """Return a context that notes a SourceError raised in it as a mistake, and then ends without an exception."""
        try:
            yield
        except SourceError as error:
            self.note(error)

    def here(self) -> Value:
        """Return the address of the next byte in the current section."""
        return self.sections.here()

    def constant(self, operand: Operand) -> int:
        """Return the value of an operand that must be a number known at this statement. Raises SourceError."""
        return self.symbols.constant(operand, self.here())

    def put_instruction(self, name: Token, operands: list[Operand], texts: list[str]) -> None:
        """Add an instruction or a pseudo-instruction to the current section. Raises SourceError if the program becomes too large.

        name: the mnemonic; texts: the templates of its expansion, one for each machine instruction
        """
        column = self.line.column if self.line.places else name.column
        self.instructions.append(Instruction(name, operands, self.here(), texts, self.line.number, column))
        self.put(name, 4 * len(texts))
        self.sections.current.code_end = self.sections.current.size

    def put_plain(self, plain: PlainInstruction) -> None:
        """Add a plain instruction to the current section. Raises SourceError if the program becomes too large."""
        self.instructions.append(PlacedInstruction(plain, self.line.number, self.here()))
        if not self._has_grown(4 * len(plain.made)):
            raise plain.name.in_line(self.line.number).error(TOO_LARGE)
        self.sections.current.code_end = self.sections.current.size

    def put(self, name: Token, size: int, make: Callable[[], bytes] | None = None) -> None:
        """Add bytes to the current section. Raises SourceError if the program becomes too large.

        name: the token to which the error points; size: the number of bytes
        make: returns the bytes once sections have their bases; None for zeros, and for the bytes of an instruction
        """
        section = self.sections.current
        if make is not None:
            section.contents.append((section.size, _zeros(name, make) if section.zeros else make))
        if not self._has_grown(size):
            raise name.error(TOO_LARGE)

    def _has_grown(self, size: int) -> bool:
        """Add bytes to the size of the current section, and return True. If the program would become too large, add none; return False."""
        section = self.sections.current
        pages = section.pages()
        section.size += size
        if section.pages() == pages or self.sections.pages() <= PROGRAM_PAGES:
            return True
        section.size -= size
        return False

    def put_item(self, name: Token, size: int, make: Callable[[], bytes], value: Callable[[], int] | None) -> None:
        """Add a number or a text to the current section and to the program's data items. Raises SourceError as `put` does.

        name: the token to which the error points; size: the number of bytes
        make, value: return the bytes and the number once sections have their bases; value is None for a text
        """
        item = DataItem(self.sections.current, self.sections.current.size, size, value)
        self.put(name, size, make)
        self.items.append(item)


def _zeros(name: Token, make: Callable[[], bytes]) -> Callable[[], bytes]:
    """Return a function that returns the bytes of a directive in .bss, and raises SourceError unless all of them are 0.

    name: the directive, for the error; make: returns the bytes
    """

    def make_zeros() -> bytes:
        data = make()
        if any(data):
            raise name.error(".bss has only zeros: .zero makes room there")
        return data

    return make_zeros
