"""Translate assembler source to lines of the monitor: labels, directives, pseudo-instructions. The machine encodes each instruction.

The text begins at the origin, data at the first page after the text, bss at the first page after the data. A program may read
and execute the text, and read and write data and bss; asm and poke only need a page to be mapped there.
"""

from collections.abc import Iterable, Iterator, Mapping, Sequence
from dataclasses import dataclass, field, replace
from typing import NotRequired, TypedDict

from ..instructions.accesses import PAGE_BYTES
from ..instructions.table import instruction_table
from ..instructions.words import LOAD_FP, OP_V, STORE_FP
from ..machine.start_state import start_lines
from .assembly import Assembly, FileReader
from .blocks import BLOCK_DIRECTIVES, MAX_CHARACTERS, Blocks
from .data_runs import DataRun, data_runs
from .directives import EXPORTING, IGNORED, Directives
from .instruction import Statement, refusal
from .line import Kind, Line, Operand, SourceError, Token, split_operands, tokens_of
from .names import SOURCE_NAMES, near_names, no_instruction
from .plain import PlainInstruction, plain_instruction
from .pseudo import templates
from .sections import TEXT, USER_PAGES
from .statements import statements, without_comments
from .value import Value
from .vector_type import completed

__all__ = ["Program", "SourceError", "Statement", "assemble", "in_order", "read_source", "refusal"]

MAX_MISTAKES = 100


class LineType(TypedDict):
    """The vector types that may be in force from a line of a source on, up to the next line that has an entry.

    line: the number of the line, which sets the types itself, or whose first instruction is reached with them
    types: the values of vtype, in hexadecimal digits; empty if vtype may have any value
    vl: the value of vl; missing if it is unknown
    """

    line: int
    types: list[str]
    vl: NotRequired[int]


@dataclass(frozen=True)
class Program:
    """An assembled source.

    lines: commands of the monitor (map, asm, poke) that load the program, without the user's digit; empty if there are mistakes
    labels: addresses by label; statements: the machine instructions, in the order of the source
    entry: the address at which the program starts
    mistakes: the mistakes in the source's order, at most MAX_MISTAKES, and one for each place
    data: the numbers and texts of directives, by the address of the first byte
    warnings: the warnings of the assembler, or of a compiler
    set_up: the commands of the monitor in `#>` lines, each after its line number; empty unless `inputs.py` has read these lines
    end: the address after the last instruction, where an ebreak is added; 0 if other bytes follow the instruction
    exported: the names that .globl and similar directives export to other sources
    types: the vector types at lines of the source; empty unless `language/line_types.py` has computed them
    """

    lines: list[str]
    labels: dict[str, int]
    statements: list[Statement]
    entry: int
    mistakes: list[SourceError]
    data: Mapping[int, DataRun] = field(default_factory=dict, kw_only=True)
    warnings: Sequence[SourceError] = field(default=(), kw_only=True)
    set_up: Sequence[tuple[int, str]] = field(default=(), kw_only=True)
    end: int = field(default=0, kw_only=True)
    exported: frozenset[str] = field(default=frozenset(), kw_only=True)
    types: Sequence[LineType] = field(default=(), kw_only=True)

    def load_lines(self) -> list[str]:
        """Return the commands of the monitor that load the program after `enter`, set up its stack, and set the program counter."""
        after_last = [f"asm {self.end:x} ebreak"] if self.end else []
        return [*self.lines, *after_last, *start_lines(self.labels), f"setpc {self.entry:x}"]

    def names(self) -> dict[str, list[str]]:
        """Return the labels of each address that has some, by the address in hexadecimal digits."""
        names: dict[str, list[str]] = {}
        for label, address in self.labels.items():
            names.setdefault(f"{address:x}", []).append(label)
        return names

    def addresses(self) -> dict[int, int]:
        """Return the address of the first instruction of each source line that has instructions, by the line's number."""
        return {statement.line: statement.address for statement in reversed(self.statements)}

    def line_at(self, address: int) -> int:
        """Return the number of the source line of the instruction at an address; 0 if there is none."""
        return next((statement.line for statement in self.statements if statement.address == address), 0)

    def line_numbers(self) -> dict[str, int]:
        """Return the source line number of each instruction, by its address in hexadecimal digits."""
        return {f"{statement.address:x}": statement.line for statement in self.statements}

    def line_stops(self) -> dict[str, list[str]]:
        """Return the address of a breakpoint for each source line that has instructions, by the line's number.

        It is the address of the line's first instruction in hexadecimal digits, in a list of its own.
        """
        return {f"{number}": [f"{address:x}"] for number, address in self.addresses().items()}

    def source_lines(self, text: str) -> dict[str, str]:
        """Return the text of each source line that has instructions, without its labels.

        The keys are the addresses of the lines' first instructions, in hexadecimal digits. If a line has no comment, and the line above
        is only a comment, the text includes this comment.

        text: the source
        """
        lines, first = ["", *text.split("\n")], dict[int, Statement]()
        for statement in self.statements:
            first.setdefault(statement.line, statement)
        comments = {}
        for number, statement in first.items():
            own, above = lines[number][statement.column - 1 :].strip(), lines[number - 1].strip()
            is_alone = above.startswith(("#", "//")) and "#" not in own and "//" not in own
            comments[f"{statement.address:x}"] = f"{own}  {above}" if is_alone else own
        return comments

    def aliases(self) -> dict[str, str]:
        """Return the source's pseudo-instructions that expand to vector instructions, by their addresses in hexadecimal digits."""
        table = instruction_table()
        return {
            f"{statement.address:x}": statement.alias
            for statement in self.statements
            if statement.alias and table[statement.text.split()[0]].opcode in (OP_V, LOAD_FP, STORE_FP)
        }

    @property
    def size(self) -> int:
        """The number of instructions."""
        return len(self.statements)

    def summary(self) -> str:
        """Return a text with the number of instructions, the entry address, and the number and the address of the bytes of data."""
        parts = [f"{self.size:,} instruction{'s' * (self.size != 1)}, from 0x{self.entry:x}"]
        pokes = [line.split() for line in self.lines if self.statements and line.startswith("poke ")]
        if pokes:
            size = sum(len(digits) // 2 for _, _, digits in pokes)
            parts.append(f"{size:,} byte{'s' * (size != 1)} of data, from 0x{pokes[0][1]}")
        return "; ".join(parts)


def assemble(text: str, origin: int = 0x10000, files: FileReader | None = None) -> Program:
    """Assemble a source, and return the program. Raises SourceError for the first mistake.

    origin: the address of .text, a multiple of 4,096; files: as in `read_source`
    """
    program = read_source(text, origin, files)
    if program.mistakes:
        raise program.mistakes[0]
    return program


def read_source(
    text: str, origin: int = 0x10000, files: FileReader | None = None, most_made: int = MAX_CHARACTERS
) -> Program:
    """Assemble a source that may have mistakes, and return the program, which lists them. It has all statements without mistakes.

    origin: the address of .text, a multiple of 4,096
    files: reads the files of .include and .incbin; None to refuse these directives
    most_made: the number of characters to which calls and repetitions may expand. If they exceed a limit below MAX_CHARACTERS,
        TooMuchMade is raised
    """
    if origin % PAGE_BYTES or not 0 <= origin <= (1 << 48) - USER_PAGES * PAGE_BYTES:
        raise ValueError(f"{origin:#x} is no multiple of {PAGE_BYTES} with room for {USER_PAGES} pages below 2^48")
    assembler = _Assembler(files, most_made)
    for line in assembler.lines(text):
        if len(assembler.assembly.mistakes) >= MAX_MISTAKES:
            return Program([], {}, [], origin, assembler.mistakes())
        assembler.read(line)
    return assembler.finish(origin)


def in_order(mistakes: Iterable[SourceError]) -> list[SourceError]:
    """Return the first mistakes in the order of the source: at most MAX_MISTAKES, one for each place and one for each undefined name."""
    places, names = dict[tuple[int, int], SourceError](), set[str]()
    for mistake in sorted(mistakes, key=lambda mistake: (mistake.line, mistake.column)):
        if mistake.name not in names:
            places.setdefault((mistake.line, mistake.column), mistake)
        names |= {mistake.name} - {""}
    return [*places.values()][:MAX_MISTAKES]


class _Assembler:
    """Reads the statements of a source, and then returns the program. `finish` completes the parts that need addresses."""

    def __init__(self, files: FileReader | None, most_made: int) -> None:
        self.assembly = Assembly(files)
        self._directives, self._blocks = Directives(self.assembly), Blocks(self.assembly, most_made)
        self._symbols, self._sections = self.assembly.symbols, self.assembly.sections

    def lines(self, text: str) -> Iterator[Line]:
        """Yield the statements of a source. Call `read` with each statement before taking the next one, which may depend on it."""
        plain, error = without_comments(text.replace("\ufeff", " ", text.startswith("\ufeff")))  # a byte order mark
        if error:
            self.assembly.note(error)
        return self._blocks.expanded(statements(plain))

    def read(self, line: Line) -> None:
        """Read the next statement. Mistakes in it are noted."""
        self.assembly.line = line
        section = self._sections.current
        plain = plain_instruction(line) if "x" in section.permissions and section.size % 4 == 0 else None
        if plain:
            self._put(plain)
            return
        with self.assembly.noting():
            self._read(tokens_of(line))

    def _put(self, plain: PlainInstruction) -> None:
        """Add a plain instruction, and the labels before it. Mistakes are noted."""
        for label in plain.labels:
            with self.assembly.noting():
                self._symbols.define(label.in_line(self.assembly.line.number), self.assembly.here())
        try:
            self.assembly.put_plain(plain)
        except SourceError as error:
            self.assembly.note(error)

    def _read(self, tokens: list[Token]) -> None:
        """Read labels, and an instruction or a directive after them. Raises SourceError."""
        while len(tokens) > 1 and tokens[1].text == ":":
            label, _, *tokens = tokens
            with self.assembly.noting():
                self._symbols.define(_checked_label(label), self.assembly.here())
        if not tokens:
            return
        small = tokens[0].text.lower()
        name = tokens[0] if tokens[0].text == small else replace(tokens[0], text=small)
        if len(tokens) == 2 and tokens[1].text == "=":
            self._symbols.assume(tokens[0].text)
            raise tokens[1].error("a number is missing after =")
        if len(tokens) > 2 and tokens[1].text in ("=", "=="):
            self._directives.assign(tokens[0], self._symbols.bound(tokens[2:]), tokens[1].text == "==")
        elif name.kind is not Kind.NAME:
            raise name.error(f"{tokens[0].text} isn't an instruction, a directive or a label")
        elif name.text in EXPORTING:
            self.assembly.exported |= {token.text for token in tokens[1:] if token.kind is Kind.NAME}
        elif name.text in IGNORED:
            return
        elif name.text.startswith("."):
            operands = split_operands(tokens[1:], "align" in name.text)
            self._directives.execute(name, [self._symbols.bound(each) for each in operands], BLOCK_DIRECTIVES)
        elif name.text not in SOURCE_NAMES and [token.text for token in tokens[2:3]] == [":"]:
            self._refuse_label(tokens[0], tokens[1])
            self._read(tokens[3:])
        elif name.text not in SOURCE_NAMES:
            raise name.error(no_instruction(tokens[0].text), near_names(name.text))
        elif self._sections.current.permissions:
            self._read_instruction(name, [self._symbols.bound(each) for each in split_operands(tokens[1:])])

    def _refuse_label(self, first: Token, second: Token) -> None:
        """Note the mistake that a label consists of two words. Both words are defined, so that their uses aren't mistakes as well."""
        for word in (first, second):
            if word.kind is Kind.NAME and not self._symbols.is_defined(word.text):
                self._symbols.define(word, self.assembly.here())
        problem = f"{first.text} {second.text} is no label: a label is one word, as {first.text}_{second.text}"
        self.assembly.note(first.error(problem))

    def _read_instruction(self, name: Token, operands: list[Operand]) -> None:
        if "x" not in self._sections.current.permissions:
            self._go_on_in_text(name)
        section = self._sections.current
        if section.size % 4:
            if section.is_certain:
                self.assembly.note(
                    name.error(f"the address of {name.text} isn't divisible by 4: put .align 2 before it")
                )
            self._symbols.move(self.assembly.here(), self.assembly.here().plus(Value(-section.size % 4)))
            self.assembly.put(name, -section.size % 4)
        if name.text in ("call", "tail", "jump") and operands:
            texts = [token.text for token in operands[0]]
            operands[0] = operands[0][: texts.index("@")] if texts[1:] == ["@", "plt"] else operands[0]
        here = self.assembly.here()
        if found := completed(name, operands):
            texts, warning = [found[0]], found[1]
            self.assembly.warn(warning)
        else:
            texts = templates(name, operands, lambda operand: self._symbols.constant(operand, here))
        self._symbols.note_high(operands, here)
        self.assembly.put_instruction(name, operands, texts)

    def _go_on_in_text(self, name: Token) -> None:
        """Note the mistake that an instruction is outside .text, and enter .text, so that the next instructions aren't mistakes as well."""
        self.assembly.note(
            name.error(f"{name.text} is outside .text, where programs can't execute it: write .text before it")
        )
        before = self.assembly.here()
        self._sections.enter(self._sections.named(TEXT))
        self._symbols.move(before, self.assembly.here())

    def mistakes(self) -> list[SourceError]:
        """Return the first mistakes in order. An undefined name has the nearest names as fixes."""
        noted = self.assembly.mistakes.values()
        return self._symbols.suggest(in_order(self._symbols.explained(each) for each in noted))

    def finish(self, origin: int) -> Program:
        """Give sections their bases, complete the parts that need addresses, and return the program.

        origin: the address of .text
        """
        assembly = self.assembly
        lines = [*self._sections.place(origin)]
        self._symbols.is_placed = True
        made = list[Statement]()
        for item in assembly.instructions:
            made += item.statements(self._symbols, assembly.note)
        filled = self._sections.filled()
        for _, make in [content for section in filled for content in section.contents]:
            with assembly.noting():
                make()
        if loop := self._symbols.loop():
            assembly.note(loop)
        labels = self._symbols.addresses()
        mistakes = self.mistakes()
        lines += [statement.command for statement in made]
        lines += [] if mistakes else [line for section in filled for line in section.pokes()]
        entry = _entry(labels, made, self._sections.named(".text").base)
        data = {} if mistakes else data_runs(assembly.items, {*labels.values()})
        warnings = in_order(assembly.warnings.values())
        lines, exported = [] if mistakes else lines, frozenset(assembly.exported)
        end = self._sections.end
        return Program(lines, labels, made, entry, mistakes, data=data, warnings=warnings, end=end, exported=exported)


def _entry(labels: Mapping[str, int], statements: Sequence[Statement], text: int) -> int:
    """Return the address where a program starts: `_start`, or else `main` if an instruction is there, or else the start of .text.

    text: the address of .text
    """
    main = labels.get("main")
    is_function = main is not None and any(statement.address == main for statement in statements)
    return labels.get("_start", main if main is not None and is_function else text)


def _checked_label(label: Token) -> Token:
    """Return a label; a name in double quotes as a name without them. Raises SourceError for a token that can't be a label."""
    if label.kind is Kind.STRING:
        return replace(label, kind=Kind.NAME, text=label.string().decode("utf-8", "replace"))
    if label.kind is Kind.NAME or label.kind is Kind.NUMBER and label.text.isdecimal():
        return label
    raise label.error(
        f"{label.text} is no label: a label is a decimal number, or begins with a letter or with one of . _ $"
    )


DIRECTIVES = [*Directives(Assembly()).directives, *BLOCK_DIRECTIVES]
"""The names of all directives that are accepted."""
