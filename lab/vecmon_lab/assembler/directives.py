"""Directives for sections, names and alignment, directives without an effect, and directives that are refused."""

from collections.abc import Sequence
from difflib import get_close_matches
from functools import partial

from ..instructions.accesses import PAGE_BYTES
from ..tables.table import read_table
from .assembly import Assembly
from .data_directives import DataDirectives, Directive
from .line import Kind, Operand, Token, check_count
from .names import MAX_NEAR
from .sections import BSS, DATA, TEXT

_ROWS = [(treatment, names.split()) for treatment, names in read_table("directives")]
IGNORED = frozenset(name for treatment, names in _ROWS if treatment == "none" for name in names)
"""Directives of stock assemblers that have no effect here."""

EXPORTING = frozenset([".globl", ".global", ".weak"])
"""Directives that export names to other sources."""

REFUSED = {name: reason for reason, names in _ROWS if reason != "none" for name in names}
"""Other directives of stock assemblers, each with the reason why it is refused."""

_NOP = b"\x13\0\0\0"
_MAX_SUBSECTION = 8192  # GNU as's limit; larger numbers after .data are addresses, as in RARS
_PAGE_POWER = PAGE_BYTES.bit_length() - 1
_IN_ANY_SECTION = {".section", ".pushsection", ".popsection", ".previous", TEXT, DATA, BSS, ".rodata", ".end"}


class Directives:
    """The directives of a source, except those of macros and conditions."""

    def __init__(self, assembly: Assembly) -> None:
        self._assembly, self._symbols, self._sections = assembly, assembly.symbols, assembly.sections
        self._data = DataDirectives(assembly)
        alignments = [f".{name}{width}" for name in ("p2align", "balign") for width in ("", "w", "l")]
        self.directives: dict[str, Directive] = {
            **dict.fromkeys((TEXT, DATA, BSS, ".rodata"), self._enter_section),
            **dict.fromkeys((".section", ".pushsection"), self._enter_named_section),
            ".popsection": lambda name, operands: self._sections.pop(name),
            ".previous": lambda name, operands: self._sections.return_to_previous(),
            **dict.fromkeys(IGNORED, lambda name, operands: None),
            **dict.fromkeys((".equ", ".set", ".equiv"), self._equate),
            **dict.fromkeys((".align", *alignments), self._align),
            ".org": self._go_to,
            **dict.fromkeys((".comm", ".lcomm"), self._put_common),
            ".local": self._make_local,
            ".nop": lambda name, operands: self._assembly.put_instruction(name, [], ["addi x0, x0, 0"]),
            ".end": self._end,
            **dict.fromkeys((".err", ".error", ".warning"), self._report),
            **self._data.directives,
        }

    def execute(self, name: Token, operands: list[Operand], others: Sequence[str]) -> None:
        """Execute a directive, whose name is in lower case. Raises SourceError.

        others: more names to compare an unknown directive with, for the nearest names in the error
        """
        is_loaded = bool(self._sections.current.permissions)
        if name.text in self.directives:
            if is_loaded or name.text in _IN_ANY_SECTION or name.text in (".equ", ".set", ".equiv"):
                self.directives[name.text](name, operands)
            return
        if name.text in REFUSED:
            self._data.keep_room(name.text, operands)
            if name.text == ".eqv" and operands and operands[0]:
                self._symbols.assume(operands[0][0].text)
            raise name.error(f"{name.text} {REFUSED[name.text]}", [".equ"] if name.text == ".eqv" else [])
        self._sections.current.is_certain = False
        near = get_close_matches(name.text, [*self.directives, *others], MAX_NEAR)
        raise name.error(f"there is no directive {name.text}", near)

    def assign(self, name: Token, operand: Operand, is_once: bool = False) -> None:
        """Give a name the value of an operand; for a dot, move to the operand's address in the section. Raises SourceError.

        is_once: whether it is a mistake if the name already has a value
        """
        if name.text == ".":
            self._go_to(name, [operand])
        elif name.kind is not Kind.NAME:
            raise name.error(f"{name.text} isn't a name: those begin with a letter, or with one of . _ $")
        else:
            self._symbols.assign(name, operand, self._assembly.here(), is_once)

    def _enter_section(self, name: Token, operands: list[Operand]) -> None:
        if name.text == ".rodata":
            self._sections.open(name, name.text, [])
        else:
            self._sections.enter(self._sections.named(name.text))
        if operands and self._assembly.constant(operands[0]) > _MAX_SUBSECTION:
            raise operands[0][0].error(
                f"{name.text} takes no address: the lab chooses it, so write {name.text} by itself"
            )
        if operands:
            raise operands[0][0].error(f"{name.text} has no parts here: write .section with a name of its own")

    def _enter_named_section(self, name: Token, operands: list[Operand]) -> None:
        if not operands:
            raise name.error(f"{name.text} takes the name of a section")
        first, *others = operands
        which = "".join(
            token.string().decode("utf-8", "replace") if token.kind is Kind.STRING else token.text for token in first
        )
        if name.text == ".pushsection":
            self._sections.push()
        if not self._sections.open(first[0], which, others):
            flags = f'{which}, "aw"'
            message = f"{which} is taken as data: without flags stock tools load nothing of it"
            self._assembly.warn(first[0].error(message, [flags] if len(first) == 1 else []))

    def _equate(self, name: Token, operands: list[Operand]) -> None:
        check_count(name, operands, 2)
        if len(operands[0]) != 1 or operands[0][0].kind is not Kind.NAME:
            raise operands[0][0].error(f"{name.text} takes a name and a number")
        self.assign(operands[0][0], operands[1], name.text == ".equiv")

    def _align(self, name: Token, operands: list[Operand]) -> None:
        """Align the next byte to a multiple of 2^n or of n bytes, where n is the first operand. The directive's name says which.

        The second operand is the value of the bytes that are skipped. The third operand is the largest number of bytes to skip: if
        more are needed, nothing is aligned. Both may be missing.
        """
        empty = {number for number, operand in enumerate(operands) if not operand}
        check_count(name, operands, 1, 3)
        size = self._alignment(name, operands[0])
        section = self._sections.current
        most = self._assembly.constant(operands[2]) if len(operands) > 2 else PAGE_BYTES
        section.alignment, padding = max(section.alignment, size), -section.size % size
        if padding > most:
            return
        section.is_certain = section.is_certain or size % 4 == 0
        width = {"w": 2, "l": 4}.get(name.text[-1] if name.text not in (".align", ".balign") else "", 1)
        fill = self._assembly.constant(operands[1]) if len(operands) > 1 and 1 not in empty else None
        if fill is not None:
            if padding % width:
                raise name.error(f"the {padding} bytes up to there aren't a multiple of the {width} bytes of the value")
            data = (fill % (1 << 8 * width)).to_bytes(width, "little") * (padding // width)
        else:
            data = bytes(padding % 4) + _NOP * (padding // 4)
        is_written = fill or (fill is None and "x" in section.permissions)
        self._assembly.put(name, padding, partial(bytes, data) if is_written else None)

    def _alignment(self, name: Token, operand: Operand) -> int:
        """Return the number of bytes by which the next address must be divisible. Raises SourceError."""
        number = self._assembly.constant(operand)
        if name.text.startswith((".balign", ".comm", ".lcomm")):
            if not 1 <= number <= PAGE_BYTES or number & number - 1:
                what = "" if name.text.startswith(".balign") else "an alignment that is "
                raise operand[0].error(f"{name.text} takes {what}a power of two from 1 to {PAGE_BYTES}")
            return number
        if not 0 <= number <= _PAGE_POWER:
            raise operand[0].error(f"{name.text} n aligns to 2^n bytes, with n from 0 to {_PAGE_POWER}")
        return 1 << number

    def _go_to(self, name: Token, operands: list[Operand]) -> None:
        """Move to a later offset in the section. The second operand is the value of the bytes that are skipped; by default it is 0."""
        check_count(name, operands, 1, 2)
        section = self._sections.current
        value = self._symbols.evaluate(operands[0], self._assembly.here())
        if value.sections and value.section is not section:
            raise operands[0][0].error("this isn't a place in this section")
        if value.number < section.size:
            raise operands[0][0].error(
                f"this is {section.size - value.number} bytes back: the section goes on after its last byte"
            )
        fill = self._assembly.constant(operands[1]) % 256 if len(operands) > 1 else 0
        size = value.number - section.size
        self._assembly.put(name, size, partial(bytes, bytes([fill]) * size) if fill else None)

    def _put_common(self, name: Token, operands: list[Operand]) -> None:
        """Reserve bytes for a name in .bss, or for .comm after all of .bss. The operands are the name, the size and the alignment."""
        check_count(name, operands, 2, 3)
        label, size = operands[0][0], self._assembly.constant(operands[1])
        if label.kind is not Kind.NAME or len(operands[0]) != 1 or size < 0:
            raise label.error(f"{name.text} takes a name, how many bytes it has, and its alignment")
        alignment = self._alignment(name, operands[2]) if len(operands) > 2 else 1
        is_common = name.text == ".comm" and label.text not in self._assembly.locals
        section = self._sections.common(alignment) if is_common else self._sections.named(BSS)
        if len(operands) < 3 and is_common:
            alignment = min(16, 1 << max(size, 1).bit_length() - 1)  # as GNU as has it
            section = self._sections.common(alignment)
        current = self._sections.current
        self._sections.current = section
        try:
            section.alignment = max(section.alignment, alignment)
            self._assembly.put(name, -section.size % alignment)
            self._symbols.define(label, self._assembly.here())
            self._assembly.put(name, size)
        finally:
            self._sections.current = current

    def _make_local(self, name: Token, operands: list[Operand]) -> None:
        self._assembly.locals.update(operand[0].text for operand in operands)

    def _end(self, name: Token, operands: list[Operand]) -> None:
        self._assembly.is_ended = True

    def _report(self, name: Token, operands: list[Operand]) -> None:
        """Report a mistake or a warning that the source's author wrote."""
        text = b"".join(token.string() for token in operands[0]).decode("utf-8", "replace") if operands else ""
        error = name.error(text or f"{name.text} is executed here")
        if name.text == ".warning":
            self._assembly.warn(error)
        else:
            raise error
