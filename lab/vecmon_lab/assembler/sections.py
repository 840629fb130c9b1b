"""The sections of a source, the places of their bytes, and the current section, to which statements add bytes.

The sections of one kind follow one another, as in a linker's default layout: code, constants, data, zeros. Each kind begins at a page.
"""

import re
from collections.abc import Iterator

from ..instructions.accesses import PAGE_BYTES
from ..machine.start_state import START_PAGES
from .line import Kind, Operand, Token
from .value import Section, Value

USER_PAGES = 256
PROGRAM_PAGES = USER_PAGES - START_PAGES
TOO_LARGE = f"here the program grows beyond {PROGRAM_PAGES} pages of {PAGE_BYTES} bytes, all that a program has next to its stack"
TEXT, DATA, BSS = ".text", ".data", ".bss"
_Kind = tuple[str, bool]  # permissions, and whether it has only zeros
_ORDER: list[_Kind] = [("rx", False), ("rwx", False), ("r", False), ("rw", False), ("rw", True)]
_NAMED = [
    (re.compile(pattern), kind)
    for pattern, kind in (
        (r"\.(text|init|fini)(\..*)?", ("rx", False)),
        (r"\.(s?rodata|srodata|eh_frame|gcc_except_table)(\..*)?", ("r", False)),
        (r"\.(s?data|(init|fini|preinit)_array)(\..*)?", ("rw", False)),
        (r"\.s?bss(\..*)?", ("rw", True)),
        (r"\.(note|comment|debug|stab|riscv\.attributes|gnu|llvm)[\w.-]*", ("", False)),
    )
]
NO_THREADS = "thread-local storage isn't in this machine: a program has one hart"


class Sections:
    """The sections of a source by name, and the current section.

    current: the section to which statements add bytes

    end: the address after the last instruction, once sections have their bases; 0 if other bytes follow the last instruction
    """

    def __init__(self) -> None:
        self._sections = {TEXT: Section("rx"), DATA: Section("rw"), BSS: Section("rw", True)}
        self.current = self._previous = self._sections[TEXT]
        self._stack: list[tuple[Section, Section]] = []
        self._common = Section("rw", True)
        self.end = 0

    def here(self) -> Value:
        """Return the address of the next byte in the current section."""
        return Value(self.current.size, ((self.current, 1),))

    def enter(self, section: Section) -> None:
        """Make a section the current one."""
        self._previous, self.current = self.current, section

    def named(self, name: str) -> Section:
        """Return one of the sections .text, .data and .bss."""
        return self._sections[name]

    def common(self, alignment: int) -> Section:
        """Return the section for the data of .comm, which is after .bss. Align its next byte.

        alignment: a power of two, by which the address of the next byte becomes divisible
        """
        self._common.size += -self._common.size % alignment
        self._common.alignment = max(self._common.alignment, alignment)
        return self._common

    def push(self) -> None:
        """Save the current section, for `pop`."""
        self._stack.append((self.current, self._previous))

    def pop(self, name: Token) -> None:
        """Return to the section that the last `push` saved. Raises SourceError if there is none."""
        if not self._stack:
            raise name.error(f"{name.text} has no .pushsection before it")
        self.current, self._previous = self._stack.pop()

    def return_to_previous(self) -> None:
        """Make the section that was current before the present one the current section again."""
        self.enter(self._previous)

    def open(self, which: Token, name: str, operands: list[Operand]) -> bool:
        """Make the section with a name the current one, and create it if it doesn't exist. Raises SourceError.

        Return False if the section is new and has an unknown name and no flags. Here it gets data, but stock tools don't load it.

        which: the token to which errors point; operands: the flags and the type, as .section has them after the name
        """
        is_new = name not in self._sections
        kind = _kind_of(which, name, operands)
        if is_new:
            permissions, zeros = kind or ("rw", False)
            self._sections[name] = Section(permissions, zeros)
        self.enter(self._sections[name])
        return not is_new or kind is not None

    def filled(self) -> list[Section]:
        """Return the sections that have bytes, in the order of their addresses."""
        sections = [*self._sections.values(), self._common]
        return [each for kind in _ORDER for each in sections if (each.permissions, each.zeros) == kind and each.size]

    def pages(self) -> int:
        """Return the number of pages of all sections, without the bytes that alignment adds between two sections."""
        sizes = dict.fromkeys(_ORDER, 0)
        for each in (*self._sections.values(), self._common):
            if each.permissions:
                sizes[each.permissions, each.zeros] += each.size
        return sum(-(-size // PAGE_BYTES) for size in sizes.values())

    def place(self, origin: int) -> Iterator[str]:
        """Give all sections their base addresses, and yield the commands that map their pages.

        After the last instruction, there is room for one more.

        origin: the address of the first section, a multiple of the size of a page
        """
        for kind in _ORDER:
            start, last = origin, Section("")
            for section in (*self._sections.values(), self._common):
                if (section.permissions, section.zeros) == kind:
                    origin += -origin % section.alignment
                    section.base = origin
                    origin += section.size
                    last = section if section.size else last
            if kind == _ORDER[0] and last.code_end == last.size > 0:
                self.end, origin = origin, origin + 4
            pages = -(-(origin - start) // PAGE_BYTES)
            if pages:
                yield f"map {start:x} {pages} {kind[0]}"
            origin = start + pages * PAGE_BYTES


def _kind_of(which: Token, name: str, operands: list[Operand]) -> _Kind | None:
    """Return the kind of a section by its flags, or if it has none, by its name; None if the name is unknown as well.

    Raises SourceError for thread-local storage.

    which: the token to which errors point; operands: as in `Sections.open`
    """
    if re.match(r"\.t(data|bss|comm)\b", name):
        raise which.error(NO_THREADS)
    if operands and operands[0][0].kind is Kind.STRING:
        flags = operands[0][0].string().decode("utf-8", "replace")
        if "T" in flags:
            raise operands[0][0].error(NO_THREADS)
        permissions = "".join(("r", "w" * ("w" in flags), "x" * ("x" in flags))) if "a" in flags else ""
        is_empty = "nobits" in [token.text for token in (operands[1] if len(operands) > 1 else [])]
        return (permissions, is_empty and permissions == "rw")
    return next((kind for pattern, kind in _NAMED if pattern.fullmatch(name)), None)
