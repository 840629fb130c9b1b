"""Values in a source: numbers, and addresses as offsets in sections. Sections get their bases at the end."""

from collections import Counter
from collections.abc import Callable, Iterator
from dataclasses import dataclass, field
from typing import NamedTuple

from ..instructions.accesses import LINE_BYTES, PAGE_BYTES


@dataclass(eq=False)
class Section:
    """A section of a source.

    permissions: such as `rx`; "" if the section isn't loaded, such as .note sections
    zeros: whether the section can have only zeros
    size: the number of bytes so far; base: the address of the first byte, once sections have their bases
    alignment: the number of bytes by which the base must be divisible
    is_certain: whether the size since the last alignment is known. After a refused directive of unknown size, it isn't
    code_end: the offset after the last instruction; 0 if there are no instructions
    contents: functions that return bytes once sections have their bases, each after the offset of its first byte
    """

    permissions: str
    zeros: bool = False
    size: int = 0
    base: int = 0
    alignment: int = 1
    is_certain: bool = True
    code_end: int = 0
    contents: list[tuple[int, Callable[[], bytes]]] = field(default_factory=list)  # all other bytes are 0

    def pages(self) -> int:
        """Return the number of pages that the section needs, if it starts at a page."""
        return -(-self.size // PAGE_BYTES)

    def pokes(self) -> Iterator[str]:
        """Yield the commands that write the section's bytes, except those that would write only zeros. Raises SourceError.

        Call this once sections have their bases.
        """
        runs: list[tuple[int, bytearray]] = []
        for offset, make in self.contents:
            if not runs or runs[-1][0] + len(runs[-1][1]) != offset:
                runs.append((offset, bytearray()))
            runs[-1][1].extend(make())
        for offset, run in runs:
            for start in range(0, len(run), LINE_BYTES):
                piece = run[start : start + LINE_BYTES]
                if any(piece):
                    yield f"poke {self.base + offset + start:x} {piece.hex()}"


class Value(NamedTuple):
    """A number, or the sum of a number and of multiples of sections' base addresses.

    sections: the sections, each with the factor of its base address, such as 1 or -1
    """

    number: int
    sections: tuple[tuple[Section, int], ...] = ()

    @property
    def is_number(self) -> bool:
        """Whether the value is known before sections have their bases."""
        return not self.sections

    @property
    def section(self) -> Section | None:
        """The section, if the value is the address of an offset in one section; otherwise None."""
        return self.sections[0][0] if [count for _, count in self.sections] == [1] else None

    @property
    def is_difference(self) -> bool:
        """Whether the value is the distance between addresses in two sections."""
        return sorted(count for _, count in self.sections) == [-1, 1]

    def plus(self, other: "Value", sign: int = 1) -> "Value":
        """Return the sum of two values; their difference if `sign` is -1."""
        total = Counter(dict(self.sections))
        for section, count in other.sections:
            total[section] += sign * count
        sections = tuple((section, count) for section, count in total.items() if count)
        return Value(self.number + sign * other.number, sections)

    def resolved(self) -> int:
        """Return the number or the address, once sections have their bases."""
        total = self.number
        for section, count in self.sections:
            total += count * section.base
        return total
