"""Rows of the source around an instruction, as the console lists them."""

import contextlib
import pathlib
from collections.abc import Iterator, Mapping
from dataclasses import dataclass

from .. import LabError
from ..compilers.compiler import RUNTIME
from .names import Names

LINES_BEFORE, LINES = 4, 10  # source lines before the requested one, and in total


@dataclass(frozen=True)
class OwnSource:
    """A source that the console has assembled.

    path: the path of its file; text: its text when it was assembled
    lines: the line number of each instruction, by the instruction's address
    """

    path: pathlib.Path
    text: str
    lines: Mapping[int, int]


class SourceListing:
    """The source of the loaded program.

    own: the source that the console has assembled; None for an image, whose debug data names its sources
    """

    def __init__(self, names: Names) -> None:
        self.own: OwnSource | None = None
        self._names = names

    def rows(self, address: int, pc: int) -> Iterator[str]:
        """Yield rows of the source around the line of the instruction at an address. The row of the instruction at `pc` is marked.

        Raises LabError if the instruction's line isn't known, and OSError if the source can't be read.
        """
        path, number = self._line(address)
        here = None
        with contextlib.suppress(LabError):
            here = self._line(pc)
        text = self.own.text if self.own and self.own.path == path else path.read_text("utf-8", "replace")
        lines = text.removesuffix("\n").split("\n")
        first = max(0, number - 1 - LINES_BEFORE)
        for at, line in enumerate(lines[first : first + LINES], first + 1):
            yield f"{'=>' if here == (path, at) else '  '} {at:4}  {line.expandtabs()}".rstrip()

    def _line(self, address: int) -> tuple[pathlib.Path, int]:
        """Return the path of an instruction's source, and the number of the instruction's line. Raises LabError if they aren't known."""
        if self.own and address in self.own.lines:
            return self.own.path, self.own.lines[address]
        path = self.own.path if self.own else self._names.symbols.path
        name, _, number = self._names.symbols.line(address).rpartition(":")
        if not path or not name:
            raise LabError(f"no source line is known of {self._names.place(address)}")
        for folder in (path.parent, pathlib.Path(), RUNTIME):
            if (folder / name).is_file():
                return folder / name, int(number)
        raise LabError(f"the source {name} is neither next to {path.name} nor here")
