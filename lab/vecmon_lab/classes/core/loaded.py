"""The source, program or image in a seat's machine."""

from collections.abc import Callable
from dataclasses import dataclass, field

from ...assembler.source import Program
from ...compilers.compiled import CompiledProgram
from ...page.state import SourceNames
from ...page.variables import shown_variables
from .languages import SourceText

UNNAMED: SourceNames = {"labels": {}, "lines": {}}


@dataclass(frozen=True)
class TriedCase:
    """A case of an exercise that a seat tries.

    exercise: the name of the exercise; number: the place of the case among the exercise's cases, from 0 on
    commands: a function from the entry address of a program to the commands that set the case up
    """

    exercise: str
    number: int
    commands: Callable[[int], list[str]]


@dataclass(eq=False)
class Loaded:
    """The contents with which a seat's machine has begun.

    starts: how often the machine has begun; states with another number belong to another program
    is_image: whether it has begun with an image
    source, program: the source in the machine, which may be empty, and its program
    names: the names in the program, for pages: labels, variables, and the lines of the source with their addresses
    case: the case of an exercise that is tried; None without one
    """

    starts: int = 0
    is_image: bool = False
    source: SourceText = SourceText()
    program: Program | None = None
    names: SourceNames = field(default_factory=UNNAMED.copy)
    case: TriedCase | None = None

    def next_start(self, is_image: bool) -> "Loaded":
        """Return the contents of the machine that begins after this one, without a source. is_image: whether it has an image"""
        return Loaded(self.starts + 1, is_image)

    def take(self, source: SourceText, program: Program) -> None:
        """Record the source in the machine, its program, and the names in the program."""
        self.source, self.program = source, program
        self.names = {"labels": program.names(), "lines": program.source_lines(source.text)}
        if not isinstance(program, CompiledProgram):
            self.names["line_numbers"], self.names["stops"] = program.line_numbers(), program.line_stops()
            self.names["aliases"] = program.aliases()
        if program.data:
            self.names["data"] = {f"{at:x}": {"type": run.type, "count": run.count} for at, run in program.data.items()}
        if isinstance(program, CompiledProgram) and program.rows:
            self.names["starts"], self.names["stops"] = program.line_starts(), program.line_stops()
            self.names["variables"] = shown_variables(program.variables)
