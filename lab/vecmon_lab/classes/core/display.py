"""The part of a user's state that pages show."""

from dataclasses import dataclass, field

from ...assembler.source import Program
from ...compilers.compiled import CompiledProgram, variable_rows
from ...lessons.frames import MAX_NAMED
from ...page.state import ABSENT, State, VisibleRows, WatchSet, with_rows


@dataclass(eq=False)
class Display:
    """The part of a user's state that pages show.

    shown: the state with the visible rows of memory
    watch_set: the memory, code and variables that are read after each change
    rows: chooses the rows of memory that pages show
    """

    shown: State = field(default_factory=ABSENT.copy)
    watch_set: WatchSet = field(default_factory=WatchSet)
    rows: VisibleRows = field(default_factory=VisibleRows)

    def add_rows(self, state: State) -> State:
        """Choose the visible rows of memory for a new state. Return the state with all rows that are visible."""
        self.rows.add(state)
        return self.with_rows(state)

    def with_rows(self, state: State) -> State:
        """Return a state with the visible rows."""
        return with_rows(state, self.rows.rows(self.watch_set, 1 + self.watch_set.is_compiled))

    def list_program(self, program: Program) -> None:
        """Watch a loaded program: store its end address and, if it is compiled, show its instructions and variables."""
        self.watch_set.end = program.end
        if isinstance(program, CompiledProgram):
            self.watch_set.take_compiled(program.text(), variable_rows(program.variables)[:MAX_NAMED])
