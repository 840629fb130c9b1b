"""The steps of a task at a machine.

A task of several turns is a generator of steps. The server executes them one at a time, and gives turns to other seats between two
steps. A program without a server executes them one after another.
"""

from collections.abc import Callable, Generator, Sequence
from dataclasses import dataclass, field
from typing import TypeVar

from ...assembler.source import Program
from ...page.state import State
from .languages import SourceText
from .seats import Done, Seat


@dataclass
class Turn:
    """A turn at the machine: the lines to execute, and the results.

    execute: executes the lines; it is called with the turn
    asker: the seat whose log shows the lines; None for lines of the clock, which no log shows
    before: lines of earlier turns of the same request; is_last: whether this is the last turn of the request
    done: executed lines with their answers; looks: answers to read-only lines
    states: the states of users that the turn may have changed, by digit: all that is known, and the part that pages show
    """

    execute: "Callable[[Turn], object]"
    asker: Seat | None = None
    before: Sequence[Done] = ()
    is_last: bool = True
    done: list[Done] = field(default_factory=list)
    looks: list[list[str]] = field(default_factory=list)
    states: dict[str, tuple[State, State]] = field(default_factory=dict)


@dataclass(frozen=True)
class MakeProgram:
    """A step that builds the program of a source, which may take seconds and needs no machine. The generator receives the program.

    is_answer: whether the source answers an exercise
    is_tried: whether the program's mistakes include those that only the machine finds
    is_typed: whether the program has all its mistakes and, if the lab assembles the source, the vector types of its lines
    """

    source: SourceText
    is_answer: bool = False
    is_tried: bool = False
    is_typed: bool = False


@dataclass(frozen=True)
class WorkApart:
    """A step that calls a function that may take seconds and needs no turn at the machine. call: the function"""

    call: Callable[[], object]


class Replay(WorkApart):
    """A part of a replay on a private machine. Several replays may run at the same time."""


@dataclass(frozen=True)
class TakeSeat:
    """A step that reserves the seat's turns for this task until the task ends."""


Returned = TypeVar("Returned")
Steps = Generator[Turn | MakeProgram | WorkApart | TakeSeat, Program | None, Returned]
"""The steps of a task, and what the task returns."""
