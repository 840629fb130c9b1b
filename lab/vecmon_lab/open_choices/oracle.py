"""A program as the search asks it: how its runs end, and where their instructions are."""

from collections.abc import Hashable, Sequence

from ..runs.choices import Choices
from ..runs.open_runs import OpenProgram
from .effects import LoggedInstruction, commit_of
from .requests import length_requests


class ProgramOracle:
    """The ends of a program's runs.

    is_undecided: whether a run ran out of ticks that it may have needed, and was taken to end as the one without choices
    """

    def __init__(self, program: OpenProgram) -> None:
        self.program, self.is_undecided = program, not program.outcome().has_ended

    def end(self, choices: Choices) -> Hashable:
        """Return how a run ends."""
        outcome, base = self.program.outcome(choices), self.program.outcome()
        if not outcome.has_ended and base.has_ended and self.program.is_limited:
            self.is_undecided = True
            outcome = base
        return (base if outcome.is_like(base) else outcome).compared

    def instructions(self, choices: Choices) -> int:
        """Return the number of instructions of a run."""
        return self.program.outcome(choices).instructions

    def place(self, choices: Choices, instruction: int) -> Hashable:
        """Return the address of an instruction of a run."""
        found = self.instruction(choices, instruction)
        return found.pc if found else instruction

    def requests(self, choices: Choices) -> Sequence[tuple[int, int]]:
        """Return where a run chooses lengths: the first and the last instruction of each pair of AVL and VLMAX."""
        with self.program.logged(choices) as lines:
            requests = [*length_requests(lines, self.program.initial_state.registers)]
        if any(each.avl is None for each in requests):  # it may be the AVL of any other request
            return [(requests[0].instruction, requests[-1].instruction)]
        found = dict[tuple[int | None, int], tuple[int, int]]()
        for each in requests:
            pair = each.avl, each.limit
            found[pair] = found.get(pair, (each.instruction, 0))[0], each.instruction
        return [*found.values()]

    def instruction(self, choices: Choices, number: int) -> LoggedInstruction | None:
        """Return the instruction of a number in a run; None if the run is shorter."""
        if number < 1:
            return None
        with self.program.logged(choices, number, number) as lines:
            commit = commit_of(next(lines, ""))
        return LoggedInstruction(number, commit.pc, commit.word or 0) if commit else None
