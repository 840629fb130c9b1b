"""Eight users who act in good faith on one machine, compared with private machines."""

import pathlib

from tests.isolation.draws import Draws
from tests.isolation.grammar import Grammar
from tests.isolation.machines import DATA, USERS, Machines

QUANTA = (1, 12, 100)  # ticks of a slice
LINES = 12_000  # that are mixed, the operator's among them
VISITS = 12  # how often a user enters


def commands(name: str) -> list[str]:
    """The commands that a file has."""
    return (DATA / name).read_text("ascii").splitlines()


def compare(program: pathlib.Path, grammar: Grammar, quantum: int) -> tuple[str, str]:
    """Mixes scripts of eight users. How much was compared, and what was answered.

    Raises AssertionError for a difference.
    """
    draws = Draws(quantum)
    scripts = [[line for _ in range(VISITS) for line in grammar.text(draws, "visit").split("\n")] for _ in USERS]
    left = {user: iter(script) for user, script in zip(USERS, scripts)}
    with Machines(program, quantum) as machines:
        for _ in range(LINES):
            chance = draws.below(20)
            if chance < 4:
                machines.slices_in_turn(1 + draws.below(30))
            elif chance == 4:
                machines.run(1 + draws.below(len(USERS)))
            else:
                user = 1 + draws.below(len(USERS))
                command = next(left[user], None)
                if command is not None:
                    machines.command(user, command)
        machines.show(commands("everything"))
        shown, differs = machines.difference()
        assert not differs, f"slices of {quantum}: {differs}"
        return f"slices of {quantum}: {machines.commands} commands, {machines.slices} slices\n", shown
