"""Rounds of eight users of whom nobody acts in good faith, at one machine and at machines of their own."""

import pathlib
from collections.abc import Iterator

from tests.isolation.draws import Draws
from tests.isolation.grammar import Grammar
from tests.isolation.machines import USERS, Machines
from tests.isolation.mixing import QUANTA, commands

LINES = 80  # of a script, without those that make a start
COMMANDS = 24  # how many commands a user has
STANDINGS = 3  # absent, stopped and running
LONGEST_LINE = 1024  # bytes


def compare(program: pathlib.Path, grammar: Grammar, rounds: int) -> Iterator[str]:
    """Mix hostile scripts; yield the answers, a text for each round, and then a line with the number of comparisons.

    Raises AssertionError for a difference.
    """
    came: set[tuple[int, str]] = set()  # the commands, each with its user's state
    count = slices = 0
    for seed in range(rounds):
        with Machines(program, QUANTA[seed % len(QUANTA)]) as machines:
            standings = _compare_round(machines, grammar, Draws(seed))
            shown, differs = machines.difference()
            assert not differs, f"round {seed}: {differs}"
            came |= {(command, list_[0].split()[1 + user].partition(":")[2]) for command, user, list_ in standings}
            count, slices = count + machines.commands, slices + machines.slices
        yield shown
    all_of_them = f"{len(came)} of {COMMANDS * STANDINGS} commands by standings"
    yield f"hostile lines, {all_of_them}, {rounds} rounds: {count} commands, {slices} slices\n"


def _compare_round(machines: Machines, grammar: Grammar, draws: Draws) -> list[tuple[int, int, list[str]]]:
    """A script of each user, and then all that a user has. The commands, with their users and the list before them."""
    standings = []
    for user in USERS[:-1]:
        for command in commands("start"):
            machines.command(user, command)
    for _ in range(LINES):
        for user in USERS:
            shown = machines.operators(user)
            line, place = make_line(draws, grammar, user)
            machines.line(user, line)
            if place is not None:
                standings.append((place, user, shown))
        match draws.below(6):
            case 0:
                machines.slices_in_turn(1 + draws.below(20))
            case 1:
                machines.run(1 + draws.below(len(USERS)))
    machines.show(commands("everything"))
    return standings


def make_line(draws: Draws, grammar: Grammar, user: int) -> tuple[str, int | None]:
    """A line, and the place of its command among all commands, if it is the user's.

    It is a command with arguments, good or bad, behind what may be the user's digit; or a line that the operator is
    refused.
    """
    if draws.below(40) == 0:
        return grammar.text(draws, "operator"), None
    is_nobodys = draws.below(40) == 0
    prefix = grammar.text(draws, "prefix") if is_nobodys else f"{user} "
    place, words = grammar.choice(draws, "command")
    line, is_spoiled = _spoiled(draws, prefix + _command(draws, grammar, words))
    return line, None if is_spoiled or is_nobodys else place


def _command(draws: Draws, grammar: Grammar, words: str) -> str:
    """A command: `words` are its name and the rules of its arguments.

    The first argument may be left out, and one may be added that nobody asked for.
    """
    is_missing = draws.below(16) == 0
    name, *rules = words.split()
    arguments = "".join(grammar.text(draws, part) for rule in rules[is_missing:] for part in ("space", rule))
    return name + arguments + grammar.text(draws, "tail")


def _spoiled(draws: Draws, line: str) -> tuple[str, bool]:
    """A line that may be too long, or no text; and whether it is, which is seldom."""
    match draws.below(60):
        case 0:
            return line[:LONGEST_LINE].ljust(LONGEST_LINE), True
        case 1:
            return line[: LONGEST_LINE + 1].ljust(LONGEST_LINE + 1), True
        case 2:
            length = LONGEST_LINE + draws.below(4096)
            return line[:length].ljust(length, "a"), True
        case 3:
            number = draws.double_word() | 0x8080_8080_8080_8080
            return line + number.to_bytes(8, "little").decode("latin-1"), True
        case 4:
            return line + "\0", True
    return line, False
