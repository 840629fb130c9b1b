"""All that is compared, and how much that was."""

import pathlib
from collections import Counter
from collections.abc import Iterator

from tests.isolation import hostile, mixing
from tests.isolation.grammar import Grammar
from tests.isolation.machines import DATA
from tests.isolation.slicing import PROGRAMS, compare_program

GRAMMAR = Grammar((DATA / "grammar").read_text("ascii"))
HOSTILE_ROUNDS = 100


def slices_of_each_length(program: pathlib.Path) -> Iterator[str]:
    """Compares slices of each length; a line for each program. Raises AssertionError for a difference."""
    return (compare_program(program, GRAMMAR, name) for name in PROGRAMS)


def eight_users(program: pathlib.Path, rounds: int) -> Iterator[str]:
    """Compares one machine with eight, and counts the answers by kinds; a line each.

    Raises AssertionError for a difference.
    """
    kinds = mixing.commands("kinds")
    answered = Counter[str]()
    for quantum in mixing.QUANTA:
        line, transcript = mixing.compare(program, GRAMMAR, quantum)
        answered += _by_kinds(transcript, kinds)
        yield line
    *round_lines, line = hostile.compare(program, GRAMMAR, rounds)
    for transcript in round_lines:
        answered += _by_kinds(transcript, kinds)
    yield line
    yield from (f"{answered[kind]} {kind}\n" for kind in kinds)


def _by_kinds(transcript: str, kinds: list[str]) -> Counter[str]:
    """How many lines there are of each kind: the first one as which they begin behind their user's digit."""
    words = (line[2:] for line in transcript.split("\n"))
    return Counter(next((kind for kind in kinds if line.startswith(kind)), "") for line in words)
