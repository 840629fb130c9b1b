"""Programs in slices of each length, compared with slices of one tick."""

import pathlib
import re
from collections.abc import Iterator
from dataclasses import dataclass

from tests.isolation.draws import Draws
from tests.isolation.grammar import Grammar
from tests.program import difference, run

DATA = pathlib.Path(__file__).parent / "data"

LONGEST = 64  # ticks of a slice, and the most ticks after which runs are compared
ROUNDS = 6  # how often a program is set up with other registers and memory
EARLY_STOPS = 3  # how often a program that stopped goes on before the page that it wants is mapped
LATE_STOPS = 8  # and how often from then on: three times through the program, with two breakpoints
MAX_TICKS = 20_000  # more than a program takes from a stop to the next one
AFTER_STOP = ("regs", "vcsr", "trace")
MAPPED = "map 23000 1 rw"  # the page that a program wants

PROGRAMS = ("unit-stride", "strided", "indexed", "segments", "fault-only-first")
"""The programs: rules of the grammar.

x5 has a vector length, x9 how often the program is gone through, x10 and x12 to x15 have addresses, x11 a stride. They
are loads and stores with unit stride, with masks, of other widths than the vector type's, of whole registers and of
masks; strided ones of several widths; indexed ones, whose loads write the registers of their indices; segments of
two and three fields; and fault-only-first loads that each continue after the previous one.
"""


@dataclass
class Counts:
    """How many runs were compared; how many slices all runs took, and how often programs stopped there, and faulted."""

    runs: int = 0
    slices: int = 0
    stops: int = 0
    faults: int = 0

    def add(self, printed: str) -> None:
        """Counts the slices of some runs, by their answers."""
        self.slices += sum(map(int, re.findall(r"\n\* granted (\d+)", printed)))
        self.stops += sum(printed.count(f"\n1 {reason} ") for reason in ("break", "ebreak", "exit", "outfull", "fault"))
        self.faults += printed.count("\n1 fault ")


def compare_program(program: pathlib.Path, grammar: Grammar, name: str) -> str:
    """Compares the runs of a program, and returns their number. Raises AssertionError where two differ."""
    counts = Counts()
    for seed in range(ROUNDS):
        before = grammar.text(Draws(seed), name).split("\n")
        reference = _runs(program, before, 1, counts)
        for quantum in range(2, LONGEST + 1):
            for place, expected in enumerate(_runs(program, before, quantum, counts)):
                counts.runs += 1
                differs = difference(expected, reference[place * quantum])
                assert not differs, f"{name}, seed {seed}, {place} slices of {quantum} (0: all): {differs}"
    return f"{name}: {counts.runs} runs, {counts.slices} slices, {counts.stops} stops, {counts.faults} faults\n"


def _runs(program: pathlib.Path, before: list[str], quantum: int, counts: Counts) -> list[str]:
    """The answers to a user in runs of a program to its end, and then after each number of slices from one on."""
    after = (DATA / "leaving").read_text("ascii").splitlines()
    scripts = [_whole(quantum), *(["1 go", f"* slices {slices}"] for slices in range(1, LONGEST // quantum + 1))]
    lines = [line for script in scripts for line in (*_commands(before), *script, *_commands(after))]
    expected = run(program, ["--quantum", str(quantum)], "".join(f"{line}\n" for line in lines), DATA).stdout
    counts.add(expected)
    *runs, rest = expected.split("\n1 left\n")
    assert len(runs) == len(scripts) and not rest, "a run doesn't come to its end"
    assert runs[0].count("\n* granted 0\n* granted 0\n") >= EARLY_STOPS + LATE_STOPS, "a program doesn't stop"
    return [re.sub(r"\n\* granted \d+", "", expected) for expected in runs]


def _commands(lines: list[str] | tuple[str, ...]) -> Iterator[str]:
    """Commands as lines of user 1."""
    return (f"1 {line}" for line in lines)


def _whole(quantum: int) -> list[str]:
    """The lines that run a program to its end, from stop to stop; two grants behind each stop find nothing to run."""
    slices = ["* slices 1000"] * (MAX_TICKS // (1000 * quantum) + 1)
    on = ["1 go", *slices, "* run 1", "* run 1", *_commands(AFTER_STOP)]
    return [*on * EARLY_STOPS, *_commands([MAPPED]), *on * LATE_STOPS]
