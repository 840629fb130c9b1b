"""Counts that follow from the records, in stored outputs of tests, for `tools/instructions`."""

import re
from collections.abc import Iterator, Sequence
from dataclasses import dataclass

from tools.records.instruction_parts import Part, PartError, Place
from tools.records.instruction_records import Record
from tools.records.instruction_tests import stepped_text, tested_arrays

KERNELS, FAULTS = "crates/test_kernels/stdout", "crates/test_faults/stdout"
LINES_OF_INSTRUCTION = 3
"""The lines that `test_faults` executes for each instruction."""


@dataclass(frozen=True)
class Compared:
    """The lines of `test_kernels` for the operations of an array, each with the number of results of the first line.

    Raises PartError from `place_in` unless the file has one run of such lines.
    """

    path: str
    names: Sequence[str]

    def place_in(self, text: str) -> Place:
        """The place of the lines in a text."""
        names = "|".join(map(re.escape, self.names))
        found = [*re.finditer(rf"(?:^(?:{names}): .*\n)+", text, re.MULTILINE)]
        if len(found) != 1:
            raise PartError(
                f"{self.path}: {len(found)} runs of lines have names such as {self.names[0]}, instead of one"
            )
        return Place(*found[0].span())

    def written(self, old: str) -> str:
        """The text of the part."""
        number = re.findall(r": (\d+) ", old)[0]
        return "".join(f"{name}: {number} compared, 0 differ\n" for name in self.names)


@dataclass(frozen=True)
class Stepped:
    """The line of `test_faults` for commands and instructions: with the number of instructions, its lines grow.

    instructions: the number of instructions by the records
    """

    path: str
    instructions: int

    def place_in(self, text: str) -> Place:
        """The place of the line in a text. Raises PartError."""
        found = [*re.finditer(r"^commands without memory: .*\n", text, re.MULTILINE)]
        if len(found) != 1:
            raise PartError(f"{self.path}: {len(found)} lines start with 'commands without memory: ', instead of one")
        return Place(*found[0].span())

    def written(self, old: str) -> str:
        """The text of the part."""
        lines, instructions = map(int, re.findall(r"\d+", old)[:2])
        lines += LINES_OF_INSTRUCTION * (self.instructions - instructions)
        return f"commands without memory: {lines} lines, {self.instructions} instructions by themselves, 0 differ\n"


def output_parts(records: Sequence[Record]) -> Iterator[Part]:
    """The lines in the stored outputs of `test_kernels` and `test_faults`."""
    for names in tested_arrays(records).values():
        yield Compared(KERNELS, names)
    yield Stepped(FAULTS, len(stepped_text(records).splitlines()))
