"""The analysis of a source for an editor: its program, its words, the vector types before its instructions, and its illegal instructions."""

import functools
from collections.abc import Iterator, Sequence
from dataclasses import dataclass, replace

from ..assembler.assembly import FileReader
from ..assembler.blocks import MAX_CHARACTERS
from ..assembler.inputs import with_inputs
from ..assembler.instruction import Statement
from ..assembler.source import read_source
from ..assembler.statements import without_comments
from ..assembler.trial import Trial
from ..guest.jumps import jump_target
from ..guest.vector_flow import JAL, START, UNKNOWN, VectorState
from ..instructions.accesses import vector_instruction
from ..instructions.reasons import illegal_reasons
from ..instructions.words import SUPPORTED, VectorInstruction
from ..machine.answers import VILL, ControlRegisters
from .names import Occurrence, occurrences
from .source_flow import flow_of_source


@dataclass(frozen=True)
class Illegal:
    """An instruction that is illegal under every vector type that may be in force before it.

    statement: the instruction
    types: the vector types that may be in force; None if the instruction is illegal under every vector type
    reasons: the reasons why the instruction is illegal, as sentences
    """

    statement: Statement
    types: frozenset[int] | None
    reasons: Sequence[str]


class Analysis:
    """An assembler source and the results of its analysis.

    lines: the lines of the source; plain: the same lines without comments
    program: the program of the source. Its mistakes include those that only the machine finds.
    words: the machine word of each instruction, by the instruction's address; instructions with a mistake are missing
    flow: the vector type and length that may be in force before each instruction
    by_line: the statements of the program by the number of their line, from 1
    """

    def __init__(
        self, text: str, trial: Trial, files: FileReader | None = None, most_made: int = MAX_CHARACTERS
    ) -> None:
        """text: the source; trial: tries the source's instructions on a machine

        files: reads the files that the source includes; None if the source may not include files
        most_made: the largest number of characters that macros and repetitions may make

        Raises TooMuchMade if macros and repetitions make more characters.
        """
        self.lines = text.split("\n")
        self.plain = without_comments(text)[0].split("\n")
        read = with_inputs(read_source(text, files=files, most_made=most_made), text)
        self.words = trial.words(read)
        self.program = replace(read, mistakes=trial.mistakes(read))
        self.flow = flow_of_source(self.program, self.words, self.plain)
        self.by_line: dict[int, list[Statement]] = {}
        for statement in read.statements:
            self.by_line.setdefault(statement.line, []).append(statement)

    @functools.cached_property
    def names(self) -> list[Occurrence]:
        """The places of the names that the source defines."""
        return occurrences(self.lines, self.plain)

    @functools.cached_property
    def called(self) -> frozenset[int]:
        """The addresses to which `jal` instructions jump as calls, which save a return address."""
        calls = (
            jump_target(address, word) for address, word in self.words.items() if word & 0xF80 and word & 0x7F == JAL
        )
        return frozenset(target for target in calls if target is not None)

    def state(self, statement: Statement) -> VectorState | None:
        """Return the vector state before an instruction; None if no path through the program reaches the instruction."""
        return self.flow.states.get(statement.address)

    def state_before_line(self, number: int) -> VectorState:
        """Return the vector state at the start of a line: the state after the last instruction above this line.

        The instructions of the line itself aren't used, since the user may still be typing them. number: the line's number, from 1
        """
        above = [each for each in self.program.statements if each.line < number]
        last = max(above, key=lambda each: each.line, default=None)
        if last is None:
            return self.flow.states.get(self.program.entry, START)
        return self.flow.after(last.address) if last.address in self.flow.states else UNKNOWN

    def instruction(self, statement: Statement) -> VectorInstruction | None:
        """Return the vector instruction of a statement, decoded under the vector type in force before it.

        Return None if the statement isn't a vector instruction, or if the vector type is unknown, vill, or different on the paths to it.
        """
        state, word = self.state(statement), self.words.get(statement.address)
        if state is None or state.vtype is None or word is None or state.vtype >> 63:
            return None
        return vector_instruction(word, state.vtype)

    @functools.cached_property
    def illegal(self) -> list[Illegal]:
        """The instructions that are illegal under every vector type that may be in force."""
        return [*self._illegal()]

    def _illegal(self) -> Iterator[Illegal]:
        """Yield the elements of `illegal`."""
        for statement in self.program.statements:
            word, state = self.words.get(statement.address), self.state(statement)
            if word is None or state is None and statement.text.startswith(".word"):  # this word may be data
                continue
            if always := _reasons_always(word):
                yield Illegal(statement, None, always)
            elif state and state.types and (reasons := _reasons(word, tuple(sorted(state.types)), True)):
                yield Illegal(statement, state.types, reasons)


def _reasons_always(word: int) -> Sequence[str]:
    """Return the reasons why a word is illegal under every supported type and under vill; empty if it is legal under one of these types."""
    reasons = _reasons(word, tuple(SUPPORTED))
    return reasons if reasons and _reasons(word, (VILL,)) else ()


@functools.lru_cache(maxsize=1 << 14)
def _reasons(word: int, types: tuple[int, ...], takes_first: bool = False) -> Sequence[str]:
    """Return the reasons why a word is illegal under each of some vector types; empty if the word is legal under one of them.

    These are the reasons that are the same under all types.

    takes_first: whether to return the reasons under the first type if no reason is the same under all types
    """
    every = list[list[str]]()
    for vtype in types:
        reasons = illegal_reasons(word, ControlRegisters(vtype=vtype))
        if not reasons:
            return ()
        every.append(reasons)
    common = [reason for reason in every[0] if all(reason in reasons for reasons in every)]
    return common or (every[0] if takes_first else ())
