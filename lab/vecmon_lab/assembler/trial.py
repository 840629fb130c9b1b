"""All mistakes of a source: the mistakes that the assembler finds, and the instructions that a vecmon process refuses."""

import contextlib
import itertools
from collections.abc import Collection, Iterable, Mapping
from dataclasses import replace

from ..machine.answers import Refused, Word, read
from ..machine.process import Vecmon
from ..machine.session import TOGETHER, Session
from .assembly import FileReader
from .blocks import MAX_CHARACTERS
from .commands import explain_refusal
from .inputs import with_inputs
from .instruction import Statement, with_fitting_operand
from .source import Program, SourceError, in_order, read_source, refusal

MAX_OPERANDS = 5  # the most wrong operands that are found in one instruction
MAX_SCRIPT = 1_000_000  # the size of a trial's script in bytes, above which a new machine replaces the machine
MAX_ANSWERS = 100_000  # the most answers in the cache of a trial


def read_whole_source(
    text: str, vecmon: Vecmon, files: FileReader | None = None, most_made: int = MAX_CHARACTERS
) -> Program:
    """Return the program of a source. If the assembler finds mistakes, also try the instructions, and add those that the machine refuses.

    files, most_made: as in `read_source`
    """
    program = with_inputs(read_source(text, files=files, most_made=most_made), text)
    return replace(program, mistakes=all_mistakes(program, vecmon)) if program.mistakes else program


def read_tried_source(
    text: str, vecmon: Vecmon, files: FileReader | None = None, most_made: int = MAX_CHARACTERS
) -> Program:
    """Return the program of a source with all its mistakes: of instructions and commands that the machine refuses as well.

    files, most_made: as in `read_source`
    """
    program = with_inputs(read_source(text, files=files, most_made=most_made), text)
    return replace(program, mistakes=all_mistakes(program, vecmon) or refused_set_up(program, vecmon))


def refused_set_up(program: Program, vecmon: Vecmon) -> list[SourceError]:
    """Load a program into a new machine, and return a mistake for each command of its `#>` lines that the machine refuses."""
    if not program.set_up:
        return []
    lines = [
        f"1 {command}" for command in ("enter", *program.load_lines(), *(command for _, command in program.set_up))
    ]
    with Session(vecmon) as trial:
        answers = list(
            itertools.chain(*(trial.do_all(lines[at : at + TOGETHER]) for at in range(0, len(lines), TOGETHER)))
        )
    first = len(lines) - len(program.set_up)
    parsed = zip(program.set_up, lines[first:], map(read, answers[first:]))
    refused = ((number, line, answer) for (number, _), line, answer in parsed if isinstance(answer, Refused))
    return in_order(SourceError(number, 1, explain_refusal(line, answer)[-1]) for number, line, answer in refused)


def all_mistakes(source: Program, vecmon: Vecmon) -> list[SourceError]:
    """Return the mistakes that the assembler found in a source, and those of instructions that a new machine refuses, in order."""
    with Trial(vecmon) as trial:
        return trial.mistakes(source)


class Trial(contextlib.AbstractContextManager["Trial"]):
    """A machine that tries instructions. It caches the answers by the instructions' texts, so that each text is tried once.

    An instruction's text has distances in place of labels, so its encoding is the same at each address.
    """

    def __init__(self, vecmon: Vecmon) -> None:
        self._vecmon, self._session = vecmon, self._started(vecmon)
        self._answers: dict[str, Word | Refused] = {}

    def __exit__(self, *error: object) -> None:
        self._session.close()

    @staticmethod
    def _started(vecmon: Vecmon) -> Session:
        """Return a new session in which user 1 has a page for the instructions."""
        session = Session(vecmon)
        try:
            session.do_all(["1 enter", "1 map 0 1 rx"])
        except BaseException:
            session.close()
            raise
        return session

    def answers(self, texts: Iterable[str]) -> Mapping[str, Word | Refused]:
        """Return the machine's answers by the instruction's text: the word, or a refusal with the column of the mistake.

        They include answers for other texts that were tried before.
        """
        if len(self._answers) > MAX_ANSWERS:
            self._answers = {}
        new = [text for text in dict.fromkeys(texts) if text not in self._answers]
        for at in range(0, len(new), TOGETHER):
            if self._session.size > MAX_SCRIPT:
                self._session.close()
                self._session = self._started(self._vecmon)
            part = new[at : at + TOGETHER]
            for text, lines in zip(part, self._session.do_all([f"1 asm 0 {text}" for text in part])):
                answer = read(lines)
                assert isinstance(answer, Word | Refused)
                self._answers[text] = answer
        return self._answers

    def words(self, source: Program) -> dict[int, int]:
        """Return the words of a program's instructions by address. Instructions that the machine refuses are left out."""
        answers = self.answers(statement.text for statement in source.statements)
        return {
            statement.address: answer.word
            for statement in source.statements
            if isinstance(answer := answers[statement.text], Word)
        }

    def mistakes(self, source: Program) -> list[SourceError]:
        """Return the mistakes that the assembler found in a source, and those of instructions that the machine refuses, in order.

        A refused instruction is tried again with a valid operand in place of the wrong one, to find further wrong operands.
        """
        mistakes = list(source.mistakes)
        refused = [(statement, statement, column) for statement, column in self._refused(source.statements)]
        for _ in range(MAX_OPERANDS):  # each round repairs one operand of each refused statement
            mistakes += [refusal(each, column, written.text) for each, written, column in refused]
            repaired = [(with_fitting_operand(each, column), written) for each, written, column in refused]
            written_as = {each: written for each, written in repaired if each}
            refused = [(each, written_as[each], column) for each, column in self._refused(written_as)]
        return in_order(mistakes)

    def _refused(self, statements: Collection[Statement]) -> list[tuple[Statement, int]]:
        """Return the statements that the machine refuses, each with the column that the refusal names."""
        answers = self.answers(statement.text for statement in statements)
        tried = ((statement, answers[statement.text]) for statement in statements)
        return [(statement, int(answer.detail)) for statement, answer in tried if isinstance(answer, Refused)]
