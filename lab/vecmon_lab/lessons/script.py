"""The file of a lesson: lines for the monitor, and the author's comments, which start with `#`."""

import sys
from collections.abc import Callable, Iterator, Sequence
from dataclasses import dataclass, field, replace

from .. import LabError, SourceMistakes
from ..assembler.assembly import FileReader
from ..assembler.commands import explain_refusal
from ..assembler.inputs import is_input, read_inputs, with_addresses
from ..assembler.line import refuse_preprocessor_lines
from ..assembler.source import Program, SourceError, Statement, read_source, refusal
from ..compilers.compiled import CompiledProgram
from ..compilers.variables import Variable
from ..guest.guest import Guest
from ..machine.answers import Refused
from ..machine.lines import is_look, words_of

MAX_LISTED = 20  # largest number of mistakes that are listed
RUN_LINES = ["1 step 256", "1 out"]
"""The lines of a source's lesson after its set-up, if that executes nothing."""


@dataclass(frozen=True)
class Step:
    """The lines of one frame: a line that changes something, similar lines that join it, and the read-only lines after it.

    lines: the lines, which may be missing in the last step of a file
    note: the author's comment before these lines
    """

    lines: list[str]
    note: str = ""


@dataclass(frozen=True)
class Script:
    """The steps of a lesson, and the data of its source, if it has one.

    source, text: the source's name, and its text
    labels: the source's labels by address
    statements: the source's instructions, by the line that writes them
    notes: the source's comments, by the address of the instruction after them
    said: the lines of a compiled source, by the address of their first instruction
    starts: the addresses where instructions of another line of a compiled source begin, with the line's number
    variables: the variables of a compiled source
    program: the program of the source
    """

    title: str
    steps: list[Step]
    source: str = ""
    text: str = ""
    labels: dict[str, list[str]] = field(default_factory=dict)
    statements: dict[str, Statement] = field(default_factory=dict)
    notes: dict[int, str] = field(default_factory=dict)
    said: dict[str, str] = field(default_factory=dict)
    starts: dict[str, int] = field(default_factory=dict)
    variables: Sequence[Variable] = ()
    program: Program | None = None


def read_script(text: str) -> Script:
    """Return the lesson of a script. Each line is accepted: the answer to a wrong line shows what is wrong."""
    title, waiting, steps = "", list[str](), list[Step]()
    for line in text.split("\n"):
        if line.startswith("##"):
            title = title or _sentence([line])
        elif line.startswith("#"):
            waiting.append(line)
        elif line:
            add_line(steps, line, _sentence(waiting))
            waiting.clear()
    if waiting:
        steps.append(Step([], _sentence(waiting)))
    return Script(title, steps)


def add_line(steps: list[Step], line: str, note: str = "") -> None:
    """Add a line as a new step, or to the last step.

    A line without a note joins the last step if it is read-only, or if both write an instruction of the same user.
    """
    line_start = _line_start(line)
    if steps and not note and (is_look(line) or "asm" in line_start and line_start == _line_start(steps[-1].lines[-1])):
        steps[-1].lines.append(line)
    else:
        steps.append(Step([line], note))


def read_assembled(
    text: str, name: str, files: FileReader | None = None, read: Callable[[str], Program] | None = None
) -> Script:
    """Return the lesson of an assembler source, for user 1.

    name: the name of the source's file; if it ends in .S, the source mustn't have lines for the preprocessor
    files: reads the files that the source includes; None to refuse includes
    read: assembles the source; None for `read_source`

    Raises SourceMistakes, with a line for each of the first MAX_LISTED mistakes.
    """
    try:
        if name.endswith(".S"):
            refuse_preprocessor_lines(text)
        program = read(text) if read else read_source(text, files=files)
    except SourceError as error:
        raise SourceMistakes(error.diagnostic(name)) from error
    if program.mistakes:
        raise SourceMistakes("\n".join(_listed(program.mistakes, name)))
    return replace(_script_of(program, [line.strip() for line in text.split("\n")], name), text=text)


def _listed(mistakes: Sequence[SourceError], name: str) -> Iterator[str]:
    """Yield a line for each of the first MAX_LISTED mistakes of a source, and one with the number of the others."""
    yield from (mistake.diagnostic(name) for mistake in mistakes[:MAX_LISTED])
    if len(mistakes) > MAX_LISTED:
        yield f"{name}: and {len(mistakes) - MAX_LISTED:,} more"


def print_warnings(script: Script) -> None:
    """Print the warnings about a source on standard error."""
    warnings = script.program.warnings if script.program else ()
    sys.stderr.writelines(f"vecmon-lab: warning: {warning.diagnostic(script.source)}\n" for warning in warnings)


def read_compiled(text: str, name: str, program: CompiledProgram, is_c: bool) -> Script:
    """Return the lesson of a compiled source, for user 1. Raises LabError if the source has mistakes.

    is_c: whether the source is in C. Then the author's lines start with `//`, and not with `#` as in an assembler source.
    """
    program.check(name)
    lines = [line.strip() for line in text.split("\n")]
    if is_c:
        lines = [f"#{line[2:]}" if line.startswith("//") else line.replace("#", " #", 1) for line in lines]
    script, said = _script_of(program, lines, name), program.source_lines(text)
    return replace(script, text=text, said=said, starts=program.line_starts(), variables=program.variables)


def _script_of(program: Program, lines: list[str], name: str) -> Script:
    """Return the lesson of a source's program.

    lines: the lines of the source, with comments that start with `#`; name: the name of the source
    """
    title = next((_sentence([line]) for line in lines if line.startswith("##")), "")
    introduction, notes = _source_notes(lines, program)
    steps = [Step(["1 enter", *(f"1 {line}" for line in program.load_lines())], introduction)]
    own = [(number, line) for number, line in enumerate(lines, 1) if line.startswith("#>")]
    inputs = read_inputs([(number, line) for number, line in own if is_input(line)], program.labels)
    if inputs.mistakes:
        raise SourceMistakes("\n".join(mistake.diagnostic(name) for mistake in inputs.mistakes))
    set_up = list[str]()
    for number, line in own:
        if is_input(line):
            steps.append(Step([f"1 {command}" for at, command in inputs.commands if at == number]))
        else:
            set_up += _set_up_lines(line[2:].strip(), program)
    runs = any(words_of(line)[:1] in (["step"], ["go"]) for line in set_up)
    for line in set_up + ([] if runs else RUN_LINES):
        add_line(steps, line)
    program = replace(program, data={**program.data, **inputs.data})
    statements = {f"1 {each.command}": each for each in program.statements}
    return Script(title, steps, name, labels=program.names(), statements=statements, notes=notes, program=program)


class RefusedStatement(LabError):
    """The machine refuses an instruction of a source."""


def refused_statement(script: Script, line: str, answer: Refused) -> RefusedStatement:
    """Return an error with the mistake in an instruction of the source. line: the line that writes it; answer: the machine's refusal"""
    statement = script.statements[line]
    if answer.code == "E15":
        return RefusedStatement(refusal(statement, int(answer.detail)).diagnostic(script.source))
    return RefusedStatement(f"{script.source}:{statement.line}: the machine answers {answer.code} to {statement.text}")


def send(guest: Guest, commands: Sequence[str], source: Script | None = None) -> None:
    """Send commands as a guest. Raises LabError if one is refused.

    source: the lesson whose source the commands belong to. If one of its instructions is refused, raises RefusedStatement.
    """
    for command, answer in zip(commands, guest.ask(*commands)):
        if isinstance(answer, Refused):
            if source and f"1 {command}" in source.statements:
                raise refused_statement(source, f"1 {command}", answer)
            raise LabError(f"{command[:60]}: {explain_refusal(f'1 {command}', answer)[-1]}")


def _sentence(lines: list[str]) -> str:
    """Return the joined texts after the `#` of lines."""
    return " ".join(filter(None, (line.lstrip("#").strip() for line in lines)))


def _line_start(line: str) -> str:
    """Return a line's prefix and command, without arguments."""
    return " ".join([line[:1], *words_of(line)[:1]])


def _source_notes(lines: list[str], program: Program) -> tuple[str, dict[int, str]]:
    """Return the comment before everything else in a source, and the comments before instructions, by their addresses."""
    addresses = program.addresses()
    introduction, notes, waiting = "", dict[int, str](), list[str]()
    started = False
    for number, line in enumerate(lines, 1):
        if line.startswith("#"):
            waiting += [] if line.startswith(("##", "#>")) else [line]
        elif line and not started:
            started, introduction = True, _sentence(waiting)
            waiting.clear()
        if number in addresses:
            notes[addresses[number]] = _sentence(waiting)
            waiting.clear()
    return introduction, {address: note for address, note in notes.items() if note}


def _set_up_lines(line: str, program: Program) -> list[str]:
    """Return the monitor lines for a line of the set-up, which has no prefix. A label in it is replaced by its address.

    `break` with the name of a function sets breakpoints in its inlined copies as well.
    """
    entries = program.entries if isinstance(program, CompiledProgram) else {}
    if line.split()[:1] == ["break"] and (addresses := entries.get(line.removeprefix("break").strip())):
        return [f"1 break {address:x}" for address in addresses]
    named = with_addresses(line, program.labels)
    return [named if named.startswith("* ") else f"1 {named}"]
