"""The lines of a source at which the vector type and length are shown.

These are the lines that set a type, and those where the type in force differs from the one that the lines above show.
"""

from collections.abc import Mapping
from dataclasses import replace

from ..assembler.assembly import FileReader
from ..assembler.blocks import MAX_CHARACTERS
from ..assembler.inputs import with_inputs
from ..assembler.source import LineType, Program, read_source
from ..assembler.statements import without_comments
from ..assembler.trial import Trial, refused_set_up
from ..guest.vector_flow import UNKNOWN, VectorState, is_vset
from ..instructions.words import OP_V, VECTOR_ACCESSES
from ..machine.process import Vecmon
from .source_flow import flow_of_source

MAX_STATEMENTS = 5_000  # a source with more has no types at its lines


def read_typed_source(
    text: str, vecmon: Vecmon, files: FileReader | None = None, most_made: int = MAX_CHARACTERS
) -> Program:
    """Return the program of a source with all its mistakes, as `read_tried_source` does, and with the vector types at its lines.

    most_made: the most characters that macros and repetitions may make. Raises TooMuchMade if they make more.
    """
    with Trial(vecmon) as trial:
        read = with_inputs(read_source(text, files=files, most_made=most_made), text)
        words = trial.words(read)
        program = replace(read, mistakes=trial.mistakes(read))
    program = replace(program, mistakes=program.mistakes or refused_set_up(program, vecmon))
    return replace(program, types=line_types(program, words, text))


def line_types(program: Program, words: Mapping[int, int], text: str) -> list[LineType]:
    """Return the vector types that are shown at the lines of a source, by rising line.

    words: the words of the program's instructions, by address; text: the source

    An instruction that sets a type shows the type at its line; for an instruction of a macro, that is the line of the macro's call. If a type
    comes into force in another way, such as by a jump, it is shown only if a vector instruction uses it, at the line where it comes into force.
    """
    if len(program.statements) > MAX_STATEMENTS:
        return []
    flow = flow_of_source(program, words, without_comments(text)[0].split("\n"))
    found = dict[int, LineType]()
    shown = present = UNKNOWN  # the state that the lines above show, and the state after the instruction above
    start = 0  # the line where the present state came into force; 0 if that is the next line with an instruction
    for statement in sorted(program.statements, key=lambda each: each.line):
        word, before = words.get(statement.address, 0), flow.states.get(statement.address)
        if not start or before != present:
            start, present = statement.line, before or UNKNOWN
        if before and is_vset(word):
            start, shown = statement.line, flow.after(statement.address)
            found[start] = _line_type(start, shown)
        elif is_vset(word):
            shown = UNKNOWN
        elif word & 0x7F in (OP_V, *VECTOR_ACCESSES) and present != shown:
            shown = present
            found[start] = _line_type(start, shown)
        after = flow.after(statement.address) if before else UNKNOWN
        if after != present and not is_vset(word):
            start = 0
        present = after
    return [found[line] for line in sorted(found)]


def _line_type(line: int, state: VectorState) -> LineType:
    """Return the entry of a line: the types that a state may have, in hexadecimal digits, and vl if it is known."""
    types = [f"{each:x}" for each in sorted(state.types or ())]
    return {"line": line, "types": types} if state.vl is None else {"line": line, "types": types, "vl": state.vl}
