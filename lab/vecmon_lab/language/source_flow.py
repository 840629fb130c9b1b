"""The vector types and lengths before the instructions of a source, from its program and the machine's words."""

import functools
from collections.abc import Iterator, Mapping, Sequence

from ..assembler.instruction import Statement
from ..assembler.line import Line, SourceError, Token, tokens_of
from ..assembler.names import near_names
from ..assembler.source import Program
from ..assembler.statements import split_line
from ..guest.vector_flow import BRANCH, JAL, JALR, START, UNKNOWN, Code, Flow, VectorState
from ..instructions.table import instruction_table
from ..instructions.words import OP_V, VECTOR_ACCESSES
from ..machine.start_state import EBREAK
from ..tables.absent import floating_point
from ..tables.table import read_table

_JUMPS = (BRANCH, JALR, JAL)
_NOP = 0x13  # addi x0, x0, 0
_ROOM = 16  # the most words in a gap between instructions
_WORD_BYTES = 4


def flow_of_source(program: Program, words: Mapping[int, int], plain: Sequence[str]) -> Flow:
    """Return the vector states of a source.

    words: the words of its instructions, by address, without those that the machine refuses
    plain: its lines without comments
    """
    return Flow(_code(program, words, plain))


def _code(program: Program, words: Mapping[int, int], plain: Sequence[str]) -> Code:
    """Return the code of a program, with the words that its data directives write."""
    laid: dict[int, int | None] = dict(_data_words(program))
    for statement in program.statements:
        word = words.get(statement.address)
        laid[statement.address] = _stand_in(statement) if word is None else word
    if program.end:
        laid[program.end] = int.from_bytes(EBREAK, "little")
    if program.mistakes:
        laid |= dict.fromkeys(_missing(sorted(laid)), None)
    at = {statement.address for statement in program.statements}
    labels = {address for address in program.labels.values() if address in at}
    return Code(laid, _entries(program), labels, _gaps(program, plain), not program.mistakes)


def _entries(program: Program) -> dict[int, VectorState]:
    """Return the addresses where the program may start, each with the state there.

    The program's entry has the state of a new machine. Exported labels, which other programs may call, have an unknown state.
    """
    exported = {program.labels[name] for name in program.exported - {"_start"} if name in program.labels}
    entries = {address: UNKNOWN for address in exported}
    if program.statements and ("_start" in program.labels or not exported):
        entries[program.entry] = START
    return entries


def _gaps(program: Program, plain: Sequence[str]) -> frozenset[int]:
    """Return the addresses that follow a line with a mistake, if the line may set a vector type or jump once the mistake is corrected."""
    lines = sorted({mistake.line for mistake in program.mistakes if not _is_harmless(mistake, plain)})
    gaps, statements = set[int](), sorted(program.statements, key=lambda each: each.line)
    at = 0
    for line in lines:
        while at < len(statements) and statements[at].line <= line:
            at += 1
        gaps |= {statements[at].address} if at < len(statements) else set()
    return frozenset(gaps)


def _is_harmless(mistake: SourceError, plain: Sequence[str]) -> bool:
    """Return whether no statement in the line of a mistake can set a vector type or jump."""
    if not 0 < mistake.line <= len(plain):
        return False
    return all(_keeps_types(name.text) for name in names_of(plain[mistake.line - 1], mistake.line))


def names_of(plain: str, number: int) -> Iterator[Token]:
    """Yield the names of the instructions and directives in a line. plain: the line without comments; number: the line's number, from 1"""
    for statement in split_line(Line(plain, number)):
        try:
            tokens = tokens_of(statement)
        except SourceError:
            continue
        while len(tokens) > 1 and tokens[1].text == ":":
            tokens = tokens[2:]
        yield from tokens[:1]


@functools.lru_cache(maxsize=1024)
def _keeps_types(name: str) -> bool:
    """Return whether an instruction neither sets a vector type nor jumps. name: its name, the start of a name, or a misspelt name"""
    name = name.lower()
    if name in _other_names() or floating_point(name):
        return True
    meant = [each for each in (*_other_names(), *_steering_names()) if each.startswith(name)] or near_names(name)
    return bool(meant) and not any(each in _steering_names() for each in meant)


@functools.cache
def _steering_names() -> frozenset[str]:
    """Return the names of the instructions and pseudo-instructions that set a vector type or jump."""
    table = instruction_table()
    own = {name for name, row in table.items() if row.opcode in _JUMPS or name.startswith("vset")}
    rows = read_table("pseudo")
    return frozenset(own | {form.split()[0] for form, *texts in rows if any(it.split()[0] in own for it in texts)})


@functools.cache
def _other_names() -> frozenset[str]:
    """Return the names of all other instructions and pseudo-instructions."""
    names = {*instruction_table(), "li", *(form.split()[0] for form, *_ in read_table("pseudo"))}
    return frozenset(names - _steering_names())


def _stand_in(statement: Statement) -> int | None:
    """Return the word that replaces an instruction that the machine refuses; None if nothing is known about the instruction.

    A vector instruction that can change neither the vector type nor a scalar register is replaced by a nop.
    """
    row = instruction_table().get(statement.text.split()[0])
    is_vector = row is not None and row.opcode in (OP_V, *VECTOR_ACCESSES) and not row.name.startswith("vset")
    return _NOP if row is not None and is_vector and "rd" not in row.fields() else None


def _data_words(program: Program) -> Iterator[tuple[int, int]]:
    """Yield the addresses and values of the words that a program's lines write to memory."""
    for line in program.lines:
        command, *arguments = line.split()
        if command == "poke":
            first, data = int(arguments[0], 16), bytes.fromhex(arguments[1])
            for at in range(-first % _WORD_BYTES, len(data) - _WORD_BYTES + 1, _WORD_BYTES):
                yield first + at, int.from_bytes(data[at : at + _WORD_BYTES], "little")


def _missing(addresses: Sequence[int]) -> Iterator[int]:
    """Yield the addresses in short gaps between words, at which instructions may be missing. addresses: the words' addresses, in rising order"""
    for before, after in zip(addresses, addresses[1:]):
        if after - before <= _ROOM * _WORD_BYTES:
            yield from range(before + _WORD_BYTES, after, _WORD_BYTES)
