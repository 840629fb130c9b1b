"""The lab's tables that repeat the records, for `tools/instructions`: instructions, operations and meanings."""

import re
import tomllib
from collections.abc import Iterator, Sequence
from pathlib import Path

from tools.records.instruction_lists import listed
from tools.records.instruction_parts import Between, replaced
from tools.records.instruction_records import BUILD_KEYS, FILES, FOLDER, Mnemonic, Record, RecordError

TABLES = Path("lab/vecmon_lab/tables")
OP_V, SYSTEM, MISC_MEM, VSET = "1010111", "1110011", "0001111", "111"
SCALARS, FENCE = "# RV64IM", "------- ----- ----- 000 ----- 0001111  scalar   fence"
"""The lines of the table of words around the rows of scalar instructions."""
HALVES = {"000": ("OPI", "V"), "100": ("OPI", "X"), "011": ("OPI", "I"), "010": ("OPM", "V"), "110": ("OPM", "X")}
"""The half of the opcode map and the form of the second operand, by funct3."""
INSTRUCTIONS_HEAD = """\
# The list of instructions: the names that the assembler knows, their operands (- where there are none), and their 32 bits, where - is a
# bit of an operand. `tools/instructions` writes it from the records in `instructions`.
"""


def table_texts(records: Sequence[Record]) -> Iterator[tuple[Path, str]]:
    """The lab's tables, each with its text. Raises RecordError, ListError."""
    yield TABLES / "instructions.txt", INSTRUCTIONS_HEAD + "".join(map(_instruction_row, listed(records)))
    operations = TABLES / "operations.txt"
    head = "".join(line for line in operations.read_text("ascii").splitlines(True) if line.startswith("#"))
    yield operations, head + "".join(operation_rows(records))
    words = TABLES / "words.txt"
    yield words, words_text(words.read_text("ascii"), records)
    for name in FILES:
        yield TABLES / "meanings" / f"{name}.toml", meanings_text(FOLDER / f"{name}.toml")


def _instruction_row(named: tuple[Record, Mnemonic]) -> str:
    """The row of a name in the list of instructions."""
    _, mnemonic = named
    return f"{mnemonic.name}  {mnemonic.operands or '-'}  {' '.join(mnemonic.fields)}\n"


def operation_rows(records: Sequence[Record]) -> list[str]:
    """The rows of the operations of opcode OP-V, by half of the opcode map, funct6 and vs1."""
    rows = list[tuple[tuple[str, str, int], str]]()
    for record in records:
        if record.mnemonics[0].fields[5] != OP_V or record.mnemonics[0].fields[3] == VSET:
            continue
        each = len({it.bits[12:17] for it in record.mnemonics}) > 1  # names that differ by more than their forms
        for place, names in enumerate([[it] for it in record.mnemonics] if each else [record.mnemonics]):
            rows.append(_operation_row(record, names, record.shapes[place if len(record.shapes) > 1 else 0], each))
    return [row for _, row in sorted(rows, key=lambda it: it[0])]


def _operation_row(
    record: Record, names: Sequence[Mnemonic], shape: str, each: bool
) -> tuple[tuple[str, str, int], str]:
    """The row of a record, or of a name of it, with its place in the order."""
    funct7, vs2, vs1, *_ = names[0].fields
    half = HALVES[names[0].fields[3]][0]
    forms = "".join(dict.fromkeys(HALVES[it.fields[3]][1] for it in names))
    has_vm = len({it.bits[6] for it in names}) == 1 and funct7[6] != "-"
    values = [f"vm = {funct7[6]}"] if has_vm else []
    values += [f"{name} = {int(bits, 2)}" for name, bits in (("vs1", vs1), ("vs2", vs2)) if "-" not in bits]
    name = names[0].name if each else record.name
    cells = f"{half:7}{funct7[:6]:8}{forms:7}{name:14}{shape:16}{' and '.join(values) or '-'}\n"
    return (half, funct7[:6], int(vs1.replace("-", "0"), 2)), cells


def words_text(text: str, records: Sequence[Record]) -> str:
    """The table of words: the rows of scalar instructions are written, and those of names that no record has stay.

    Rows of fence, of system instructions and of control registers are written by hand, since they fit more words than a name has.
    """
    names = {it.name for record in records for it in record.mnemonics}
    rows = [
        f"{' '.join(record.mnemonics[0].fields)}  scalar   {record.name}"
        for record in records
        if record.path.stem == "scalar" and record.mnemonics[0].fields[5] not in (OP_V, SYSTEM, MISC_MEM)
    ]
    part = Between(f"{TABLES}/words.txt", [SCALARS], FENCE, rows)
    lines = replaced(text, [part]).splitlines(True)
    absent = (re.search(r"  none +It would be (\S+) of ", line) for line in lines)
    return "".join(line for line, found in zip(lines, absent) if not found or found[1] not in names)


def meanings_text(path: Path) -> str:
    """The lab's copy of a file of records, without the keys of the build. Raises RecordError."""
    text = path.read_text("ascii")
    head = f"# `tools/instructions` writes this file from {path.as_posix()}.\n"
    lines = [line for line in text.splitlines(True) if not re.match(rf"({'|'.join(BUILD_KEYS)}) *=", line)]
    copy = head + "".join(lines)
    wanted = {
        name: {key: value for key, value in cells.items() if key not in BUILD_KEYS}
        for name, cells in tomllib.loads(text).items()
    }
    if tomllib.loads(copy) != wanted:
        raise RecordError(f"{path}: write each of the keys {', '.join(BUILD_KEYS)} on one line of its own")
    return copy
