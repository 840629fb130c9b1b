"""The places by hand, or by other tools, that name each instruction, for `tools/instructions`.

The names are those of the assembler's table, `crates/rv_model/src/assembler/mnemonics.rt`, which is written from the records. `missing`
lists the names that each place lacks, so that one run shows every place that a new instruction still needs (docs/ADDING.md, "An
instruction").
"""

import lzma
import re
from collections import Counter
from collections.abc import Iterable, Iterator, Set
from itertools import chain
from pathlib import Path

from support.values_by_hand import hand_values
from vecmon_lab.instructions.words import CONTROL_REGISTERS, OP_V, SYSTEM, VECTOR_ACCESSES, NoInstruction, decode
from vecmon_lab.meanings.describe import examples
from vecmon_lab.meanings.record import Record, records

MNEMONICS = Path("crates/rv_model/src/assembler/mnemonics.rt")
MNEMONIC = re.compile(r'\*b"([a-z]\S*) *", .*\b(0x[0-9a-f_]+)\)')  # a name, and its word with all operands zero
VSET = 7  # funct3 of the instructions that set the vector type
WITHOUT_KERNEL = r"vset\w+|vmv[1248]r\.v"
WITHOUT_RESULTS = {"ecall"}
LEAST_BY_HAND = 2  # values by hand of an instruction without golden vectors

Place = tuple[str, Set[str]]
"""The change that a new mnemonic needs at a place, and the mnemonics that the place has."""


def words() -> dict[str, int]:
    """The word of each mnemonic, with all operands zero."""
    return {name: int(word.replace("_", ""), 16) for name, word in MNEMONIC.findall(MNEMONICS.read_text("utf-8"))}


def text_of(*paths: str) -> str:
    """The texts of files, one after another; a pattern names several."""
    return "\n".join(path.read_bytes().decode("latin-1") for it in paths for path in sorted(Path().glob(it)))


def family(name: str) -> str:
    """A mnemonic up to its first dot."""
    return name.partition(".")[0]


def records_of(name: str, kinds: Set[str]) -> list[Record]:
    """The records of these kinds whose pattern of names fits a mnemonic."""
    return [it for it in records().values() if it.kind in kinds and re.fullmatch(it.names, name)]


def has_operation(word: int) -> bool:
    """Whether the lab's decoder has an instruction of this opcode, funct3 and funct6."""
    names_register = word & 0x7F == SYSTEM and word >> 12 & 7  # whose number isn't an operand that may be zero
    try:
        decode(word | CONTROL_REGISTERS[0] << 20 if names_register else word)
    except NoInstruction:
        return False
    return True


def is_vector(word: int) -> bool:
    """Whether a word is a vector instruction other than those that set the vector type."""
    return word & 0x7F in (OP_V, *VECTOR_ACCESSES) and not (word & 0x7F == OP_V and word >> 12 & 7 == VSET)


def golden_names() -> Set[str]:
    """The mnemonics of the golden vectors."""
    paths = Path("lab/tests/data/golden_vectors").glob("*.jsonl.xz")
    return {
        name
        for path in paths
        for name in re.findall(r'"name": ?"([^"]+)"', lzma.decompress(path.read_bytes()).decode())
    }


def of_families(encoded: dict[str, int], families: Iterable[str]) -> Set[str]:
    """Return the mnemonics of these families, of the major opcode OP-V, and all mnemonics of other opcodes."""
    found = {*families}
    return {name for name, word in encoded.items() if word & 0x7F != OP_V or family(name) in found}


def crate_places(encoded: dict[str, int]) -> Iterator[Place]:
    """The places in tests of crates."""
    without = {name for name in encoded if re.fullmatch(WITHOUT_KERNEL, name)}
    kernels = of_families(encoded, re.findall(r'"(v\w+)', text_of("crates/test_kernels/src/**/*.rt")))
    change = "name the array of its kernel by the record's key `test`, or add a row to crates/test_kernels/src/by_hand"
    yield change, without | kernels
    spelled = re.findall(r"^[0-9a-f]{8} (\S+)", text_of("crates/test_assembler/data/spellings"), re.MULTILINE)
    yield "run `.venv/bin/python -m tests.peers.new_words`, which adds its words to crates/test_assembler", {*spelled}


def table_places(encoded: dict[str, int]) -> Iterator[Place]:
    """The table of words, whose rows of other opcodes than those of the records are written by hand."""
    decoded = {name for name, word in encoded.items() if has_operation(word)}
    yield "add its row to words.txt in lab/vecmon_lab/tables", decoded


def generated_places(encoded: dict[str, int]) -> Iterator[Place]:
    """The files that tools write from these tables, in the order of the tools."""
    shown = {name for name in encoded if any(it.name in examples() for it in records_of(name, {"instruction"}))}
    yield (
        "run `python3 -m support.meaning_examples` in lab, which adds its family to the table instruction_examples.txt",
        shown | {name for name, word in encoded.items() if not is_vector(word)},
    )
    stock = re.findall(r"^ +(\S+)", text_of("lab/tests/data/stock/instructions.s"), re.MULTILINE)
    yield "run `.venv/bin/python lab/tools/stock_records.py`, which adds it to lab/tests/data/stock", {*stock}


def other_places(_encoded: dict[str, int]) -> Iterator[Place]:
    """The golden vectors, or values by hand."""
    rows = Counter(row.name for row in hand_values())
    by_hand = {name for name, count in rows.items() if count >= LEAST_BY_HAND}
    data = "lab/tests/data"
    change = f"add {LEAST_BY_HAND} rows to {data}/values_by_hand.txt, or golden vectors to {data}/golden_vectors"
    yield change, golden_names() | by_hand | WITHOUT_RESULTS


def missing() -> list[str]:
    """A line for each place that lacks mnemonics, in the order of the changes, with up to eight of these."""
    encoded = words()
    places = chain(crate_places(encoded), table_places(encoded), generated_places(encoded), other_places(encoded))
    found = [(change, [name for name in encoded if name not in there]) for change, there in places]
    return [f"{', '.join(names[:8])}{', ...' if names[8:] else ''}: {change}" for change, names in found if names]
