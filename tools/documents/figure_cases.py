"""The tables of docs/FIGURES.md that count cases of tests, and the repository's lists."""

import re
from collections.abc import Iterator, Sequence
from pathlib import Path

from tools.documents.book_html.navigation import read_groups
from tools.documents.figure_sizes import TEST_CRATES
from tools.documents.figure_table import Row, Table
from tools.golden.golden_cases import gate_cases, golden_vectors
from tools.records.instruction_records import Record, read_records
from vecmon_lab.tables.table import read_table

ISOLATION, LOOPS = "tests/isolation/stdout", "tests/instruction_loops/stdout"
LINES = "tests/command_lines/data/lines"
RECORDED_WORDS = "crates/test_assembler/data/encodings"
OPCODE = 0x7F


def case_table() -> Table:
    """Return the table of the cases that tests compare, from their stored outputs and lists."""
    rows = [*_memory_rows(), *_kernel_rows(), *_assembler_rows(), *_other_rows()]
    text = "From the outputs that the tests store. Each instruction of `test_step` starts from 262,144 states."
    return Table("Cases of tests", text, ("test", "cases"), rows)


def list_table() -> Table:
    """Return the table of the repository's lists, with the number of entries of each."""
    crates = [path.parent.name for path in Path("crates").glob("*/src")]
    records = read_records()
    vectors = golden_vectors()
    rows = {
        "crates of the programs": sum(not TEST_CRATES.match(crate) for crate in crates),
        "crates of tests": sum(bool(TEST_CRATES.match(crate)) for crate in crates),
        "records of instructions": len(records),
        "names of instructions in the assembler": sum(len(record.mnemonics) for record in records),
        "commands of a script": sum(section != "Commands of the console" for section, *_ in read_table("commands")),
        "refusals": len(read_table("refusals")),
        "edits of functions that must fail": len([*Path("crates").glob("*/edits/*.edit")]),
        "edits of definitions that must fail": len([*Path("crates").glob("*/must-fail/*.edit")]),
        "lessons of the tour": len(read_table("tours")),
        "exercises of the course": len([*Path("lab/vecmon_lab/exercises/given").glob("*/exercise.toml")]),
        "golden vectors, policy `keep`": sum(it.policy == "keep" for it in vectors),
        "golden vectors, policy `ones`": sum(it.policy == "ones" for it in vectors),
        "golden vectors that are clean": sum(it.is_clean for it in vectors),
        "kinds of instruction compared with QEMU": len(_lines_of("docs/kinds.csv")) - 1,
        "pages of documents": sum(len(group.pages) for group in read_groups(Path())),
    }
    text = "A golden vector is clean if all versions of QEMU gave its result, and no part of it was corrected."
    return Table("Lists", text, ("list", "entries"), [Row(name, [number]) for name, number in rows.items()])


def recorded_words(records: Sequence[Record]) -> int:
    """Return how many of the recorded words of `test_assembler` are instructions."""
    by_opcode = dict[int, list[tuple[int, int]]]()
    for mnemonic in (it for record in records for it in record.mnemonics):
        by_opcode.setdefault(mnemonic.word & OPCODE, []).append((mnemonic.word, mnemonic.mask))
    words = [int(word, 16) for word in Path(RECORDED_WORDS).read_text("ascii").split()]
    return sum(any(not (word ^ bits) & mask for bits, mask in by_opcode.get(word & OPCODE, [])) for word in words)


def _memory_rows() -> Iterator[Row]:
    """Yield the rows of the tests of refused memory and failing devices."""
    faults, devices = _output("test_faults"), _output("test_devices")
    yield _sum_row("`test_faults`: pools and machines with too little memory", r"too little memory: (\d+)", faults)
    yield _sum_row("`test_faults`: commands without memory", r"^commands without memory: (\d+)", faults)
    yield _sum_row("`test_faults`: instructions without memory", r"^commands .*, (\d+) instructions", faults)
    yield _sum_row("`test_faults`: reads of an image that fail once", r"^reads .*: (\d+)", faults)
    yield _sum_row("`test_devices`: devices whose first call fails", r"first call fails: (\d+)", devices)
    yield _sum_row("`test_devices`: scripts with small writes", r"with small writes: (\d+)", devices)
    yield _sum_row("`test_devices`: scripts with a write that fails", r"with a failing write: (\d+)", devices)
    yield _sum_row("`test_devices`: scripts with a read that fails", r"with a failing read: (\d+)", devices)
    yield _sum_row("`test_devices`: files of the recorder in memory", r"^records in memory: (\d+)", devices)


def _kernel_rows() -> Iterator[Row]:
    """Yield the rows of the tests of kernels and of loops."""
    kernels = _output("test_kernels")
    yield _sum_row("`test_kernels`: results compared with loops", r"^(?!.* by hand: ).*: (\d+) compared", kernels)
    yield _sum_row("`test_kernels`: results compared with values by hand", r" by hand: (\d+) compared", kernels)
    yield _match_row("`test_kernels`: digests of QEMU's results", r"^\w+ r\w\w [0-9a-f]{8} \d+$", kernels)
    yield Row("`tests/instruction_loops`: loops with QEMU's results", [len(_lines_of(LOOPS))])


def _assembler_rows() -> Iterator[Row]:
    """Yield the rows of the assembler's test."""
    assembler = _output("test_assembler")
    yield Row("`test_assembler`: recorded words", [recorded_words(read_records())])
    yield _sum_row("`test_assembler`: words that it draws", r": (\d+) words", assembler)
    yield _sum_row("`test_assembler`: texts that it draws", r"(\d+) (?:accepted|refused)", assembler)


def _other_rows() -> Iterator[Row]:
    """Yield the rows of all other tests."""
    step = _output("test_step")
    yield _match_row("`test_step`: instructions by the rules", r"^(?!.* by the unit: ).* \d+ wrong$", step)
    yield _match_row("`test_step`: instructions by the vector unit", r" by the unit: .* \d+ wrong$", step)
    images = "\n".join(
        line.removesuffix(", 0 differ") for line in _lines_of("crates/test_images/stdout") if "differ" in line
    )
    yield _sum_row("`test_images`: images", r"\b(\d+) ", images)
    isolation = Path(ISOLATION).read_text("ascii")
    yield _sum_row("`tests/isolation`: programs run in slices", r": (\d+) runs", isolation)
    yield _sum_row("`tests/isolation`: commands of eight users", r": (\d+) commands", isolation)
    yield Row("`tests/command_lines`: command lines", [len(_lines_of(LINES))])
    cases = gate_cases(golden_vectors())
    yield Row("`test_definitions`: states of QEMU", [sum(map(len, cases.values()))])


def _output(crate: str) -> str:
    """Return the stored output of a crate's program."""
    return Path("crates", crate, "stdout").read_text("ascii")


def _lines_of(path: str) -> list[str]:
    """Return the lines of a file."""
    return Path(path).read_text("utf-8").splitlines()


def _sum_row(name: str, pattern: str, text: str) -> Row:
    """Return a row with the sum of the numbers that a pattern finds."""
    return Row(name, [sum(map(int, re.findall(pattern, text, re.MULTILINE)))])


def _match_row(name: str, pattern: str, text: str) -> Row:
    """Return a row with the number of places that a pattern finds."""
    return Row(name, [len(re.findall(pattern, text, re.MULTILINE))])
