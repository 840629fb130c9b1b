"""The lists of the tests `test_faults` and `test_kernels` that repeat the records, for `tools/instructions`."""

import re
from collections.abc import Iterator, Sequence

from tools.records.instruction_crates import Operation, operations
from tools.records.instruction_lists import BASE, SECTIONS, listed, sections
from tools.records.instruction_parts import Between, Part, Run
from tools.records.instruction_records import FIXED, FUNCT6, Mnemonic, Record

STEPPED = "crates/test_faults/data/vector_instructions"
PRINTED = "crates/test_assembler/stdout"
HEADINGS = {title: title for title in (*SECTIONS, "Vector loads and stores", "Vector segment loads and stores")} | {
    BASE: f'{BASE} (Unprivileged ISA, "RV32I" and "RV64I")',
    "M": 'M (Unprivileged ISA, "Integer Multiplication and Division")',
    "Zicsr": 'Zicsr (Unprivileged ISA, "Control and Status Register Instructions")',
    "Configuration": 'Vector configuration (V extension, "Configuration-Setting Instructions")',
}
"""The headings of sections in `crates/test_assembler/data/titles`."""
KERNELS = "crates/test_kernels/src"
TESTS_BY_RECORDS = ("mask_results.SCANS",)
"""Arrays of `test_kernels` with the order of the records; others have that of the enum."""
STEP_TYPES = {"eighth source": "e64, m1", "quarter source": "e32, mf2"}
"""The vector types that `test_faults` sets for shapes with a part of SEW, which is 16 for all others."""
STEP_HEAD = (
    *("vsetivli x6, 4, e16, mf4, ta, ma", "vsetvli x6, x5, e16, mf4, ta, ma"),
    *("vsetivli x6, 4, e16, mf4, ta, ma", "vsetvl x6, x5, x7"),
)
STEP_OPERANDS = {"vd": "v8", "vs2": "v16", "vs1": "v24", "rd": "x6", "rs1": "x5", "rs2": "x5", "imm": "-3", "uimm": "3"}


def stepped_text(records: Sequence[Record]) -> str:
    """The file of `test_faults` with a text for each name of a vector instruction. Raises ListError."""
    named = ((record, it) for record, it in listed(records) if record.shapes)
    lines = [*STEP_HEAD, *(line for record, it in named for line in _stepped_lines(record, it))]
    return "".join(f"{line}\n" for line in lines)


def _stepped_lines(record: Record, mnemonic: Mnemonic) -> list[str]:
    """The text of a name without a mask, between changes of the vector type if its shape needs another one."""
    shape = record.shapes[record.mnemonics.index(mnemonic) if len(record.shapes) > 1 else 0]
    operands = mnemonic.operands.replace("[, v0.t]", "").replace("(rs1)", "(x10)")
    operands = re.sub(r"\w+", lambda it: STEP_OPERANDS.get(it[0], it[0]), operands)
    text = f"{mnemonic.name} {operands}".rstrip()
    kind = STEP_TYPES.get(shape)
    return [f"vsetivli x6, 4, {kind}, ta, ma", text, STEP_HEAD[0]] if kind else [text]


def listed_parts(records: Sequence[Record]) -> Iterator[Part]:
    """The rows of the list that `test_assembler` prints; those of a section without heading follow the section before it."""
    rows, heading = dict[str, list[str]](), ""
    for title, named in sections(records).items():
        heading = HEADINGS.get(title, heading)
        rows.setdefault(heading, []).extend(_listed_row(mnemonic) for _, mnemonic in named)
    for heading, lines in rows.items():
        yield Between(PRINTED, [f"## {heading}", "", "| Text | Encoding |", "|---|---|"], "", lines)


def _listed_row(mnemonic: Mnemonic) -> str:
    """The row of a name with its operands and its bits."""
    return f"| `{mnemonic.name} {mnemonic.operands}".rstrip() + f"` | `{' '.join(mnemonic.fields)}` |"


def kernel_parts(records: Sequence[Record]) -> Iterator[Part]:
    """The operations that `test_kernels` compares with plain formulas, in arrays by the records' key `test`."""
    for array, found in _operations_by_array(records).items():
        yield from _array_parts(records, array, found)
    yield from _digest_parts(records)


def tested_arrays(records: Sequence[Record]) -> dict[str, list[str]]:
    """The arrays of `test_kernels` with the names that it prints for their operations."""
    bases = [it.base for it in records]
    return {array: [_tested_name(it, bases) for it in found] for array, found in _operations_by_array(records).items()}


def _operations_by_array(records: Sequence[Record]) -> dict[str, list[Operation]]:
    """The operations of each array of `test_kernels`, in its order."""
    arrays = dict[str, list[Operation]]()
    for operation in (it for family in (*FUNCT6, *FIXED) for it in operations(records, family) if it.test):
        arrays.setdefault(operation.test, []).append(operation)
    for array in TESTS_BY_RECORDS:
        arrays[array].sort(key=lambda it: records.index(it.record))
    return arrays


def _array_parts(records: Sequence[Record], array: str, found: Sequence[Operation]) -> Iterator[Part]:
    """The head and the rows of an array of operations with their names."""
    module, _, name = array.partition(".")
    path, head = f"{KERNELS}/{module}.rt", f"const {name}: [({found[0].enum}, &str); "
    first = f"{head}{len(found)}] = ["
    yield Run(path, head, [first])
    bases = [it.base for it in records]
    yield Between(path, [first], "];", [f'    ({it.path_in_enum}, "{_tested_name(it, bases)}"),' for it in found])


def _digest_parts(records: Sequence[Record]) -> Iterator[Part]:
    """The head and the rows of the fixed-point operations whose results have digests."""
    fixed, clips = operations(records, "fixed_point"), operations(records, "clip")
    head = "const OPERATIONS: [(Operation, &str); "
    first = f"{head}{len(fixed) + len(clips)}] = ["
    yield Run(f"{KERNELS}/digests.rt", head, [first])
    rows = [f'    (Operation::Pairs({it.path}), "{it.record.base}"),' for it in fixed]
    rows += [f'    (Operation::Clips({it.path}), "{it.record.base}"),' for it in clips]
    yield Between(f"{KERNELS}/digests.rt", [first], "];", rows)


def _tested_name(operation: Operation, bases: Sequence[str]) -> str:
    """The name that `test_kernels` prints: up to the dot if no other operation has that."""
    shared = len(operation.record.variants) > 1 or bases.count(operation.record.base) > 1
    return operation.mnemonics[0].name if shared else operation.record.base
