"""The parts of crates that repeat the widths of a source and the lack of a chunk function, for `tools/instructions`.

The family `extend` has operations with one vector source, whose elements have SEW or a part of it by the record's shape. Operations of
`binary` with the key `chunk = "none"` have no function of whole chunks.
"""

from collections.abc import Iterator, Sequence

from tools.records.instruction_crates import Operation, operations
from tools.records.instruction_parts import Between, Part, Run
from tools.records.instruction_records import Record

GROUPS = "crates/rv_model/specs/vector/Groups.antt"
OPERANDS = "crates/reg_groups/src/operands.rt"
EXTENSIONS = "crates/vec_unit/src/extend.rt"
CHUNKS = "crates/lane_arith/src/chunk.rt"
CHUNK_SPECS = "crates/lane_arith/specs/SimdOperations.antt"
DIVISORS = {"same source": 1, "half source": 2, "quarter source": 4, "eighth source": 8}
"""The divisor of SEW that gives the element width of the source, by shape."""
OTHERS = 2
"""The divisor of the operations that the definitions have no line for."""
PART_WIDTHS = {1: "w", 2: "halved w", 4: "halved (halved w)", 8: "halved (halved (halved w))"}
"""The element width of the source in the definitions, by divisor."""
WIDTHS = (8, 16, 32, 64)
COLUMNS = 100
"""The columns of a line, as `rt fmt` has it."""
VARIANTS = "use Rattle.rv_model.specs.declared.instructions.operations.{}.TheVariants.{{"


def width_parts(records: Sequence[Record]) -> Iterator[Part]:
    """All parts."""
    found = operations(records, "extend")
    by_divisor = {divisor: [it for it in found if _divisor(it) == divisor] for divisor in (8, 4, 2, 1)}
    listed = [it for it in found if _divisor(it) != OTHERS]
    yield _use_line(GROUPS, "ExtendOp", [it.variant for it in listed])
    lines = [f"extension_divisor {it.variant} = {_divisor(it)}" for it in listed]
    yield Run(GROUPS, "extension_divisor ", [*lines, f"extension_divisor _ = {OTHERS}"])
    lines = [f"part_width {it.variant} w = {PART_WIDTHS[_divisor(it)]}" for it in listed]
    yield Run(GROUPS, "part_width ", [*lines, f"part_width _ w = {PART_WIDTHS[OTHERS]}"])
    arms = [line for divisor, its in by_divisor.items() for line in _pattern(its, f"{divisor},")]
    yield Between(OPERANDS, ["pub fn extension_divisor(op: ExtendOp) -> u16", "    match op {"], "    }", arms)
    arms = [line for divisor in (2, 4, 8, 1) for line in _kernel_arm(by_divisor[divisor], divisor)]
    yield Between(EXTENSIONS, ["fn perform_part(", "    match op {"], "    }", arms)
    yield from _chunk_parts(records)


def _divisor(operation: Operation) -> int:
    """The divisor of SEW that gives the element width of an operation's source."""
    record = operation.record
    return DIVISORS[record.shapes[record.variants.index(operation.variant) if len(record.shapes) > 1 else 0]]


def _use_line(path: str, enum: str, variants: Sequence[str]) -> Part:
    """The `use` line of definitions that names some variants of an enum."""
    prefix = VARIANTS.format(enum)
    return Run(path, prefix, [f"{prefix}{', '.join(variants)}}}"])


def _pattern(found: Sequence[Operation], end: str) -> list[str]:
    """The head of an arm for operations with what follows it: on one line if that is short."""
    if not found:
        return []
    names = [it.path_in_enum for it in found]
    line = f"        {' | '.join(names)} => {end}"
    if len(line) <= COLUMNS:
        return [line]
    first, *others = names
    return [f"        {first}", *(f"        | {name}" for name in others[:-1]), f"        | {others[-1]} => {end}"]


def _kernel_arm(found: Sequence[Operation], divisor: int) -> list[str]:
    """The arm that executes operations whose source has SEW divided by a divisor."""
    if not found:
        return []
    lines = _pattern(found, "match sew {")
    for width in WIDTHS:
        if width >= 8 * divisor:
            call = f"            Sew::E{width} => perform_at::<u{width}, u{width // divisor}, ExtendOperation>("
            arguments = "from, groups, target, state, scalar"
            is_short = len(f"{call}{arguments}),") <= COLUMNS
            lines += [f"{call}{arguments}),"] if is_short else [call, f"                {arguments},", "            ),"]
    if refused := [f"Sew::E{width}" for width in WIDTHS if width < 8 * divisor]:
        lines.append(f"            {' | '.join(refused)} => unreachable!(),")
    return [*lines, "        },"]


def _chunk_parts(records: Sequence[Record]) -> Iterator[Part]:
    """The lists of the operations of one width that no chunk function computes."""
    found = [it for it in operations(records, "binary") if "chunk" in it.record.cells]
    yield _use_line(CHUNK_SPECS, "BinaryOp", sorted(it.variant for it in found))
    yield Run(CHUNK_SPECS, "is_simd ", [*(f"is_simd {it.variant} = false" for it in found), "is_simd op = true"])
    first, *others = [it.path_in_enum for it in found]
    lines = [f"        {first}", *(f"            | {name}" for name in others)]
    yield Between(CHUNKS, ["pub fn is_simd(op: BinaryOp) -> bool", "        op,"], "    )", lines)
