"""The parts of `rv_decode` that repeat the records of vector loads, stores and moves of whole registers, for `tools/instructions`."""

from collections.abc import Iterator, Sequence

from tools.records.instruction_crates import DECODER, grouped
from tools.records.instruction_parts import Between, Part
from tools.records.instruction_records import PLACES, Mnemonic, Record

WIDTHS = {bits: f"Eew::E{width}" for width, bits in PLACES["eew"].items()}
COUNTS = dict(zip(PLACES["count"].values(), ("One", "Two", "Four", "Eight")))
"""The variants of `RegisterCount`, by the number of registers less 1."""
ORDER = ("Load", "FaultOnlyFirst", "Store", "Load Unordered", "Load Ordered", "Store Unordered", "Store Ordered", "")
"""The variants of the records of loads and stores, in the order of the decoder's arms."""
FUNCTIONS = {
    "unit_stride": "unit_access(bits: u32) -> Option<(UnitOp, Eew)>",
    "strided": "strided_access(bits: u32) -> Option<(Direction, Eew)>",
    "indexed": "indexed_access(bits: u32) -> Option<((Direction, Order), Eew)>",
    "whole_load": "whole_load_access(bits: u32) -> Option<(RegisterCount, Eew)>",
    "whole_store": "whole_store_count(bits: u32) -> Option<RegisterCount>",
    "mask_access": "mask_memory_direction(bits: u32) -> Option<Direction>",
}
"""The decoder's functions, by family."""


def access_parts(records: Sequence[Record]) -> Iterator[Part]:
    """The arms of the decoder for vector loads and stores, and for moves of whole registers."""
    for family, function in FUNCTIONS.items():
        arms = []
        for record in _without_segments(records, family):
            arms += [f"        {grouped(it.word, 8)} => Some({_access(record, it)})," for it in record.mnemonics]
        after = [f"pub(crate) fn {function}", "    match bits {"]
        yield Between(f"{DECODER}/memory_operations.rt", after, "        _ => None,", arms)
    moves = [it for record in records if record.family == "whole_move" for it in record.mnemonics]
    after = ["pub(crate) fn whole_move_op(bits: u32) -> Option<RegisterCount>", "    match bits {"]
    arms = [f"        {grouped(it.word, 8)} => Some({_count(it)})," for it in moves]
    yield Between(f"{DECODER}/vector_operations.rt", after, "        _ => None,", arms)
    after = ["pub(crate) fn whole_move_bits(count: RegisterCount) -> u64", "    match count {"]
    arms = [f"        {_count(it)} => {grouped(it.word, 8)}," for it in moves]
    yield Between(f"{DECODER}/fixed_bits.rt", after, "    }", arms)
    copies = [it for record in records if record.family == "move" for it in record.mnemonics]
    after = ["pub(crate) fn move_bits(form: Form) -> u64", "    match form {"]
    arms = [f"        Form::{it.letter.upper()} => {grouped(it.word, 8)}," for it in copies]
    yield Between(f"{DECODER}/fixed_bits.rt", after, "    }", arms)


def _without_segments(records: Sequence[Record], family: str) -> list[Record]:
    """The records of a family of loads and stores with one field: those with segments have the same fixed bits and nf."""
    found = [it for it in records if it.family == family and "{nf}" not in it.cells["word"]]
    return sorted(found, key=lambda it: ORDER.index(it.cells.get("variants", "")))


def _count(mnemonic: Mnemonic) -> str:
    """The number of whole registers that an instruction moves: in nf, or in the vs1 field of a move."""
    funct7, _, vs1, _, _, opcode = mnemonic.fields
    return f"RegisterCount::{COUNTS[vs1[2:] if opcode == '1010111' else funct7[:3]]}"


def _access(record: Record, mnemonic: Mnemonic) -> str:
    """Return the decoder's result for a load or a store."""
    width = WIDTHS[mnemonic.fields[3]]
    variants = record.cells.get("variants", "").split()
    if record.family == "unit_stride":
        return f"(UnitOp::{variants[0]}, {width})"
    if record.family == "strided":
        return f"(Direction::{variants[0]}, {width})"
    if record.family == "indexed":
        return f"((Direction::{variants[0]}, Order::{variants[1]}), {width})"
    if record.family == "mask_access":
        return f"Direction::{variants[0]}"
    return f"({_count(mnemonic)}, {width})" if record.family == "whole_load" else _count(mnemonic)
