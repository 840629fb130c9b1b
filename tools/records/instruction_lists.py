"""The list of instructions in the order of the assembler's table, and that table, for `tools/instructions`."""

from collections.abc import Iterator, Sequence

from tools.records.instruction_crates import grouped
from tools.records.instruction_parts import Between, Part, Run
from tools.records.instruction_records import EXTENSIONS, Mnemonic, Record

MNEMONICS = "crates/rv_model/src/assembler/mnemonics.rt"
NAME_WIDTH = 16  # bytes of a name in the assembler's table
BASE = "RV64I"
"""The section of the scalar instructions of extension I; those of other extensions have the extension's name."""
SECTIONS = {
    "Configuration": ("set_vli set_ivli set_vl",),
    "Vector integer arithmetic": ("binary", "carry carry_out move", "compare", "multiply_add", "extend"),
    "Vector fixed-point arithmetic": ("fixed_point",),
    "Vector narrowing arithmetic": ("narrow_shift", "clip"),
    "Vector widening arithmetic": ("widen", "wide_source", "widen_multiply_add"),
    "Vector reductions": ("reduce", "widen_reduce"),
    "Vector masks": ("mask_logic", "mask_to_scalar", "mask_scan mask_unary element_index"),
    "Vector permutations": ("move_to_scalar move_to_vector permute compress whole_move",),
}
"""The other sections, each with groups of families; in a group, the names are in the order of their words."""
BY_RECORDS = ("Configuration", "Vector permutations")
"""Sections with the order of the records."""
ACCESS_RECORDS = (
    *("vle", "vleff", "vse", "vlse", "vsse", "vluxei", "vloxei", "vsuxei", "vsoxei", "vlm", "vsm", "vlr", "vsr"),
)
SEGMENT_RECORDS = ("vlseg", "vlsegff", "vsseg", "vlsseg", "vssseg", "vluxseg", "vloxseg", "vsuxseg", "vsoxseg")
TEXT_FORMS = {
    "": "Plain",
    "rd, rs1, rs2": "Register",
    "rd, rs1, imm": "Immediate",
    "rd, imm(rs1)": "Load",
    "rs2, imm(rs1)": "Store",
    "rs1, rs2, offset": "Branch",
    "rd, offset": "Jump",
    "rd, imm": "Upper",
    "rd, csr, rs1": "Csr",
    "rd, csr, uimm": "CsrImmediate",
    "rd, rs1, vtypei": "SetVli",
    "rd, uimm, vtypei": "SetIvli",
    "vd, vs2, vs1[, v0.t]": "VectorVector",
    "vd, vs2, rs1[, v0.t]": "VectorScalar",
    "vd, vs2, imm[, v0.t]": "VectorImmediate",
    "vd, vs2, uimm[, v0.t]": "VectorUnsigned",
    "vd, vs1, vs2[, v0.t]": "MultiplyAddVector",
    "vd, rs1, vs2[, v0.t]": "MultiplyAddScalar",
    "vd, vs2, vs1, v0": "Carry(Vector)",
    "vd, vs2, rs1, v0": "Carry(Scalar)",
    "vd, vs2, imm, v0": "Carry(Immediate)",
    "vd, vs2, vs1": "Unmasked(Vector)",
    "vd, vs2, rs1": "Unmasked(Scalar)",
    "vd, vs2, imm": "Unmasked(Immediate)",
    "vd, vs1": "Move(Vector)",
    "vd, rs1": "Move(Scalar)",
    "vd, imm": "Move(Immediate)",
    "rd, vs2": "MoveToScalar",
    "vd, vs2": "WholeMove",
    "rd, vs2[, v0.t]": "MaskToScalar",
    "vd, vs2[, v0.t]": "VectorUnary",
    "vd[, v0.t]": "ElementIndex",
    "vd, (rs1)[, v0.t]": "Unit",
    "vd, (rs1)": "UnmaskedUnit",
    "vd, (rs1), rs2[, v0.t]": "Strided",
    "vd, (rs1), vs2[, v0.t]": "Indexed",
}
"""The variants of the assembler's `Form`, by the operands of a name. A shift has two forms, by the width of its amount."""


class ListError(Exception):
    """A record doesn't fit a list."""


def sections(records: Sequence[Record]) -> dict[str, list[tuple[Record, Mnemonic]]]:
    """The list of instructions: the names of each section in order, with their records. Raises ListError."""
    scalars = [it for it in records if it.path.stem == "scalar" and it.extension != "V"]
    extensions = sorted({it.extension for it in scalars}, key=EXTENSIONS.index)
    found = {
        it if it != "I" else BASE: _named([record for record in scalars if record.extension == it]) for it in extensions
    }
    found |= {title: _section(records, title) for title in SECTIONS}
    found["Vector loads and stores"] = _named(_accesses(records, ACCESS_RECORDS))
    segments = _named(_accesses(records, SEGMENT_RECORDS))
    found["Vector segment loads and stores"] = sorted(segments, key=lambda named: named[1].bits[:3])
    listed_names = {mnemonic.name for section in found.values() for _, mnemonic in section}
    if left := [it for it in records if it.mnemonics[0].name not in listed_names]:
        raise ListError(f"{left[0].place} is in no section of the list of instructions, {', '.join(found)}")
    return found


def _section(records: Sequence[Record], title: str) -> list[tuple[Record, Mnemonic]]:
    """The names of a section of `SECTIONS`, with their records."""
    groups = [[it for it in records if it.family in families.split()] for families in SECTIONS[title]]
    return [named for group in groups for named in _ordered(group, title in BY_RECORDS)]


def _accesses(records: Sequence[Record], names: Sequence[str]) -> list[Record]:
    """The records of loads and stores with these names, in this order."""
    return sorted((it for it in records if it.name in names), key=lambda it: names.index(it.name))


def _named(records: Sequence[Record]) -> list[tuple[Record, Mnemonic]]:
    """The names of records, each with its record."""
    return [(record, mnemonic) for record in records for mnemonic in record.mnemonics]


def _ordered(records: Sequence[Record], by_record: bool) -> list[tuple[Record, Mnemonic]]:
    """The names of a group of families: of forms V, X and I by the bits that the forms share."""
    named = _named(records)
    if by_record:
        return named
    return sorted(named, key=lambda it: (_half(it[0]), it[1].bits[:7].replace("-", "0"), it[1].bits[12:17]))


def _half(record: Record) -> str:
    """The half of the opcode map that a vector operation has."""
    return record.cells["word"].split()[3]


def listed(records: Sequence[Record]) -> list[tuple[Record, Mnemonic]]:
    """All names in the order of the list of instructions, with their records. Raises ListError."""
    return [named for section in sections(records).values() for named in section]


def text_form(record: Record, mnemonic: Mnemonic) -> str:
    """The variant of the assembler's `Form` for the operands of a name. Raises ListError."""
    if mnemonic.operands == "rd, rs1, shamt":
        return "ShiftWord" if mnemonic.bits[6] != "-" else "Shift"
    if mnemonic.operands not in TEXT_FORMS:
        raise ListError(
            f"{record.place} has the unknown operands {mnemonic.operands}; known are {'; '.join(TEXT_FORMS)}"
        )
    return TEXT_FORMS[mnemonic.operands]


def list_parts(records: Sequence[Record]) -> Iterator[Part]:
    """The rows of the assembler's table, and their number. Raises ListError."""
    rows = list[str]()
    for title, named in sections(records).items():
        rows.append(f"    // {title}")
        for record, mnemonic in named:
            if len(mnemonic.name) > NAME_WIDTH:
                raise ListError(f"{record.place}: the name {mnemonic.name} is longer than {NAME_WIDTH} bytes")
            form, word = text_form(record, mnemonic), grouped(mnemonic.word, 8)
            rows.append(f'    Mnemonic(*b"{mnemonic.name:{NAME_WIDTH}}", Form::{form}, {word}),')
    yield Between(MNEMONICS, ["pub static MNEMONICS: [Mnemonic; ROW_COUNT] = ["], "    // Words", rows)
    count = "pub const NAME_COUNT: usize = "
    yield Run(MNEMONICS, count, [f"{count}{len(listed(records))};"])
