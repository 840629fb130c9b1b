"""The parts of `rv_model` and `rv_decode` that repeat the records, for `tools/instructions`.

They are the variants of the operations, the entries with name and fixed bits and the lists of operations in the definitions, and the arms
of the encoder and the decoder. The layouts of words, the families of rows and everything that is proved of them are written by hand.
"""

from collections.abc import Iterator, Sequence
from dataclasses import dataclass

from tools.records.instruction_parts import Between, Items, Part, Run
from tools.records.instruction_records import EXTENSIONS, FIXED, FUNCT6, Mnemonic, Record

OPERATIONS = "crates/rv_model/src/instructions/operations.rt"
SPECS = "crates/rv_model/specs/instructions"
DECODER = "crates/rv_decode/src"
TUPLE_WIDTH = 60  # of a tuple on one line, as `rt fmt` has it
FUNCT6_RANGES = (
    ("OPI", "lower_opi", range(0x18)),
    ("OPI", "upper_opi", range(0x18, 0x40)),
    ("OPM", "lower_opm", range(0x20)),
    ("OPM", "middle_opm", range(0x20, 0x30)),
    ("OPM", "upper_opm", range(0x30, 0x40)),
)
"""The functions of the decoder, each with its half of the opcode map and the values of funct6 that it decodes."""
FORMS = {"v": "V", "x": "X", "i": "I", "vx": "Vx", "xi": "Xi", "vxi": "Vxi"}
"""The variants of `Forms`, by the letters of a record's forms."""
TABLE_ROWS = {
    "upper": "Scalar (Upper",
    "branch": "Scalar (Branch",
    "load": "Scalar (Load",
    "store": "Scalar (Store",
    "immediate": "Scalar (RegisterImmediate",
    "shift_immediate": "Scalar (ShiftImmediate",
    "shift_immediate_word": "Scalar (ShiftImmediateWord",
    "register": "Scalar (RegisterRegister",
    "system": "Scalar (System",
    "csr": "Csr (Register",
    "csr_immediate": "Csr (Immediate",
    "mask_logic": "Vector (MaskLogic",
    "mask_to_scalar": "Vector (MaskToScalar",
    "extend": "Vector (Extend",
    "mask_unary": "Vector (MaskUnary",
}
"""The instruction of each row of a family in the table."""

USES = {
    "elements/FixedPoint": ("clip", "fixed_point"),
    "elements/Formulas": (
        *("binary", "carry", "carry_out", "compare", "narrow_shift", "widen_multiply_add", "multiply_add"),
    ),
    "elements/Masks": ("mask_logic", "mask_scan", "mask_to_scalar"),
    "elements/Reductions": ("reduce", "widen_reduce"),
    "scalar/Arithmetic": ("upper", "register", "immediate", "shift_immediate", "shift_immediate_word"),
    "scalar/ControlTransfer": ("branch",),
    "scalar/LoadsAndStores": ("load", "store"),
    "vector/Control": ("csr", "csr_immediate"),
}
"""The definitions of results with a line for each operation of a family, whose `use` lines name all variants."""


@dataclass(frozen=True)
class Operation:
    """An operation of the crates: a variant of a family's enum, with the names of its forms."""

    record: Record
    variant: str
    mnemonics: Sequence[Mnemonic]

    @property
    def half(self) -> str:
        """The half of the opcode map, `OPI` or `OPM`, of a vector operation with forms."""
        return self.record.cells["word"].split()[3]

    @property
    def funct6(self) -> int:
        return int(self.mnemonics[0].bits[:6], 2)

    @property
    def forms(self) -> str:
        """The variant of `Forms`."""
        return FORMS["".join(letter for letter in "vxi" if letter in {it.letter for it in self.mnemonics})]

    @property
    def word(self) -> int:
        """The word with all operands zero."""
        return self.mnemonics[0].word

    @property
    def enum(self) -> str:
        return f"{camel(self.record.family)}Op"

    @property
    def test(self) -> str:
        """The module and the array of `test_kernels` with the operation; empty if that compares it in another way."""
        arrays = self.record.cells.get("test", "").split("/")
        return arrays[self.record.variants.index(self.variant) if len(arrays) > 1 else 0]

    @property
    def path_in_enum(self) -> str:
        """The variant in Rattle, of the family's enum."""
        return f"{self.enum}::{self.variant}"

    @property
    def path(self) -> str:
        """The variant in Rattle, of the enum in an instruction: scans of masks are inside of another one."""
        return f"MaskUnaryOp::Scan({self.path_in_enum})" if self.record.family == "mask_scan" else self.path_in_enum

    @property
    def vector_path(self) -> str:
        """The variant of `VectorOp` in Rattle."""
        return f"VectorOp::{camel(self.record.family)}({self.path})"

    @property
    def alias(self) -> str:
        """The variant in a definition, after the alias of its enum."""
        scan = self.record.family == "mask_scan"
        return f"mask_unary.Scan mask_scan.{self.variant}" if scan else f"{self.record.family}.{self.variant}"


def camel(name: str) -> str:
    """A family's name in capitals: `MaskLogic` of `mask_logic`."""
    return "".join(word.capitalize() for word in name.split("_"))


def grouped(number: int, digits: int) -> str:
    """A number in hexadecimal, with underscores between groups of four digits."""
    text = f"{number:0{digits}x}"
    return "0x" + "_".join(text[at : at + 4] for at in range(0, len(text), 4))


def operations(records: Sequence[Record], family: str) -> list[Operation]:
    """The operations of a family in the order of the enum: vector operations by their words, others as the records are."""
    found = list[Operation]()
    for record in records:
        if record.family == family and family in FIXED:
            found += [Operation(record, variant, [it]) for variant, it in zip(record.variants, record.mnemonics)]
        elif record.family == family:
            found.append(Operation(record, record.variants[0], record.mnemonics))
    if family in FUNCT6:
        return sorted(found, key=lambda it: (it.half, it.funct6, it.forms not in ("V", "Vx", "Vxi")))
    if family == "register":
        return sorted(found, key=_register_order)
    return sorted(found, key=lambda it: it.word) if found and found[0].record.path.stem != "scalar" else found


def _register_order(operation: Operation) -> tuple[str, int, str, str]:
    """The order of operations on two registers: by opcode, extension, funct3 and funct7."""
    funct7, _, _, funct3, _, opcode = operation.mnemonics[0].fields
    return opcode, EXTENSIONS.index(operation.record.extension), funct3, funct7


def mask_unary_operations(records: Sequence[Record]) -> list[Operation]:
    """The operations on one mask with a vector result: scans, and the variants of `MaskUnaryOp` itself."""
    return [*operations(records, "mask_scan"), *operations(records, "mask_unary")]


def listed_operations(records: Sequence[Record], family: str) -> list[Operation]:
    """The operations of a list in the definitions, which for operations on one mask has the scans as well."""
    return mask_unary_operations(records) if family == "mask_unary" else operations(records, family)


def crate_parts(records: Sequence[Record]) -> Iterator[Part]:
    """All generated parts of the crates' definitions, encoder and decoder."""
    for family in (*FUNCT6, *FIXED):
        yield enum_part(records, family)
    for family in FUNCT6:
        yield from funct6_parts(records, family)
    for family in FIXED:
        if family != "mask_scan":
            yield from fixed_parts(records, family)
    for module, families in USES.items():
        for family in families:
            yield _names_in_use(f"crates/rv_model/specs/{module}.antt", operations(records, family))
    yield from decoder_parts(records)


def enum_part(records: Sequence[Record], family: str) -> Part:
    """The variants of a family's enum."""
    after = [f"pub enum {camel(family)}Op {{", *(["    Scan(MaskScanOp),"] if family == "mask_unary" else [])]
    return Between(OPERATIONS, after, "}", [f"    {it.variant}," for it in operations(records, family)])


def funct6_parts(records: Sequence[Record], family: str) -> Iterator[Part]:
    """The entries, the list and the arms of the encoder of a family that funct6 selects."""
    found = operations(records, family)
    wide = "wide_source." if family == "wide_source" else ""  # whose variants have names of another family
    head = "carry_entry {}" if family == "carry" else f"vector_entry ({camel(family)} {{}})"
    entries = [
        f'{head.format(wide + it.variant)} = {it.half.lower()} (codes "{it.record.base}") 0x{it.funct6:02x} {it.forms}'
        for it in found
    ]
    prefix = "carry_entry V" if family == "carry" else f"vector_entry ({camel(family)} "
    yield Run(f"{SPECS}/Operations.antt", prefix, entries)
    names = [wide + it.variant for it in found]
    if family == "carry":
        pattern = r"\(carry_line op\)\.forms f\) \(([^()]*)\)"
        yield Items(f"{SPECS}/Table.antt", pattern, names)
        yield _alias_list(found, family)
        yield _names_in_use(f"{SPECS}/Table.antt", found)
    else:
        yield Items(f"{SPECS}/Operations.antt", rf"map {camel(family)} \(([^()]*)\)", names)
    if not wide:
        yield _names_in_use(f"{SPECS}/Operations.antt", found)
    arms = [f"        {it.path} => {it.half.lower()}(0x{it.funct6:02x}, Forms::{it.forms})," for it in found]
    yield Run(f"{DECODER}/lines.rt", f"        {camel(family)}Op::", arms)


def _names_in_use(path: str, found: Sequence[Operation]) -> Part:
    """The `use` line of a definition that names each variant of an enum."""
    prefix = f"use Rattle.rv_model.specs.declared.instructions.operations.{found[0].enum}.TheVariants.{{"
    return Run(path, prefix, [f"{prefix}{', '.join(it.variant for it in found)}}}"])


def _alias_list(found: Sequence[Operation], family: str) -> Part:
    """The list of a family's operations for the functions of the decoder."""
    return Items(
        "crates/rv_model/specs/lending/Families.antt",
        rf"\n{family}_ops =\s+(.*(?:\n    .*)*)\n",
        [it.alias for it in found],
    )


def fixed_parts(records: Sequence[Record], family: str) -> Iterator[Part]:
    """The entries, the lists and the arms of the encoder of a family whose operations fix a word each."""
    found = listed_operations(records, family)
    entries = [
        f'{family}_entry {_entry_name(it)} = (codes "{it.mnemonics[0].name}", {_entry_bits(it)})' for it in found
    ]
    after = [f"abbrev pub {family}_entry : {camel(family)}Op → List ℕ × ℕ"]
    yield Between(f"{SPECS}/FixedBits.antt", after, "", entries)
    yield _alias_list(found, family)
    names = [f"Scan {it.variant}" if it.record.family == "mask_scan" else it.variant for it in found]
    pattern = rf"rows_of\s+\(([^()]*)\)\s+\(λ op w\. instr\.{TABLE_ROWS[family].replace('(', '[(]')} op"
    yield Items(f"{SPECS}/Table.antt", pattern, names)
    if family == "mask_unary":
        yield _names_in_use(f"{SPECS}/Table.antt", operations(records, "mask_scan"))
        prefix = "use Rattle.rv_model.specs.declared.instructions.operations.MaskUnaryOp.TheVariants.{"
        own = ", ".join(it.variant for it in operations(records, "mask_unary"))
        yield Run(f"{SPECS}/Table.antt", prefix, [f"{prefix}Scan, {own}}}"])
    else:
        yield _names_in_use(f"{SPECS}/Table.antt", found)
    arms = [f"        {it.path} => {grouped(it.word, 8)}," for it in found]
    yield Run(f"{DECODER}/fixed_bits.rt", f"        {camel(family)}Op::", arms)
    file = "scalar_operations" if found[0].record.path.stem == "scalar" else "vector_operations"
    after = [f"pub(crate) fn {family}_op(bits: u32) -> Option<{camel(family)}Op>", "    match bits {"]
    cases = [f"        {grouped(it.word, 8)} => Some({it.path})," for it in found]
    yield Between(f"{DECODER}/{file}.rt", after, "        _ => None,", cases)


def _entry_name(operation: Operation) -> str:
    return f"({operation.alias})" if " " in operation.alias else operation.alias


def _entry_bits(operation: Operation) -> str:
    """The fixed bits in a definition, by the functions of `FixedBits`."""
    funct7, rs2, rs1, funct3, _, opcode = operation.mnemonics[0].fields
    code, function = f"0x{int(opcode, 2):02x}", int(funct3.replace("-", "0"), 2)
    if opcode == "1010111":
        vs1, unmasked = rs1.replace("-", "0"), funct7[6].replace("-", "0")
        return f"vector_coded {function} 0x{int(funct7[:6], 2):02x} {unmasked} {int(vs1, 2)}"
    if "-" not in operation.mnemonics[0].bits:
        return f"0x{operation.word:08x}"
    if funct3 == "---":
        return code
    if funct7 == "-------":
        return f"coded {code} {function}"
    return f"register_coded {code} {function} 0x{int(funct7.replace('-', '0'), 2):02x}"


def decoder_parts(records: Sequence[Record]) -> Iterator[Part]:
    """The arms of the decoder for vector operations with forms."""
    found = [it for family in FUNCT6 if family != "carry" for it in operations(records, family)]
    for half, function, values in FUNCT6_RANGES:
        arms = list[str]()
        for funct6 in values:
            arms += _arm([it for it in found if it.half == half and it.funct6 == funct6], funct6)
        after = [f"fn {function}(funct6: u32, form: Form) -> Option<VectorOp>", "    let (op, forms) = match funct6 {"]
        yield Between(f"{DECODER}/vector_operations.rt", after, "        _ => return None,", arms)
    for form, letter in (("V", "v"), ("X", "x"), ("I", "i")):
        words = {
            it.variant: [name.word for name in it.mnemonics if name.letter == letter]
            for it in operations(records, "carry")
        }
        cases = [f"            {grouped(word[0], 8)} => Some(CarryOp::{name})," for name, word in words.items() if word]
        after = [
            "pub(crate) fn carry_op(bits: u32, form: Form) -> Option<CarryOp>",
            f"        Form::{form} => match bits {{",
        ]
        yield Between(f"{DECODER}/vector_operations.rt", after, "            _ => None,", cases)


def _arm(found: Sequence[Operation], funct6: int) -> list[str]:
    """The lines of the decoder for one value of funct6; two operations there differ by their forms."""
    if not found:
        return []
    if len(found) == 1:
        return _tuple(f"0x{funct6:02x}", found[0], "        ")
    lines = [f"        0x{funct6:02x} => match form {{"]
    for it in sorted(found, key=lambda it: it.forms != "V"):
        forms = " | ".join(f"Form::{letter.upper()}" for letter in "vxi" if letter in it.forms.lower())
        lines += _tuple(forms, it, "            ")
    return [*lines, "        },"]


def _tuple(head: str, operation: Operation, indent: str) -> list[str]:
    """An arm with an operation and its forms, on one line if that is short."""
    content = f"{operation.vector_path}, Forms::{operation.forms}"
    if len(content) <= TUPLE_WIDTH:
        return [f"{indent}{head} => ({content}),"]
    return [
        f"{indent}{head} => (",
        f"{indent}    {operation.vector_path},",
        f"{indent}    Forms::{operation.forms},",
        f"{indent}),",
    ]
