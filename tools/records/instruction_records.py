"""The records of instructions, `instructions/*.toml`, for `tools/instructions`.

A record describes one instruction with all its forms, or a family such as `vlseg`. docs/ADDING.md has its keys. `read_records` checks each
record on its own and all words with each other; a mistake is a `RecordError` that names the file, the line and the record.
"""

import re
import tomllib
from collections.abc import Iterator, Mapping
from dataclasses import dataclass
from functools import cached_property
from itertools import product
from pathlib import Path

from vecmon_lab.tables.table import read_table

FOLDER = Path("instructions")
FILES = ("scalar", "vector_integer", "vector_fixed_point", "vector_masks", "vector_moves", "vector_memory")
"""The files of the records, in the order of the table of instructions."""
FUNCT6 = (
    *("binary", "carry_out", "compare", "fixed_point", "narrow_shift", "clip", "widen", "wide_source"),
    *("multiply_add", "widen_multiply_add", "reduce", "widen_reduce", "permute", "carry"),
)
"""Families of vector operations that funct6 and the form select."""
FIXED = (
    *("upper", "branch", "load", "store", "immediate", "shift_immediate", "shift_immediate_word", "register"),
    *("system", "csr", "csr_immediate", "mask_logic", "mask_to_scalar", "extend", "mask_scan", "mask_unary"),
)
"""Families of operations with one layout of operands, where each fixes its word."""
SINGLE = (
    *("jump", "jump_register", "fence", "set_vli", "set_ivli", "set_vl", "move", "whole_move", "compress"),
    *("element_index", "move_to_scalar", "move_to_vector"),
)
"""Layouts of one instruction."""
ACCESSES = ("unit_stride", "strided", "indexed", "whole_load", "whole_store", "mask_access")
"""Layouts of vector loads and stores."""
EXTENSION_TABLE = "lab/vecmon_lab/tables/instruction_extensions.txt"
EXTENSIONS = tuple(name for name, *_ in read_table("instruction_extensions"))
"""The extensions of RISC-V that records may name, in the order of the list of instructions."""
SHAPE_TABLE = "lab/vecmon_lab/tables/shapes.txt"
SHAPES = {name: dict(zip(("vd", "vs2", "vs1"), cells)) for name, *cells in read_table("shapes")}
"""The cell of each vector operand by shape; `-` if the shape lacks the operand."""
FAMILY_SHAPES = {
    **dict.fromkeys(("binary", "fixed_point"), ("single", "high product")),
    **dict.fromkeys(("narrow_shift", "clip"), ("narrowing",)),
    **dict.fromkeys(("multiply_add", "carry"), ("single",)),
    **dict.fromkeys(("widen", "widen_multiply_add"), ("widening",)),
    **dict.fromkeys(("carry_out", "compare"), ("comparison",)),
    **dict.fromkeys(("unit_stride", "strided"), ("plain",)),
    **dict.fromkeys(("whole_load", "whole_store"), ("whole",)),
    "wide_source": ("wide source",),
    "extend": ("same source", "half source", "quarter source", "eighth source"),
    "move": ("move",),
    "mask_logic": ("mask logic",),
    "mask_to_scalar": ("mask count",),
    "mask_scan": ("scan",),
    "mask_unary": ("iota",),
    "element_index": ("numbers",),
    "reduce": ("reduction",),
    "widen_reduce": ("wide reduction",),
    "move_to_scalar": ("from element 0",),
    "move_to_vector": ("to element 0",),
    "permute": ("single", "gather", "gather 16"),
    "compress": ("compress",),
    "whole_move": ("1 register", "2 registers", "4 registers", "8 registers"),
    "mask_access": ("mask",),
    "indexed": ("indexed", "indexed segment"),
}
"""The shapes that the definitions have for the operands of each family of vector instructions."""
OP_V, VSET = "1010111", "111"
"""The opcode of vector operations, and funct3 of the instructions of this opcode that set the vector type."""
FIELDS = (7, 5, 5, 3, 5, 7)
"""The widths in bits of funct7, rs2, rs1, funct3, rd and the opcode, in which a word is written."""
FUNCT3 = {"OPI": {"v": "000", "x": "100", "i": "011"}, "OPM": {"v": "010", "x": "110"}}
"""funct3 of the halves of the opcode map of vector operations, by the form of the second operand."""
PLACES = {
    "eew": {"8": "000", "16": "101", "32": "110", "64": "111"},
    "nf": {str(fields): f"{fields - 1:03b}" for fields in range(2, 9)},
    "count": {"1": "000", "2": "001", "4": "011", "8": "111"},
}
"""Places of a name and its word, such as `{eew}`: the bits of each value."""
NEEDED = ("extension", "family", "word", "operands", "definition", "does", "section")
BUILD_KEYS = tuple("family variants word forms mnemonics operands shape definition test chunk".split())
"""The keys that the lab's copies lack."""
LAB_KEYS = tuple("extension names does formula formulas kept layout elements use mistake see section intrinsic".split())


class RecordError(Exception):
    """A mistake in a record: the file, the line, the record and what is wrong."""


@dataclass(frozen=True)
class Mnemonic:
    """A name of an instruction.

    letter: of the form's second operand, `v`, `x` or `i`; empty if the record has no such forms
    bits: the word's 32 bits, where `-` is a bit of an operand
    operands: the text behind the name, as docs/INSTRUCTIONS.md has it
    """

    name: str
    letter: str
    bits: str
    operands: str

    @cached_property
    def word(self) -> int:
        """The word with all operands zero."""
        return int(self.bits.replace("-", "0"), 2)

    @cached_property
    def mask(self) -> int:
        """Ones at the bits that the instruction fixes."""
        return int(self.bits.replace("0", "1").replace("-", "0"), 2)

    @property
    def fields(self) -> list[str]:
        """The bits of funct7, rs2, rs1, funct3, rd and the opcode."""
        return split_fields(self.bits)


@dataclass(frozen=True)
class Record:
    """A record; its cells are the keys with their values. The cells also have the keys that only the lab reads."""

    name: str
    path: Path
    line: int
    cells: Mapping[str, str]

    @property
    def place(self) -> str:
        """The file, the line and the name, with which an error starts."""
        return f"{self.path}:{self.line}: {self.name}"

    @property
    def family(self) -> str:
        return self.cells["family"]

    @property
    def extension(self) -> str:
        return self.cells["extension"]

    @property
    def base(self) -> str:
        """The name up to the dot of the forms: `vwaddu` of the record `vwaddu.w`."""
        return self.name.removesuffix(".w")

    @cached_property
    def variants(self) -> list[str]:
        """The variants of the family's enum in `rv_model`."""
        return self.cells.get("variants", self.base.partition(".")[0].capitalize()).split()

    @cached_property
    def shapes(self) -> list[str]:
        """The shapes of the operands, one for all names or one for each."""
        return self.cells["shape"].split("/") if "shape" in self.cells else []

    @cached_property
    def mnemonics(self) -> list[Mnemonic]:
        """The names, in the order of the forms. Raises RecordError."""
        return list(_from_template(self) if "mnemonics" in self.cells else _from_forms(self))


def split_fields(bits: str) -> list[str]:
    """The fields of 32 bits: funct7, rs2, rs1, funct3, rd and the opcode."""
    starts = [sum(FIELDS[:count]) for count in range(len(FIELDS) + 1)]
    return [bits[start:end] for start, end in zip(starts, starts[1:])]


def _places(text: str) -> list[str]:
    """The places of a name or a word, such as `eew` of `vle{eew}.v`."""
    return re.findall(r"\{(\w+)\}", text)


def _from_template(record: Record) -> Iterator[Mnemonic]:
    """The names of a record with places, such as `vlseg{nf}e{eew}.v`: the last place counts fastest."""
    template, word = record.cells["mnemonics"], record.cells["word"]
    places, in_word = _places(template), _places(word)
    if unknown := {*places, *in_word} - PLACES.keys():
        raise RecordError(f"{record.place} has the unknown place {{{min(unknown)}}}; known are {', '.join(PLACES)}")
    if {*places} != {*in_word}:
        raise RecordError(f"{record.place} has other places in its names than in its word")
    for values in product(*(PLACES[place] for place in places)):
        names = dict(zip(places, values))
        bits = {place: PLACES[place][value] for place, value in names.items()}
        yield Mnemonic(template.format(**names), "", _bits(record, word.format(**bits)), record.cells["operands"])


def _from_forms(record: Record) -> Iterator[Mnemonic]:
    """The names of a record with forms, or its only name."""
    forms = record.cells.get("forms", "").split() or [""]
    for number, form in enumerate(forms):
        letter = _letter(form)
        word = record.cells["word"].replace("{vm}", "0" if form.endswith("m") else "1")
        fields = [_choice(record, field, number, len(forms)) for field in word.split()]
        bits = _bits(record, " ".join(FUNCT3.get(field, {}).get(letter, field) for field in fields))
        name = f"{record.base}.{form}" if form else record.base
        yield Mnemonic(name, letter if form else "", bits, _operands(record, form, letter))


def _letter(form: str) -> str:
    """The second operand of a form: a vector register (v), a scalar one (x) or an immediate (i)."""
    last = form.removesuffix("m")[-1:] if form not in ("m", "mm", "vm") else "v"
    return last if last in ("x", "i") else "v"


def _choice(record: Record, field: str, number: int, count: int) -> str:
    """The field of a word for the form of this number: of `00010/00100` one for each form. Raises RecordError."""
    choices = field.split("/")
    if len(choices) not in (1, count):
        raise RecordError(f"{record.place} has {len(choices)} values in {field} for {count} forms")
    return choices[number if len(choices) > 1 else 0]


def _operands(record: Record, form: str, letter: str) -> str:
    """The text of the operands of a form: of `vs1/rs1/imm` the one of the form, and `[, v0]` if it ends in m."""
    text = record.cells["operands"]
    text = text.replace("[, v0]", ", v0" if form.endswith("m") else "")
    if found := re.search(r"\w+(/\w+)+", text):
        kinds = {"vs1": "v", "rs1": "x", "imm": "i", "uimm": "i"}
        fitting = [operand for operand in found[0].split("/") if kinds.get(operand) == letter]
        if len(fitting) != 1:
            raise RecordError(f"{record.place} has no operand for the form {form} in {found[0]}")
        text = text.replace(found[0], fitting[0])
    return text


def _bits(record: Record, word: str) -> str:
    """The 32 bits of a word in fields. Raises RecordError."""
    fields = word.split()
    if [len(field) for field in fields] != [*FIELDS] or not re.fullmatch("[01 -]+", word):
        widths = ", ".join(map(str, FIELDS))
        raise RecordError(f"{record.place} has the word {word}; it needs fields of {widths} bits, each 0, 1 or -")
    return "".join(fields)


def _check(record: Record) -> None:
    """Raise RecordError if a record lacks a key, or has an unknown key, family, extension or number of shapes."""
    cells, known = record.cells, (*BUILD_KEYS, *LAB_KEYS)
    if unknown := [key for key in cells if key not in known]:
        raise RecordError(f"{record.place} has the unknown key {unknown[0]}; known are {', '.join(known)}")
    if missing := [key for key in NEEDED if key not in cells]:
        raise RecordError(f"{record.place} lacks the key {missing[0]}")
    if record.family not in (*FUNCT6, *FIXED, *SINGLE, *ACCESSES):
        families = ", ".join((*FUNCT6, *FIXED, *SINGLE, *ACCESSES))
        raise RecordError(f"{record.place} has the unknown family {record.family}; known are {families}")
    if record.extension not in EXTENSIONS:
        raise RecordError(f"{record.place} has the unknown extension {record.extension}; add it to {EXTENSION_TABLE}")
    if record.family in FUNCT6 and not re.search(r"\b(OPI|OPM)\b", cells["word"]):
        raise RecordError(f"{record.place} needs OPI or OPM as funct3, since its family is {record.family}")
    if len(record.shapes) not in ({0, 1} | {len(record.mnemonics)}):
        raise RecordError(f"{record.place} has {len(record.shapes)} shapes for {len(record.mnemonics)} names")
    if not record.shapes and record.path.stem != "scalar":
        raise RecordError(f"{record.place} lacks the key shape")
    if "chunk" in cells and (record.family, cells["chunk"]) != ("binary", "none"):
        raise RecordError(f'{record.place} has the key chunk; it is "none", and only the family binary has it')
    if record.family in FIXED and len(record.variants) != len(record.mnemonics):
        raise RecordError(f"{record.place} has {len(record.variants)} variants for {len(record.mnemonics)} names")
    for number, mnemonic in enumerate(record.mnemonics):
        if record.shapes:
            _check_shape(record, mnemonic, record.shapes[number if len(record.shapes) > 1 else 0])
        if mnemonic.fields[5] == OP_V and mnemonic.fields[3] != VSET:
            _check_word(record, mnemonic)


def _check_shape(record: Record, mnemonic: Mnemonic, shape: str) -> None:
    """Raise RecordError if the family of a name doesn't have its shape, or the shape other vector operands than the name."""
    if shape not in SHAPES:
        raise RecordError(f"{record.place} has the unknown shape {shape}; {SHAPE_TABLE} has all")
    if record.family in FAMILY_SHAPES and shape not in FAMILY_SHAPES[record.family]:
        known = ", ".join(FAMILY_SHAPES[record.family])
        raise RecordError(f"{record.place} has the shape {shape}; the family {record.family} has {known}")
    left_out = {"vs1"} if mnemonic.letter in ("x", "i") else set()
    wanted = [place for place, cell in SHAPES[shape].items() if cell != "-" and place not in left_out]
    found = [place for place in SHAPES[shape] if re.search(rf"\b{place}\b", mnemonic.operands)]
    if found != wanted:
        raise RecordError(
            f"{record.place}: {mnemonic.name} has the vector operands {', '.join(found) or 'none'}, "
            f"and the shape {shape} has {', '.join(wanted)}"
        )


def _check_word(record: Record, mnemonic: Mnemonic) -> None:
    """Raise RecordError if the encoding of a vector operation has other operand fields than its name has operands."""
    funct7, vs2, vs1, _, vd, _ = mnemonic.fields
    operands = {*re.findall(r"\w+", mnemonic.operands.replace("[, v0.t]", " vm"))}
    for bits, name, names in (
        (vd, "vd", "vd rd"),
        (vs2, "vs2", "vs2"),
        (vs1, "vs1", "vs1 rs1 imm uimm"),
        (funct7[6], "vm", "vm"),
    ):
        found = operands & {*names.split()}
        if found and "-" not in bits:
            raise RecordError(f"{record.place}: the word of {mnemonic.name} has {bits} for the operand {min(found)}")
        if not found and "-" in bits:
            raise RecordError(f"{record.place}: {mnemonic.name} lacks an operand for the field {name} of its word")


def _read_file(path: Path) -> Iterator[Record]:
    """The records of a file. Raises RecordError."""
    try:
        text = path.read_text("ascii")
        tables = tomllib.loads(text)
    except (OSError, UnicodeDecodeError, tomllib.TOMLDecodeError) as error:
        raise RecordError(f"{path}: {getattr(error, 'strerror', None) or error}") from error
    lines = {
        found[1]: number
        for number, line in enumerate(text.splitlines(), 1)
        if (found := re.fullmatch(r'\["?([^"\]]+)"?\]', line.strip()))
    }
    for name, cells in tables.items():
        line = lines.get(name, 1)
        if not isinstance(cells, dict):
            raise RecordError(f"{path}:{line}: {name} is no table")
        wrong = [key for key, value in cells.items() if not isinstance(value, str) and key != "formulas"]
        if wrong:
            raise RecordError(f"{path}:{line}: {name} has a value of {wrong[0]} that isn't text")
        record = Record(name, path, line, cells)
        _check(record)
        yield record


def _compare(records: list[Record]) -> None:
    """Raise RecordError if two records have one name, or two names one word."""
    names = dict[str, Record]()
    by_opcode = dict[str, list[tuple[int, int, Mnemonic]]]()
    for record in records:
        for mnemonic in record.mnemonics:
            if mnemonic.name in names:
                raise RecordError(f"{record.place} has the name {mnemonic.name} of {names[mnemonic.name].place}")
            names[mnemonic.name] = record
            word, mask, others = mnemonic.word, mnemonic.mask, by_opcode.setdefault(mnemonic.fields[-1], [])
            if found := next((it for bits, fixed, it in others if not (word ^ bits) & mask & fixed), None):
                place = names[found.name].place
                raise RecordError(f"{record.place}: {mnemonic.name} has a word of {found.name} ({place})")
            others.append((word, mask, mnemonic))


def read_records(folder: Path = FOLDER) -> list[Record]:
    """All records, in the order of `FILES`. Raises RecordError."""
    paths = [folder / f"{name}.toml" for name in FILES]
    if stray := {*folder.glob("*.toml")} - {*paths}:
        raise RecordError(f"{min(stray)}: unknown file; records are in {', '.join(f'{name}.toml' for name in FILES)}")
    records = [record for path in paths for record in _read_file(path)]
    _compare(records)
    return records
