"""Decode a word: its vector instruction with its register operands, or the reason why it is invalid. Fields have the manuals' names."""

import enum
import re
from collections.abc import Iterable, Mapping
from dataclasses import dataclass
from fractions import Fraction

from ..machine.image import MARCH
from ..tables.table import read_table

LOAD, LOAD_FP, STORE, STORE_FP, OP_V, SYSTEM = 0x03, 0x07, 0x23, 0x27, 0x57, 0x73  # opcodes
VECTOR_ACCESSES = (LOAD_FP, STORE_FP)  # opcodes of vector loads and stores
CONTROL_REGISTERS = (0x008, 0x009, 0x00A, 0x00F, 0xC20, 0xC21, 0xC22)  # vstart, vxsat, vxrm, vcsr, vl, vtype, vlenb
SUPPORTED = [sew << 3 | lmul for sew in range(4) for lmul in (0, 1, 2, 3, 5, 6, 7) if lmul < 4 or sew <= lmul - 5]
"""The 22 supported vector types by SEW and LMUL, without the policies in bits 6 and 7."""

CARRIES = ("vmerge", "vadc", "vsbc", "vmadc", "vmsbc")  # if vm is 0, v0 is an operand and not a mask

Trait = enum.Enum("Trait", "APART ANYWHERE V0_TOO UNTYPED FROM_ZERO BELOW_64")
"""Requirements of an instruction in addition to the widths of its operands. The table of shapes defines each one."""


class NoInstruction(ValueError):
    """A word isn't an instruction of the machine in any state. The text is a sentence that says why."""


@dataclass(frozen=True)
class Operand:
    """A vector register operand under a vector type."""

    noun: str  # destination, data (of a store), source or index
    eew: int  # the width of its elements in bits, 1 for a mask
    emul: Fraction  # how many registers a group has, a fraction of one below 1
    is_whole: bool  # whether it has whole registers, under each vector type
    group: int  # the number of registers in a group
    registers: range  # the registers of the group, or of the consecutive groups for a segment's fields
    part: Fraction | None = None  # the width divided by SEW; None if the instruction encodes the width
    place: str = ""  # the field that names its first register: vd, vs2 or vs1


@dataclass(frozen=True)
class VectorInstruction:
    """A vector instruction under a vector type.

    name: the name of an operation, such as `vadd`, or the text that the table of words has for a load or store
    traits: the requirements in addition to the operands' widths
    is_masked: whether bit vm is 0, so that the instruction reads v0; operands: the vector register operands, with vd first
    """

    name: str
    traits: frozenset[Trait]
    is_masked: bool
    operands: list[Operand]

    @property
    def leaves_out(self) -> bool:
        """Whether elements are masked off if their bit in v0 is 0."""
        return self.is_masked and self.name not in CARRIES


_FIELDS = {"opcode": (0, 7), "vd": (7, 5), "funct3": (12, 3), "vs1": (15, 5), "vs2": (20, 5)}  # lowest bit, and length
_FIELDS |= {"csr": (20, 12), "vm": (25, 1), "funct7": (25, 7), "funct6": (26, 6), "nf": (29, 3)}
_WORDS = read_table("words")
_FIRST_FIT = re.compile("|".join(f"({bits.replace(' ', '').replace('-', '.')})" for bits, *_ in _WORDS))
_OPERATIONS = read_table("operations")
_SHAPES = {name: cells for name, *cells in read_table("shapes")}
_FORMS = {0: ("OPI", "V"), 3: ("OPI", "I"), 4: ("OPI", "X"), 2: ("OPM", "V"), 6: ("OPM", "X")}  # by funct3
_FORM_NAMES = {"V": "a vector register", "X": "a scalar register", "I": "an immediate"}
_PARTS = {"SEW": Fraction(1), "2*SEW": Fraction(2)} | {f"SEW/{part}": Fraction(1, part) for part in (2, 4, 8)}
_WIDTHS = {0b000: 8, 0b101: 16, 0b110: 32, 0b111: 64}  # the width of an access in bits, by funct3


def listed(names: Iterable[str]) -> str:
    """Return names as a list in a sentence: "vl, vtype and vlenb"."""
    *before, last = names
    return f"{', '.join(before)} and {last}" if before else last


def decode(word: int, sew: int = 8, lmul: Fraction = Fraction(1)) -> VectorInstruction | None:
    """Return the vector instruction that a word encodes under a vector type.

    Return None for a scalar instruction or a vset, which don't depend on the type. Raises NoInstruction for an invalid word.

    sew: in bits
    """
    fit = _FIRST_FIT.fullmatch(f"{word & 0xFFFFFFFF:032b}")
    assert fit is not None and fit.lastindex is not None
    _, kind, text = _WORDS[fit.lastindex - 1]
    fields = {name: word >> low & (1 << length) - 1 for name, (low, length) in _FIELDS.items()}
    if kind == "none":
        raise NoInstruction(text.format(**fields, march=MARCH))
    if kind == "scalar":
        return None
    name, (vd, vs2, vs1, *traits) = _operation(fields) if kind == "operation" else (text, _SHAPES[kind])
    noun = "data" if fields["opcode"] == VECTOR_ACCESSES[1] else "destination"
    places = [(noun, "vd", vd), ("source", "vs2", vs2), ("source", "vs1", vs1)]
    operands = [_operand(noun, place, cell.split(), fields, sew, lmul) for noun, place, cell in places if cell != "-"]
    asked = frozenset(Trait[trait.upper()] for trait in " ".join(traits).split())
    return VectorInstruction(name, asked, fields["vm"] == 0, operands)


def _operation(fields: Mapping[str, int]) -> tuple[str, list[str]]:
    """Return the name of an OP-V operation, and the cells of its row in the table of shapes. Raises NoInstruction if there is none.

    fields: the values of the word's fields, by name
    """
    (half, form), funct6 = _FORMS[fields["funct3"]], f"{fields['funct6']:06b}"
    there = [row[2:] for row in _OPERATIONS if row[:2] == [half, funct6]]
    of_form = [(name, shape, condition) for forms, name, shape, condition in there if form in forms]
    for name, shape, condition in of_form:
        if all(fields[field] == int(value) for field, value in re.findall(r"(\w+) = (\d+)", condition)):
            vd, vs2, vs1, *traits = _SHAPES[shape]
            return name, [vd, vs2, vs1 if form == "V" else "-", *traits]
    if of_form:
        requirements = ", ".join(f"{name} has {condition}" for name, _, condition in of_form)
        found = " and ".join(
            f"{field} = {fields[field]}" for field in dict.fromkeys(re.findall(r"\w+(?= =)", requirements))
        )
        raise NoInstruction(f"{requirements}, and this word has {found}.")
    if there:
        raise NoInstruction(f"There is no form with {_FORM_NAMES[form]} of {listed(name for _, name, *_ in there)}.")
    raise NoInstruction(f"No vector instruction with funct3 {fields['funct3']:03b} has funct6 {funct6}.")


def _operand(noun: str, place: str, cell: list[str], fields: Mapping[str, int], sew: int, lmul: Fraction) -> Operand:
    """Return the operand in a field.

    noun: its role; place: the name of the field; cell: the words of the operand's cell in the table of shapes
    fields: the values of the word's fields, by name; sew, lmul: the vector type
    """
    width, *others = cell
    part = _PARTS.get(width)
    eew = int(part * sew) if part else _WIDTHS[fields["funct3"]] if width == "EEW" else int(width)
    many = fields["nf"] + 1
    counts = {"x1": 1, "x2": 2, "x4": 4, "x8": 8, "xN": many}
    whole = next((counts[other] for other in others if other in counts), None)
    emul = Fraction(whole or Fraction(eew, sew) * lmul)
    group = max(1, int(emul))
    count = group * many if "fields" in others else group
    registers = range(fields[place], fields[place] + count)
    noun = "index" if "index" in others else noun
    return Operand(noun, eew, emul, whole is not None, group, registers, part, place)
