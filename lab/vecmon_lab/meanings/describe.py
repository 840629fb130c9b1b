"""Records as lines of text, for the console's `help`, the pages, the book and the manual page."""

import bisect
import functools
import itertools
import re
from collections.abc import Iterator, Mapping, Sequence
from fractions import Fraction

from ..instructions.table import Row, instruction_table
from ..instructions.words import OP_V, STORE_FP, VECTOR_ACCESSES, Operand, Trait, VectorInstruction, decode
from ..tables.table import read_table
from .extensions import extensions
from .record import FOLDER, Record, record_of, records, scalar_source

_SHORT = ("a", "an", "the", "of", "to", "with", "in")  # words that a search ignores
_ENDING = re.compile(r"(?<=\w{4})(ing|ed|es|s|y|ies)$")  # an ending that a search ignores: `shifting` finds `Shifts`
EXAMPLES = FOLDER.with_name("instruction_examples.txt")
_CAUSES = {Trait.FROM_ZERO: "vstart isn't 0", Trait.BELOW_64: "SEW is 64"}  # why a word with a trait is illegal
_LISTED = 12  # the most names in the result of a search


@functools.cache
def expansions() -> dict[str, list[str]]:
    """Return the expansion of each pseudo-instruction, by its name: `mv rd, rs: addi rd, rs, 0`."""
    found: dict[str, list[str]] = {}
    for form, *texts in read_table("pseudo"):
        if not texts[0].startswith("error"):
            found.setdefault(form.split()[0], []).append(f"{form}: {'; '.join(texts)}")
    return found


def sample(row: Row) -> VectorInstruction | None:
    """Return a vector instruction of a row, decoded under e16, m1; None for a row of another kind."""
    if row.opcode not in (OP_V, *VECTOR_ACCESSES):
        return None
    return decode(row.word(0) | (1 << 25 if "[, v0.t]" in row.operands else 0), 16, Fraction(1))


@functools.cache
def examples() -> dict[str, tuple[str, str, str]]:
    """Return the examples of the families of vector instructions, by the family's name.

    An example has the instruction's text, the values before it of what it reads and writes, and these values after it.
    """
    return {name: (text, before, after) for name, text, before, after in read_table("instruction_examples")}


def example_lines(record: Record) -> list[str]:
    """Return the example of a family as lines; none if the family has no example."""
    if record.name not in examples():
        return []
    text, before, after = examples()[record.name]
    return [f"Example under e32, m1, vl 8: {text}", *before.split("; "), f"after it {after}"]


def operand_cells(row: Row) -> Iterator[tuple[str, str, str]]:
    """Yield the field, the EEW and the EMUL of each vector register operand, as texts such as `vd`, `2*SEW` and `2*LMUL`."""
    instruction = sample(row)
    for operand in instruction.operands if instruction else []:
        yield "vs3" if operand.noun == "data" else operand.place, _width(operand), _multiplier(operand)


def _width(operand: Operand) -> str:
    return _scaled("SEW", operand.part) if operand.part else f"{operand.eew}"


def _scaled(name: str, part: Fraction) -> str:
    """Return the product of a part and a named number as text, such as `2*SEW` or `SEW/4`."""
    return f"{part}*{name}" if part > 1 else name if part == 1 else f"{name}/{part.denominator}"


def _multiplier(operand: Operand) -> str:
    if operand.is_whole:
        return f"{operand.group}"
    fields = len(operand.registers) // operand.group
    text = _scaled("LMUL", operand.part) if operand.part else f"{operand.eew}/SEW*LMUL"
    return f"{text}, {fields} groups" if fields > 1 else text


def illegal_causes(row: Row) -> Iterator[str]:
    """Yield the causes that can make a vector instruction illegal, as clauses; none for other instructions."""
    instruction = sample(row)
    if instruction is None:
        return
    target, sources = instruction.operands[0], instruction.operands[1:]
    if Trait.UNTYPED not in instruction.traits:
        yield "the type is vill"
    yield from (cause for trait, cause in _CAUSES.items() if trait in instruction.traits)
    widths = {it.part for it in instruction.operands if it.part}
    if max(widths, default=1) > 1:
        yield f"{max(widths)}*SEW is above 64, or {max(widths)}*LMUL above 8"
    if min(widths, default=1) < 1:
        yield f"SEW/{min(widths).denominator} is below 8, or LMUL/{min(widths).denominator} below 1/8"
    if any(it.group > 1 or not it.is_whole for it in instruction.operands):
        yield "a group doesn't begin at a multiple of its EMUL"
    if target.noun == "destination" and sources:
        yield from _overlaps(instruction, target, sources)
    if target.noun == "destination" and Trait.V0_TOO not in instruction.traits:
        if "[, v0.t]" in row.operands:
            yield "it is masked and its destination is v0"
        elif row.operands.endswith(", v0"):
            yield "its destination is v0"


def _overlaps(instruction: VectorInstruction, target: Operand, sources: list[Operand]) -> Iterator[str]:
    if Trait.APART in instruction.traits:
        yield "the destination overlaps a source"
    elif Trait.ANYWHERE not in instruction.traits and any(it.eew != target.eew for it in sources):
        where = "end" if target.eew > min(it.eew for it in sources) else "start"
        yield f"the destination overlaps a source of another width elsewhere than at its {where}"


def describe(name: str) -> list[str]:
    """Return the description of an instruction, a pseudo-instruction or another name with a record; empty for other names."""
    if name in instruction_table():
        return list(_instruction_lines(name))
    record = records().get(name)
    if record is None or record.kind == "absent":
        return _absent(name)
    if record.kind == "instruction":
        forms = f"  forms: {', '.join(record.members)}" if record.members != [name] else ""
        return [*_instruction_lines(record.members[0]), *filter(None, [forms])]
    return [f"{name}: {record.does}", *(f"  {text}" for text in expansions().get(name, [])), *_more(record)]


def _absent(name: str) -> list[str]:
    """Return why the machine lacks a name of other extensions; empty for other names."""
    found = [it for it in records().values() if it.kind == "absent" and re.fullmatch(it.names, name)]
    return [f"{name}: {found[0].does}"] if found else []


def _instruction_lines(name: str) -> Iterator[str]:
    row, record = instruction_table()[name], record_of(name)
    yield f"{name} {row.operands}".rstrip() + f": {record.does_of(name)}"
    formula = record.formula_of(name)
    if formula:
        yield f"  {formula.text}{scalar_note(row, formula.text)}"
    if operands := [f"{place}: EEW {width}, EMUL {group}" for place, width, group in operand_cells(row)]:
        yield f"  {'; '.join(operands)}"
    if record.elements:
        yield f"  {record.elements}"
    if causes := list(illegal_causes(row)):
        yield f"  Illegal if {'; '.join(causes)}."
    yield from _more(record)
    yield from (f"  {'  ' * (at > 0)}{line}" for at, line in enumerate(example_lines(record)))
    yield f"  {encoding_text(row)}"


def scalar_note(row: Row, formula: str) -> str:
    """Return a note about vs1 in a formula, for a form with a scalar or an immediate in its place; "" if no note is needed."""
    other = scalar_source(row) if "vs1" in formula else ""
    return f", where vs1[i] is {other}" if other else ""


def section_of(record: Record) -> str:
    """Return the section of the manual that describes a record's name.

    The name of the manual follows, unless it is the Unprivileged ISA or the manual of the V extension.
    """
    manual = extensions()[record.extension].manual if record.extension else ""
    return f"{record.section} of {manual}" if manual else record.section


def _more(record: Record) -> Iterator[str]:
    manual = section_of(record)
    manual += f"; in C: {record.intrinsic}" if record.intrinsic else ""
    texts = {
        "Use: ": record.use,
        "Mistake: ": record.mistake,
        "Manual: section ": manual,
        "See ": ", ".join(record.see),
    }
    return (f"  {title}{text}" for title, text in texts.items() if text)


def encoding_fields(row: Row) -> list[tuple[str, int]]:
    """Return the fields of an instruction from bit 31 down: the name, or the bits if they are fixed, and the number of bits."""
    names = [name for name in row.fields() if name not in ("offset", "imm", "uimm", "shamt", "csr", "vtypei")]
    places = {"vd": 7, "rd": 7, "vs1": 15, "rs1": 15, "vs2": 20, "rs2": 20}
    own = {places[name]: name for name in names if name in places}
    if row.opcode == STORE_FP:
        own[7] = "vs3"
    borders = (7, 12, 15, 20, 25, 26) if row.opcode in (OP_V, *VECTOR_ACCESSES) else (7, 12, 15, 20, 25)

    def field_of(bit: int) -> tuple[str, int]:
        """Return what all bits of a field have in common: the field's name and 0, or for fixed bits "" and the field's number."""
        return (_mark(row, own, bit), 0) if row.bits[31 - bit] == "-" else ("", bisect.bisect(borders, bit))

    fields = [(name, list(bits)) for (name, _), bits in itertools.groupby(range(31, -1, -1), field_of)]
    return [(name or row.bits[31 - bits[0] : 32 - bits[-1]], len(bits)) for name, bits in fields]


def _mark(row: Row, own: Mapping[int, str], bit: int) -> str:
    """Return the name of the operand field that contains a bit.

    own: the names of the fields of registers, by the lowest bit of the field
    """
    if bit == 25 and "[, v0.t]" in row.operands:
        return "vm"
    low = next((low for low in (7, 15, 20) if low <= bit < low + 5), -1)
    return own.get(low, "csr" if bit >= 20 and "csr" in row.operands else "imm")


def encoding_text(row: Row) -> str:
    """Return a line with the 32 bits of an instruction, bit 31 first: fixed bits, and the names and sizes of fields."""
    return " | ".join(f"{name}" if set(name) <= {"0", "1"} else f"{name}:{bits}" for name, bits in encoding_fields(row))


def text_of(record: Record) -> str:
    """Return all texts of a record in lower case, for a search."""
    texts = [record.name, *record.members, record.kind, record.does, record.elements, record.use, record.mistake]
    return " ".join(texts).lower()


def found(words: str) -> list[Record]:
    """Return the records that contain all words, the best match first. Short words such as `with` are ignored."""
    search_words = [_ENDING.sub("", word) for word in re.findall(r"[\w.]+", words.lower()) if word not in _SHORT]
    if not search_words:
        return []
    every = [it for it in records().values() if all(word in text_of(it) for word in search_words)]
    return sorted(every, key=lambda it: (_rank(it, search_words), it.kind != "instruction"))


def _rank(record: Record, search_words: Sequence[str]) -> int:
    """Return the rank of a record in a search.

    The rank is 0 if the name and the sentence of the record have a word that starts with each search word; 1 if they contain all
    search words, but some only inside a word, such as `sign` in `unsigned`; and otherwise 2.
    """
    sentence = f"{record.name} {record.does}".lower()
    if all(re.search(rf"\b{re.escape(word)}", sentence) for word in search_words):
        return 0
    return 1 if all(word in sentence for word in search_words) else 2


def search_lines(words: str) -> list[str]:
    """Return a line for each of the first records that a search finds, and a line with the number of the others, if there are any."""
    every = found(words)
    lines = [f"{it.name}: {it.does}" for it in every[:_LISTED]]
    return [*lines, f"and {len(every) - _LISTED} more: add a word"] if len(every) > _LISTED else lines
