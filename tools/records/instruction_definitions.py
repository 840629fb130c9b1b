"""Compares docs/INSTRUCTIONS.md and the lab with the definitions, for `tools/instructions`.

First it prints the names that files of formulas lack (`definition_names.py`), each record whose definition has no line for it, and each
place that lacks an instruction (`instruction_places.py`). Then it compares

- the page: it starts with what each instruction does, by the lab's records (`support/instruction_page.py`). The list that `test_assembler`
  prints follows, with three more columns: the formula that the record names, on which the instruction's own line of a step has to rest;
  the legality by the definitions; and the section of the manual by the records;
- the elements that the lab has for each vector operation (`body_of`, `elements_of`) with `elements/Bodies` of the definitions;
- the operands, scalar registers and accesses that the lab has for each instruction with the operands in the list.
"""

import re
import sys
from collections.abc import Callable, Iterator
from dataclasses import dataclass
from functools import cache
from pathlib import Path

from support.elements import elements_of
from support.instruction_page import records_text
from tools.definitions import definitions as counted
from tools.records.definition_names import unknown_names
from tools.records.instruction_places import missing
from tools.records.instruction_records import FIXED, FOLDER, FUNCT6, Mnemonic, read_records
from tools.records.instruction_records import Record as InstructionRecord
from vecmon_lab import LabError
from vecmon_lab.guest import changes
from vecmon_lab.instructions.accesses import REGISTER_BITS, active_spans, base_address, body_of, vector_instruction
from vecmon_lab.instructions.scalar_registers import scalars_read
from vecmon_lab.instructions.table import Row, instruction_table
from vecmon_lab.instructions.words import STORE, STORE_FP, decode
from vecmon_lab.machine.answers import ControlRegisters
from vecmon_lab.meanings.describe import section_of
from vecmon_lab.meanings.record import record_of
from vecmon_lab.page.operands import shown_operands

PAGE, PRINTED = Path("docs/INSTRUCTIONS.md"), Path("crates/test_assembler/stdout")
FAMILIES = (*FUNCT6, *FIXED)
OTHERS = " _"
"""The end of a record's `definition` if the line for all other operations counts for it."""
ROW = re.compile(r"^(\| `(\S+)[^`]*` \| `[01 -]+`) \|$", re.MULTILINE)
COLUMNS = """
`Formula` is the definition in `crates/rv_model/specs` of the computation or move; if it has a line for each
operation, that is the one. `Legality` is the shape of the operands (`OperandShapes`), or the definition of their list (`Legality`), and
further conditions; scalar instructions have none. `Section` is one of the manual, of the V extension for vector instructions.
"""

# The functions of a step: functions with a line for each layout, or for each kind of vector operation
STEPS = (
    ("step.ScalarStep", "scalar_step"),
    ("step.ScalarStep", "csr_executed"),
    ("step.Step", "operation_step"),
    ("step.Step", "typed_over"),
    ("step.Step", "arith_over"),  # behind `typed_over`, which has one line for all of these
    ("accesses.VectorAccess", "access_of"),
)
# The names that these definitions of `InstructionTexts` may give
WORDS = {
    "source_letter": "[vxi]",
    "width_digits": r"\d+",
    "direction_letters": "v[ls]",
    "order_letters": "[uo]x",
    "segment_text": r"(?:seg\d)?",
    "hex_digit": r"\d",
    "unit_name": r"v[ls](?:seg\d)?e\d+(?:ff)?\.v",
}
# The texts of a body in `elements.Bodies`, each with its elements by the control registers and the elements of whole
# registers
BODIES: dict[str, Callable[[ControlRegisters, int], range]] = {
    "body_of (is_unmasked i) v": lambda control, whole: range(control.vstart, control.vl),
    "whole_body (whole_type t count) v": lambda control, whole: range(control.vstart, whole),
    "record (body_of true v) { start = 0; end = 1 }": lambda control, whole: range(1),
    "record (body_of true v) { start = 0; end = from_bool (nat_lt v.vstart v.conf.vl) }": (
        lambda control, whole: range(control.vstart < control.vl)
    ),
}
SCALARS = {"rd": 7, "rs1": 15, "rs2": 20}  # the lowest bits of scalar registers in a word
# Different registers, aligned for groups of up to eight; 8 is also vstart as a control register.
OPERANDS = 16 << 7 | 24 << 15 | 8 << 20
NO_RESULT = ("ecall", "ebreak")  # whose opcode is that of instructions with a result; ecall has one for some calls
SEW, VTYPE, V0 = 32, 0x11, bytes([0x16, 0x80]) + bytes(30)  # e32, m2: VLMAX is 16
LENGTHS = [(vl, vstart) for vl in (0, 1, 5, 16) for vstart in (0, 1, 2)]
PIECE = re.compile(rf'then \[\] else codes "(\S+)"|codes "(\S+)"|\b({"|".join(WORDS)})\b')


@dataclass(frozen=True)
class Clause:
    """A line of a definition by cases: the variants that its head names, and what it says of them."""

    variants: frozenset[str]
    says: counted.Text


@cache
def clauses(module: str, name: str) -> list[Clause]:
    """The lines of a definition of `rv_model`."""
    text = counted.module_of("rv_model", module)[0][name]
    found = list[Clause]()
    for piece in counted.pieces_of(text.text):
        head, _, body = piece.partition(" =")
        if " : " not in head:
            variants = frozenset(re.findall(r"\b(?:\w+\.)?([A-Z]\w*)", head))
            found.append(Clause(variants, counted.Text(text.path, body, text.scope)))
    return found


def first(module: str, name: str, variants: frozenset[str]) -> Clause | None:
    """The line that counts for these variants."""
    return next((it for it in clauses(module, name) if it.variants <= variants), None)


def names_of(text: str) -> str:
    """The names that a text of `InstructionTexts` gives, as a regular expression."""
    return "".join(
        f"(?:{re.escape(maybe)})?" if maybe else re.escape(code) or WORDS[word]
        for maybe, code, word in PIECE.findall(text)
    )


def entries(name: str) -> Iterator[tuple[str, frozenset[str]]]:
    """The names of operations with their bits, each with the operation."""
    module = "instructions.Operations" if name in ("vector_entry", "carry_entry") else "instructions.FixedBits"
    for it in clauses(module, name):
        yield re.findall(r'codes "(\S+)"', it.says.text)[0], it.variants


@cache
def patterns() -> list[tuple[re.Pattern[str], frozenset[str]]]:
    """The names of instructions, as regular expressions, each with the variants that make the instruction."""
    found = list[tuple[re.Pattern[str], frozenset[str]]]()
    for it in clauses("assembler.InstructionTexts", "spelt"):
        entry = re.search(r"\((\w+_entry) ", it.says.text)
        for name, operation in entries(entry[1]) if entry else [("", frozenset[str]())]:
            behind = it.says
            if "Arith" in it.variants and (suffix := first("assembler.InstructionTexts", "vector_suffix", operation)):
                behind = suffix.says
            found.append((re.compile(re.escape(name) + names_of(behind.text)), it.variants | operation))
    return found


def variants_of(name: str) -> frozenset[str]:
    found = [variants for pattern, variants in patterns() if pattern.fullmatch(name)]
    return found[0] if len(found) == 1 else sys.exit(f"{len(found)} layouts have the name {name}")


@cache
def rests_on(variants: frozenset[str]) -> dict[str, str]:
    """Return the definitions, each with its module, that a step of these variants rests on: those of its last line for them only."""
    lines = [it for module, name in STEPS if (it := first(module, name, variants)) and it.variants]
    return {it.name: it.module for it in counted.closure(counted.met(lines[-1].says)) if it.crate == "rv_model"}


def formula_of(name: str, variants: frozenset[str]) -> str:
    """A definition that the step rests on, with the operation where that has a line of its own."""
    line = first(rests_on(variants)[name], name, variants)
    return " ".join([name, *sorted(line.variants if line else [])])


def legality(variants: frozenset[str]) -> list[str]:
    """The shape of the operands or the definition of their list, and what else is asked for."""
    line = first("legality.Legality", "operands", variants)
    if line is None or not line.variants:
        return []
    shapes = {it.says.text.strip() for it in clauses("legality.OperandShapes", "shape_of")}
    if "Arith" in variants and (shape := first("legality.OperandShapes", "shape_of", variants)):
        found = [shape.says.text.strip()]
    else:
        words = re.findall(r"\w+", line.says.text)
        found = [it for it in words if it in shapes] or [it for it in words if it.endswith("_operands")] or ["operands"]
    asked = [name for name in counted.module_of("rv_model", "legality.Legality")[0] if asks(name, variants)]
    return [found[0], *asked]


def asks(name: str, variants: frozenset[str]) -> bool:
    """Return whether a definition has a line for these variants that says `true`."""
    line = first("legality.Legality", name, variants)
    return line is not None and bool(line.variants) and line.says.text.strip() == "true"


@cache
def formulas() -> dict[str, tuple[str, str]]:
    """The definition that each name's record has, with the place of the record."""
    return {
        it.name: (record.cells["definition"].removesuffix(OTHERS), record.place)
        for record in read_records()
        for it in record.mnemonics
    }


def without_formula() -> Iterator[str]:
    """A line for each record that the definition which it names has no line for, although it has lines for operations."""
    found = read_records()
    operations = {
        family: {it for record in found if record.family == family for it in record.variants} for family in FAMILIES
    }
    for record in found:
        definition = record.cells["definition"]
        for mnemonic in record.mnemonics:
            fault = formula_fault(
                record, mnemonic, definition.removesuffix(OTHERS), operations.get(record.family, set())
            )
            if fault:
                yield f"{record.place}: {fault}"
                break


def formula_fault(record: InstructionRecord, mnemonic: Mnemonic, definition: str, operations: set[str]) -> str:
    """Return what the definitions lack for a name, or "" if they have its formula. `operations` are those of its family."""
    variants = variants_of(mnemonic.name)
    module = rests_on(variants).get(definition)
    if module is None:
        return f"the step of {mnemonic.name} doesn't rest on the definition {definition}"
    path = f"crates/rv_model/specs/{module.replace('.', '/')}.antt"
    lines = [it.variants & operations for it in clauses(module, definition)]
    takes_others = record.cells["definition"].endswith(OTHERS)
    if any(lines) and not takes_others and not any(it & variants for it in lines):
        return f"the definition {definition} has no line for it: add one to {path}"
    if record.family == "binary" and mnemonic.letter == "i":
        line = first(module, "has_unsigned_immediate", variants)
        if ("uimm" in mnemonic.operands) != (line is not None and line.says.text.strip() == "true"):
            return (
                f"its immediate isn't {re.findall('u?imm', mnemonic.operands)[0]} by has_unsigned_immediate in {path}"
            )
    return ""


def cells_of(name: str) -> list[str]:
    """The three columns of an instruction."""
    if name.startswith("."):
        return ["", "", ""]
    variants = variants_of(name)
    if name not in formulas():
        raise LabError(f"{name} has no record in {FOLDER}")
    formula, place = formulas()[name]
    if formula not in rests_on(variants):
        raise LabError(f"{place} has the definition {formula}, on which its step doesn't rest")
    legal = ", ".join(f"`{it}`" for it in legality(variants))
    return [f"`{formula_of(formula, variants)}`", legal, section_of(record_of(name))]


def with_definitions(printed: str) -> str:
    """The page, of the list that `test_assembler` prints."""
    title, _, head = printed.partition("\n")
    head, _, rest = head.partition("\n## ")
    page = f"{title}\n\n{records_text()}\n## Encodings\n{head}{COLUMNS}\n## {rest}"
    page = re.sub(
        r"^\| Text .*\n\|---.*$",
        "| Text | Encoding | Formula | Legality | Section |\n|---|---|---|---|---|",
        page,
        flags=re.M,
    )
    return ROW.sub(lambda row: f"{row[1]} |{''.join(f' {it} |' if it else ' |' for it in cells_of(row[2]))}", page)


def body_text(name: str, variants: frozenset[str]) -> str:
    """The right side of the line for these variants in a definition of `elements.Bodies`."""
    if line := first("elements.Bodies", name, variants):
        return " ".join(line.says.text.partition("\n--")[0].split())
    sys.exit(f"{name} has no line for {', '.join(sorted(variants))}")


def is_masked(word: int, variants: frozenset[str]) -> bool:
    """Whether v0 masks the operation that a word is, by the definitions."""
    text = body_text("is_unmasked", variants)
    if text.startswith("is_arith_unmasked"):
        text = body_text("is_arith_unmasked", variants)
    return {"true": False, "vm": not word >> 25 & 1}[text]


def words_of(encoding: str) -> list[int]:
    """The words with the bits of an encoding and zeros in its operands, with both values of vm where that is one."""
    bits = encoding.replace(" ", "")
    return sorted({int(f"{bits[:6]}{vm if bits[6] == '-' else bits[6]}{bits[7:]}".replace("-", "0"), 2) for vm in "01"})


def differing(name: str, word: int) -> Iterator[str]:
    """The differences between the elements that the lab has for a vector operation and the definition."""
    variants = variants_of(name)
    text = body_text("counted_body", variants)
    is_own = text == "operation_body i t v"  # whether the elements to count are those that the operation works on
    elements = BODIES[body_text("operation_body", variants) if is_own else text]
    whole = int(digits[0]) * REGISTER_BITS // SEW if (digits := re.findall(r"^vmv(\d)r", name)) else 0
    for vl, vstart in LENGTHS:
        control = ControlRegisters(vl, VTYPE, vstart)
        body = elements(control, whole)
        active = [it for it in body if not is_masked(word, variants) or V0[it // 8] >> it % 8 & 1]
        instruction, found = vector_instruction(word, VTYPE), elements_of(word, control, V0)
        assert instruction and found
        wanted, has = (active, len(body) - len(active)), (list(found.active), found.masked)
        if has != wanted:
            yield f"{name} {word:08x}, vl {vl}, vstart {vstart}: elements_of has {has}, the definition {wanted}"
        if is_own and (has_body := body_of(word, instruction, control)) != body:
            yield f"{name} {word:08x}, vl {vl}, vstart {vstart}: body_of has {has_body}, the definition {body}"


def elements_differ(printed: str) -> list[str]:
    """The differences for each vector operation of the list; a vset instruction, whose funct3 is 111, has no elements."""
    rows = re.findall(r"^\| `(\S+)[^`]*` \| `((?:\S+ ){3}(?!111)\S+ \S+ 1010111)` \|", printed, re.MULTILINE)
    return [line for name, encoding in rows for word in words_of(encoding) for line in differing(name, word)]


def operand_faults(row: Row, word: int) -> Iterator[str]:
    """The differences between the operands of a row and those that the lab has for a word of it."""
    fields, instruction = {*row.fields()}, decode(word)
    operands = instruction.operands if instruction else []
    nouns = {operand.place: operand.noun for operand in operands}
    if nouns.keys() != fields & {"vd", "vs1", "vs2"}:
        yield f"decode has the operands {sorted(nouns)}"
    has_mask = row.operands.endswith(", v0") or "[, v0.t]" in row.operands and not word >> 25 & 1
    if instruction and instruction.is_masked != has_mask:
        yield f"decode has the mask {instruction.is_masked}"
    if [operand["written"] for operand in shown_operands(word)] != [
        *("vd" == operand.place and row.opcode != STORE_FP for operand in operands),
        *([False] if has_mask else []),
    ]:
        yield "shown_operands has another result"


def register_faults(row: Row, word: int) -> Iterator[str]:
    """The differences between the scalar registers and the address of a row and those that the lab has for a word of it."""
    names, fields = {word >> low & 31: name for name, low in SCALARS.items()}, {*row.fields()}
    read = {names.get(number, f"x{number}") for number in scalars_read(word) if number} | (
        {"rs2"} if row.opcode == STORE else set()
    )
    if row.name != "ecall" and read != fields & {"rs1", "rs2"}:
        yield f"scalars_read has {sorted(read)}"
    looks = changes._looks(word, [])
    if ("regs" in looks) != ("rd" in fields) and row.name not in NO_RESULT:
        yield f"the looks after it are {looks}"
    is_access = "(rs1)" in row.operands and row.name != "jalr"
    if (base_address(word, range(32)) is not None) != is_access:
        yield "base_address has another address"
    spans = list(active_spans(word, range(32), ControlRegisters(1, VTYPE), bytes(1024)))
    is_masked = "[, v0.t]" in row.operands and not word >> 25 & 1
    if bool(spans) != (is_access and not is_masked):
        yield f"active_spans has {spans}"


def operands_differ() -> list[str]:
    """The differences between the instruction table and the operands, registers and accesses that the lab has, for both values of vm."""
    differences = []
    for row in instruction_table().values():
        vm = {row.word(0), row.word(1 << 25)} if "[, v0.t]" in row.operands else {row.word(0)}
        for word in (row.word(bits | OPERANDS) for bits in vm):
            faults = [*operand_faults(row, word), *register_faults(row, word)]
            differences += [f"{row.name} {row.operands}, {word:08x}: {fault}" for fault in faults]
    return differences


def list_in(output: str) -> str:
    """The list of instructions that an output of `test_assembler` begins with, before its words and texts."""
    return re.split("^[0-9a-f]{8} ", output, maxsplit=1, flags=re.MULTILINE)[0]


def compare(writes_page: bool) -> int:
    """Compare the places of each name, the page and the lab with the definitions; print differences, and return the status."""
    lacking = [*unknown_names(), *without_formula(), *missing()]
    for line in lacking:
        print(line)
    printed = list_in(PRINTED.read_text(encoding="latin-1"))
    try:
        actual = with_definitions(printed)
    except LabError as error:
        print(f"{PAGE} can't be made{' before these changes' if lacking else ''}: {error}")
        return 1
    if writes_page:
        PAGE.write_text(actual, encoding="ascii")
    page = PAGE.read_text(encoding="ascii")
    for line in sorted({*page.splitlines()} ^ {*actual.splitlines()}):
        print(f"{PAGE} {'lacks' if line in actual else 'has wrongly'}: {line}")
    different = [*elements_differ(printed), *operands_differ()]
    for line in different:
        print(line)
    return 1 if lacking or different or page != actual else 0
