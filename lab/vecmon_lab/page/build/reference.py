"""The reference of a page: explanations of commands, instructions and refusals, from the manuals' tables and the records."""

import json
from collections.abc import Iterator

from ...assembler.commands import COMMANDS, MEANINGS, OF_THE_CONSOLE
from ...instructions.table import Row, instruction_table
from ...meanings.describe import expansions, sample, scalar_note
from ...meanings.record import BY_ELEMENT, Record, record_of, records

NOT_HERE = "Not supported"  # the section whose entries have a pattern of names after the name; reference.js uses it
TERMS = "Terms"  # the section of terms that aren't in sources or commands; reference.js uses it


def reference() -> dict[str, list[list[str]]]:
    """Return the entries of the reference by section.

    Each entry has a name, its form, and its effect or meaning. An instruction's entry may also have words by which a search finds it.
    """
    commands = [[name, it.form, it.does] for name, it in COMMANDS.items() if name not in OF_THE_CONSOLE]
    return {
        "Commands": commands,
        "Instructions": [
            [row.name, f"{row.name} {row.operands}".rstrip(), _description(row), *_found_by(row)]
            for row in instruction_table().values()
        ],
        "Pseudo-instructions": [["li", "li rd, imm", records()["li"].does], *_pseudo_entries()],
        "Directives": _entries("directive"),
        "Operands": _entries("operand"),
        "Control registers": _entries("control register"),
        "Calls of ecall": _entries("call"),
        "Refusals": [[code, code, meaning] for code, meaning in MEANINGS.items()],
        TERMS: _entries("term"),
        NOT_HERE: [[it.name, f"{it.name} {it.names}", it.does] for it in records().values() if it.kind == "absent"],
    }


def reference_text() -> str:
    """Return the reference in JSON, escaped for a script in a page."""
    return json.dumps(reference(), separators=(",", ":")).replace("<", "\\u003c")


def _description(row: Row) -> str:
    """Return the effect of an instruction, followed by its formula as code, if it has one."""
    record = record_of(row.name)
    formula = record.formula_of(row.name)
    note = f" `{formula.text}`{scalar_note(row, formula.text)}" if formula else ""
    return f"{record.does_of(row.name)}{note}"


def _found_by(row: Row) -> list[str]:
    """Return a list with one text: words by which a search finds a vector instruction. Return an empty list if there are none.

    The words say how the instruction changes the width of elements, and how it moves elements.
    """
    instruction = sample(row)
    parts = [it.part for it in instruction.operands if it.part] if instruction else []
    width = "" if len(set(parts)) < 2 else "widening" if parts[0] == max(parts) else "narrowing"
    layout = record_of(row.name).layout
    words = " ".join(filter(None, [width, layout if layout != BY_ELEMENT else ""]))
    return [words] if words else []


def _entries(kind: str) -> list[list[str]]:
    return [[name, name, _sentences(it)] for name, it in records().items() if it.kind == kind]


def _sentences(record: Record) -> str:
    """Return the meaning of a name; for a term also the names to look up next, as code."""
    related = ", ".join(f"`{name}`" for name in record.see) if record.kind == "term" else ""
    return f"{record.does} See {related}." if related else record.does


def _pseudo_entries() -> Iterator[list[str]]:
    for name, texts in expansions().items():
        for text in texts:
            form, _, instructions = text.partition(": ")
            does = f"{records()[name].does} " if records()[name].kind == "pseudo-instruction" else ""
            yield [name, form, f"{does}`{instructions}`"]
