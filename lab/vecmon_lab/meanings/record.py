"""The records of names: instructions, pseudo-instructions, directives, registers, calls, commands and refusals.

`tables/meanings` has them in TOML, one table for each. Commands and refusals are in `tables/commands` and `tables/refusals`.
"""

import ast
import functools
import pathlib
import re
import tomllib
from collections.abc import Mapping
from dataclasses import dataclass, field

from .. import LabError
from ..instructions.table import Row, instruction_table
from .formula import Formula, condition, read_formula

FOLDER = pathlib.Path(__file__).parents[1] / "tables" / "meanings"
BY_ELEMENT = "by element"


@dataclass(frozen=True)
class Record:
    """The meaning of a name, or of a family of instructions.

    kind: `instruction`, `pseudo-instruction`, `directive`, `operand`, `control register`, `call`, `term` or `absent`
    names: a regular expression for all names that the record describes, such as the mnemonics of a family
    does: a sentence of at most 25 words; it may name vs1 for all forms; `does_of` returns the sentence for one form
    template: `does` with braces around the words that other forms replace
    formulas: the formulas of an instruction, by a regular expression for a form's suffix, such as `vx`; "" is for all other forms
    kept: the condition under which an element isn't written
    layout: how sources correspond to results: `by element`, `gather`, `slide`, `reduce`, `compress` or `scan`
    elements: a sentence about inactive and tail elements, if the general rule doesn't hold
    use, mistake: sentences about a typical use, and about a frequent mistake
    see: names of related records
    extension: the extension of RISC-V to which an instruction belongs
    section: the section of the manual
    file: the name of the table that has the record
    kept_text: `kept` as text
    intrinsic: a call of the instruction's intrinsic function in C
    """

    name: str
    kind: str
    names: str
    does: str
    template: str = ""
    formulas: Mapping[str, str] = field(default_factory=dict)
    kept: ast.expr | None = None
    layout: str = BY_ELEMENT
    elements: str = ""
    use: str = ""
    mistake: str = ""
    see: tuple[str, ...] = ()
    extension: str = ""
    section: str = ""
    file: str = ""
    kept_text: str = ""
    intrinsic: str = ""

    def does_of(self, name: str) -> str:
        """Return the sentence for a mnemonic of this family, with its own operand in place of vs1."""
        other = scalar_source(instruction_table()[name])
        return re.sub(r"\{.*?\}", other, self.template) if other else self.does

    def formula_of(self, name: str) -> Formula | None:
        """Return the formula of a mnemonic of this family; None if it has none."""
        end = name.rpartition(".")[2]
        found = next((text for ends, text in self.formulas.items() if ends and re.fullmatch(ends, end)), None)
        text = found or self.formulas.get("")
        return read_formula(text) if text else None

    @functools.cached_property
    def members(self) -> list[str]:
        """The mnemonics of the family, in the order of the table of instructions; for other records, the name."""
        if self.kind != "instruction":
            return [self.name]
        return [name for name in instruction_table() if re.fullmatch(self.names, name)]


def scalar_source(row: Row) -> str:
    """Return the operand in place of vs1 in a form with a scalar or an immediate; "" if the form has vs1."""
    fields = row.fields()
    return "" if "vs1" in fields else "x[rs1]" if "rs1" in fields else "the immediate"


@functools.cache
def records() -> Mapping[str, Record]:
    """Return all records by name, instructions first."""
    found: dict[str, Record] = {}
    for path in sorted(FOLDER.glob("*.toml")):
        for name, cells in tomllib.loads(path.read_text("ascii")).items():
            if name in found:
                raise LabError(f"{path.name}: there already is a record {name}")
            found[name] = _record(name, path.stem, cells)
    return found


@functools.lru_cache(maxsize=1024)
def record_of(name: str) -> Record:
    """Return the record of a mnemonic. Raises LabError."""
    found = _family_names().get(name)
    if found is None:
        raise LabError(f"there is no instruction {name}")
    return records()[found]


@functools.cache
def _family_names() -> Mapping[str, str]:
    """Return the family of each mnemonic."""
    instructions = [it for it in records().values() if it.kind == "instruction"]
    return {name: it.name for it in instructions for name in it.members}


def instruction_records() -> list[Record]:
    """Return the records of instructions, in the order of the table of instructions."""
    return [records()[name] for name in dict.fromkeys(map(_family_names().__getitem__, instruction_table()))]


KINDS = {"pseudo": "pseudo-instruction", "directives": "directive", "registers": "control register"}
KINDS |= {"calls": "call", "absent": "absent", "operands": "operand", "terms": "term"}


def _record(name: str, file: str, cells: Mapping[str, object]) -> Record:
    kind = KINDS.get(file, "instruction")
    texts = {key: value for key, value in cells.items() if isinstance(value, str)}
    forms = cells.get("formulas", {})
    assert isinstance(forms, Mapping)
    formulas = {f"{ends}[vxi]" if ends == "v" else ends: text for ends, text in forms.items()}
    if "formula" in texts:
        formulas[""] = texts.pop("formula")
    kept, see = texts.pop("kept", None), tuple(texts.pop("see", "").split())
    names = texts.pop("names", rf"{re.escape(name)}(\.\w+)?" if "." not in name else rf"{re.escape(name)}(\.?[vxi])?")
    names = _without_instructions(names) if kind == "absent" else names
    own = {key: texts[key] for key in texts if key in Record.__dataclass_fields__}
    if unknown := texts.keys() - own.keys():
        raise LabError(f"{file}.toml: the record {name} has the unknown keys {', '.join(sorted(unknown))}")
    own |= {"file": file, "kept_text": kept or "", "template": texts["does"], "does": re.sub("[{}]", "", texts["does"])}
    return Record(name, kind, names, formulas=formulas, kept=condition(kept) if kept else None, see=see, **own)


def _without_instructions(names: str) -> str:
    """Return a pattern that matches the same names as the pattern `names`, except the mnemonics of the machine's instructions."""
    here = [re.escape(name) for name in instruction_table() if re.fullmatch(names, name)]
    return rf"(?!({'|'.join(here)})$)({names})" if here else names
