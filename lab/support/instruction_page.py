"""The effects of instructions for docs/INSTRUCTIONS.md, in Markdown, made from the records."""

from collections.abc import Iterator

from vecmon_lab.meanings.formula import CLIPS, FUNCTIONS, NUMBERS
from vecmon_lab.meanings.record import Record, instruction_records

_INTRO = """This page is for people who write or read instructions. It says [what each instruction does](#what-each-instruction-does), then has the
[encodings](#encodings) of all names, with the definitions of their computations and of their legality.

In the console `help vadd.vv` prints all that there is to say of an instruction, with an example, and `help add with carry` searches;
`why v8[5]` puts the numbers of the last step into the formula ([DEBUGGING.md](DEBUGGING.md)). The book of these pages as HTML has a page for
each family.

## What each instruction does

Each family of instructions has a sentence and a formula. The lab's tests execute the formulas on over 13,000 single instructions whose
results QEMU computed, and on values by hand; nothing here is proved. Definitions that `vecmon` is proved against are in the columns of the encodings.

Elements of `vd` from `vstart` to `vl` that `v0` doesn't mask off get the value of the formula. All others are unchanged, unless they are
agnostic under [`policy ones`](COMMANDS.md#agnostic-elements). Numbers in formulas have no limit; a target takes its lowest bits. Sentences and
formulas name `vs1` for all forms: in the forms `.vx` and `.vi`, `vs1[i]` is the lowest SEW bits of `x[rs1]`, or the immediate.

| in a formula | meaning |
|---|---|
| `vs2[i]`, `vs2.mask[i]` | an unsigned element; a bit of a mask |
| `x[rs1]`, `memory[a]`, `memory16[a]` | a scalar register; an element, or 2 bytes, of memory at an address |
| `signed(v)`, `sext(v)`, `sext(v, n)` | a number, or its lowest n bits, as a signed one |
| `zext(v)`, `zext(v, n)` | a number, or its lowest n bits, as an unsigned one |
| `clip(v)`, `clipu(v)` | the nearest number of the target, signed or unsigned; if that is another one, `vxsat` becomes 1 |
| `round(v, n, vxrm)` | v / 2^n, rounded by `vxrm` |
| `quotient(a, b)`, `remainder(a, b)` | a division that rounds towards 0, and its remainder |
| `sum`, `min`, `max`, `any`, `bitand`, `bitor`, `bitxor` | of numbers, and of lists such as `(vs2[j] for j in active)` |
| `first(list)`, `nth(n, list)` | the first number of a list, -1 if it is empty; number n of a list |
"""

_SUBJECTS = (
    ("Vector configuration", "vset"),
    ("Vector loads and stores", "vector_memory"),
    ("Vector integer instructions", "vector_integer"),
    ("Vector fixed-point instructions", "vector_fixed_point"),
    ("Vector masks", "vector_masks"),
    ("Reductions and moves of elements", "vector_moves"),
    ("Scalar instructions", "scalar"),
)


def records_text() -> str:
    """The beginning of the page, below its title."""
    names = "".join(f"| `{name}` | {meaning} |\n" for name, meaning in NUMBERS.items())
    assert {"signed", "round", "nth"} <= {*FUNCTIONS} and CLIPS == ("clip", "clipu")
    return f"{_INTRO}{names}\n" + "\n".join(_tables())


def _tables() -> Iterator[str]:
    """A section with a table for each subject."""
    for title, file in _SUBJECTS:
        rows = [row_of(record) for record in instruction_records() if _is_of(record, file)]
        yield f"### {title}\n\n| Instructions | Effect | Formula |\n|---|---|---|\n" + "".join(
            f"{row}\n" for row in rows
        )


def _is_of(record: Record, file: str) -> bool:
    is_vset = record.name.startswith("vset")
    return is_vset if file == "vset" else record.file == file and not is_vset


def row_of(record: Record) -> str:
    """The row of a family."""
    members = [f"`{name}`" for name in record.members]
    names = ", ".join(members) if len(members) <= 4 else f"{members[0]} to {members[-1]}"
    formulas = [f"`{text}`" for text in dict.fromkeys(record.formulas[key] for key in sorted(record.formulas))]
    kept = f" unless `{record.kept_text}`" if record.kept_text else ""
    effect = f"{record.does} {record.elements}".strip().replace("|", r"\|")
    return f"| {names} | {effect} | {'; '.join(formulas)}{kept} |".replace(" | x", r" \| x").replace(
        "csr | u", r"csr \| u"
    )
