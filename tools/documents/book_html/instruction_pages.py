"""The book's pages of instructions, one for each family, made from the lab's records."""

import re
from collections.abc import Iterator, Sequence
from pathlib import Path

from vecmon_lab.instructions.table import Row, instruction_table
from vecmon_lab.meanings.describe import encoding_fields, examples, illegal_causes, operand_cells
from vecmon_lab.meanings.extensions import extensions
from vecmon_lab.meanings.record import Record, instruction_records, records

FOLDER = Path("docs/instructions")
BOX, MAX_PICTURES = 22, 12  # pixels of a bit; encodings on a page


def write_instruction_pages(stage: Path) -> None:
    """Writes a page for each family and their index into the folder of sources, and an entry into the book's first page."""
    (stage / FOLDER).mkdir(parents=True, exist_ok=True)
    families = instruction_records()
    for record in families:
        (stage / FOLDER / f"{record.name}.md").write_text(page_of(record), "utf-8")
    rows = "".join(f"| [{it.name}]({it.name}.md) | {it.does} |\n" for it in families)
    title = "Instructions by name"
    about = "A page for each family of instructions."
    text = f"# {title}\n\n{about}\n\n| family | effect |\n|---|---|\n{rows}"
    (stage / FOLDER / "index.md").write_text(text, "utf-8")
    with (stage / "index.md").open("a", encoding="utf-8") as index:
        index.write(f"\n## Instructions\n\n- **[{title}]({FOLDER}/index.md)**: {about}\n")
        index.write(f"\n```{{toctree}}\n:hidden:\n:caption: Instructions\n\n{FOLDER}/index\n```\n")


def page_of(record: Record) -> str:
    """The page of a family in Markdown. The navigation of the book lists only the index: 200 entries on each page cost 40 s."""
    return "\n\n".join(["---\norphan: true\n---", f"# {record.name}", record.does, *_parts(record)]) + "\n"


def _parts(record: Record) -> Iterator[str]:
    first = instruction_table()[record.members[0]]
    formulas = dict.fromkeys(formula.text for name in record.members if (formula := record.formula_of(name)))
    if formulas:
        yield "\n".join(["```text", *formulas, "```"])
    if record.kept_text:
        yield f"An element isn't written if `{record.kept_text}`."
    if "vs1[i]" in "".join(formulas) and len({name.rpartition(".")[2] for name in record.members}) > 1:
        yield "In the forms with a scalar or an immediate, vs1[i] is the lowest SEW bits of x[rs1], or the immediate."
    yield from filter(None, [record.elements])
    if operands := list(operand_cells(first)):
        yield _table(("operand", "EEW", "EMUL"), operands)
    if causes := list(illegal_causes(first)):
        yield f"**Illegal** if {'; '.join(causes)}."
    yield from (f"**{title}**: {text}" for title, text in (("Use", record.use), ("Mistake", record.mistake)) if text)
    yield from _example(record)
    yield "## Encoding"
    shown = record.members[:MAX_PICTURES]
    yield from (
        f"`{name} {instruction_table()[name].operands}`\n\n{picture(instruction_table()[name])}" for name in shown
    )
    if rest := record.members[MAX_PICTURES:]:
        yield f"{len(rest)} more have the same fields: {', '.join(f'`{name}`' for name in rest)}."
    yield from _references(record)


def _example(record: Record) -> Iterator[str]:
    """The example as a table: a row for each register before, and for what changed."""
    if record.name not in examples():
        return
    text, before, after = examples()[record.name]
    states = (("", before), (" after", after))
    cells = [(suffix, *each.partition(": ")) for suffix, text in states for each in text.split("; ") if each]
    rows = [(f"{name}{suffix}", *values.split()) for suffix, name, _, values in cells]
    width = max(map(len, rows))
    padded = [(*row, *[""] * (width - len(row))) for row in rows]
    yield f"## Example\n\n`{text}` under e32, m1 and vl 8:\n\n" + _table(("", *map(str, range(width - 1))), padded)


def _references(record: Record) -> Iterator[str]:
    manual = extensions()[record.extension].manual.removeprefix("the ")
    manual = manual or ("V extension" if record.name.startswith("v") else "unprivileged ISA")
    yield f"## References\n\nManual, {manual}: section {record.section}."
    if record.intrinsic:
        yield f"In C: `{record.intrinsic}`."
    names = {it.name for it in instruction_records()}
    related = [f"[{name}]({name}.md)" if name in names else f"`{name}`" for name in record.see if name in records()]
    if related:
        yield f"Related: {', '.join(related)}."


def _table(head: tuple[str, ...], rows: Sequence[tuple[str, ...]]) -> str:
    lines = [head, ("---",) * len(head), *rows]
    return "\n".join(f"| {' | '.join(row)} |" for row in lines)


def picture(row: Row) -> str:
    """The 32 bits of an instruction as boxes, bit 31 first, with the fields below them, as a picture in SVG."""
    boxes, bit = list[str](), 31
    for name, bits in encoding_fields(row):
        left, is_fixed = (31 - bit) * BOX, set(name) <= {"0", "1"}
        fill, label = ("", "") if is_fixed else (' class="operand"', name)
        for at, text in enumerate(name if is_fixed else " " * bits):
            x = left + at * BOX
            boxes.append(
                f'<rect x="{x}" y="14" width="{BOX}" height="{BOX}"{fill}/><text x="{x + BOX // 2}" y="30">{text}</text>'
            )
        boxes.append(f'<text x="{left + BOX // 2}" y="10" class="bit">{bit}</text>')
        boxes.append(f'<text x="{left + bits * BOX // 2}" y="52">{label}</text>')
        bit -= bits
    title = re.sub(r"[<>&]", "", f"{row.name}: {' '.join(f'{name}' for name, _ in encoding_fields(row))}")
    return (
        f'<div><svg class="encoding" viewBox="0 0 {32 * BOX} 58" width="{32 * BOX}" role="img" aria-label="{title}">'
        + "".join(boxes)
        + "</svg></div>"
    )
