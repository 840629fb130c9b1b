"""Tables of pages in docs/, made from `vecmon_lab/tables`: commands, refusals; and one there, made from a page."""

import itertools
import operator
import re

from vecmon_lab.tables.table import read_table


def with_tables(page: str) -> str:
    """A page of docs/ with its tables of commands and refusals, each below the heading that names its section."""
    rows = [(section, f"`{form}`", *cells) for section, form, *cells in read_table("commands")]
    rows += [("Refusals", *cells) for cells in read_table("refusals")]
    for section, group in itertools.groupby(rows, operator.itemgetter(0)):
        found = re.search(rf"^#+ {section}\n(?:(?!#).*\n)*?\|.*\n(\|[-|]+)\n((?:\|.*\n)*)", page, re.MULTILINE)
        if found:
            lines = [[" " if cell == "-" else f" {cell} " for cell in row[1 : found[1].count("|")]] for row in group]
            page = page[: found.start(2)] + "".join(f"|{'|'.join(line)}|\n" for line in lines) + page[found.end(2) :]
    return page


def with_instructions(table: str, page: str) -> str:
    """The lab's table of instructions, whose comments stay, with the rows of the assembler's list or of docs/INSTRUCTIONS.md."""
    rows = re.findall(r"^\| `([a-z]\S*) ?([^`]*)` \| `([01 -]+)` \|", page, re.MULTILINE)
    comments = [line for line in table.splitlines() if line.startswith("#")]
    lines = [*comments, *(f"{name}  {operands or '-'}  {bits}" for name, operands, bits in rows)]
    return "".join(f"{line}\n" for line in lines)
