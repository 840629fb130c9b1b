"""Tables as plain text, and as HTML.

In the files of this folder, each line is a row, two or more spaces separate its cells, and a line that starts with # is a comment.
"""

import html
import pathlib
import re
from collections.abc import Iterable, Iterator, Sequence

_FORMULAS = ("=", "+", "-", "@", "\t", "\r")  # first characters of cells that a spreadsheet calculates


def read_table(name: str) -> list[list[str]]:
    """Return the rows of a table of this folder, each as a list of its cells. name: the name of the table's file without `.txt`"""
    lines = pathlib.Path(__file__).with_name(f"{name}.txt").read_text("utf-8").splitlines()
    return [re.split(" {2,}", line) for line in lines if line and not line.startswith("#")]


def table_lines(rows: Sequence[Sequence[object]], texts: int) -> Iterator[str]:
    """Yield the rows of a table as lines with aligned columns.

    texts: the number of columns with texts, which come first and are aligned left; the other columns are aligned right
    """
    widths = [max(len(str(cell)) for cell in column) for column in zip(*rows)]
    for row in rows:
        cells = [f"{cell!s:{'<' if at < texts else '>'}{width}}" for at, (cell, width) in enumerate(zip(row, widths))]
        yield "  ".join(cells).rstrip()


def html_table(rows: Sequence[Sequence[object]], texts: int) -> str:
    """Return rows as an HTML table, as notebooks show it; the first row is the head.

    texts: the number of columns with texts, which come first and are aligned left; the other columns are aligned right
    """
    lines = []
    for row, tag in zip(rows, ("th", *["td"] * len(rows))):
        sides = ["left" if at < texts else "right" for at in range(len(row))]
        cells = (f'<{tag} style="text-align: {side}">{html.escape(f"{cell}")}' for cell, side in zip(row, sides))
        lines.append(f"<tr>{''.join(cells)}")
    return f'<table style="font-family: monospace">{"".join(lines)}</table>'


def spreadsheet_row(cells: Iterable[object]) -> list[object]:
    """Return the cells of a row of CSV. A text that a spreadsheet would take as a formula gets a leading apostrophe."""
    return [f"'{cell}" if not isinstance(cell, int) and str(cell).startswith(_FORMULAS) else cell for cell in cells]
