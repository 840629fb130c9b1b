"""A table of docs/FIGURES.md: a section with a name and numbers in each row."""

import textwrap
from collections.abc import Sequence
from dataclasses import dataclass
from typing import NamedTuple

WIDTH = 140  # characters of a line of text


class Row(NamedTuple):
    """A row: its name, as Markdown, and its numbers, with None for a column that doesn't apply."""

    name: str
    numbers: Sequence[int | None]

    def line(self) -> str:
        """Return the row as Markdown."""
        return f"| {self.name} | {' | '.join('' if it is None else f'{it:,}' for it in self.numbers)} |"


@dataclass(frozen=True)
class Table:
    """A section of the page.

    title: the heading
    text: the paragraph above the table
    columns: the name of the first column, and those of the numbers
    is_exact: whether the gate compares each number; otherwise a number may be some way from that of the sources
    """

    title: str
    text: str
    columns: Sequence[str]
    rows: Sequence[Row]
    is_exact: bool = True

    def lines(self) -> list[str]:
        """Return the section as Markdown."""
        head = f"| {' | '.join(self.columns)} |"
        text = textwrap.wrap(self.text, WIDTH, break_long_words=False, break_on_hyphens=False)
        return [f"## {self.title}", "", *text, "", head, "|---" * len(self.columns) + "|"] + [
            row.line() for row in self.rows
        ]


def with_sums(rows: Sequence[Row]) -> list[Row]:
    """Return the rows, and below them a row with the sum of each column."""
    columns = zip(*(row.numbers for row in rows))
    return [*rows, Row("all", [sum(number or 0 for number in column) for column in columns])]
