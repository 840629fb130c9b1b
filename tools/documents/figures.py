"""Compares docs/FIGURES.md with the sources, or writes it: `tools/documents/figures [--write | --exact]`, at the top of the repository.

The page has the counts of files, functions, lines, tests and cases, and of the repository's lists. They are counted in the sources and in
stored outputs; no test runs. It prints a line for each number of the page that differs, and then the exit status is 1. Sizes, which change
with most commits, differ only if they are more than a tenth, and more than 100, from those of the sources.

--write writes the page. --exact compares sizes like all other numbers, for a release.
"""

import re
import sys
from collections.abc import Iterable, Iterator, Sequence
from pathlib import Path

from tools.definitions.definition_figures import definition_tables
from tools.documents.figure_cases import case_table, list_table
from tools.documents.figure_sizes import size_tables
from tools.documents.figure_table import Table

PAGE = Path("docs/FIGURES.md")
INTRODUCTION = """\
# Figures

This page has the counts of files, functions, lines, tests and cases; other pages have none. `tools/documents/figures --write` writes it.
[MEASUREMENTS.md](MEASUREMENTS.md) has times and machine instructions.

The gate compares the numbers with the sources. Numbers below "Files, functions, lines and tests" may be a tenth away, or 100. At a release
they are exact.
"""
NUMBER = re.compile(r"(?<=\| )[\d,]+(?= \|)")
SLACK = 100  # the difference that every size may have


def all_tables() -> list[Table]:
    """Return the tables in the order of the page: those whose numbers are sizes come last."""
    return [list_table(), case_table(), *definition_tables(), *size_tables()]


def page_of(tables: Iterable[Table]) -> str:
    """Return the page."""
    return "\n".join([INTRODUCTION, *("\n".join([*table.lines(), ""]) for table in tables)])


def faults_in(page: str, tables: Sequence[Table], exact: bool) -> Iterator[str]:
    """Yield a message for each line of a page that differs from the tables.

    exact: whether sizes are compared exactly
    """
    found, expected = page.splitlines(), page_of(tables).splitlines()
    if len(found) != len(expected):
        yield f"{PAGE}: it has {len(found)} lines, and not {len(expected)}"
        return
    is_exact = {f"## {table.title}": exact or table.is_exact for table in tables}
    compares_exactly = True
    for number, (line, right) in enumerate(zip(found, expected), 1):
        compares_exactly = is_exact.get(right, compares_exactly)
        if NUMBER.sub("N", line) != NUMBER.sub("N", right):
            yield f"{PAGE}:{number}: it has '{line}', and not '{right}'"
        elif line != right and (compares_exactly or any(map(_is_far, _numbers(line), _numbers(right)))):
            yield f"{PAGE}:{number}: it has '{line}', and the sources have '{right}'"


def _numbers(line: str) -> list[int]:
    """Return the numbers in the cells of a row."""
    return [int(number.replace(",", "")) for number in NUMBER.findall(line)]


def _is_far(size: int, right: int) -> bool:
    """Return whether a size on the page is too far from that of the sources."""
    return abs(size - right) > max(right / 10, SLACK)


def main(arguments: list[str]) -> int:
    """Compare or write the page, and return the exit status."""
    if arguments not in ([], ["--write"], ["--exact"]):
        print("tools/documents/figures: usage: tools/documents/figures [--write | --exact]", file=sys.stderr)
        return 2
    tables = all_tables()
    if arguments == ["--write"]:
        PAGE.write_text(page_of(tables), "utf-8")
        return 0
    faults = [*faults_in(PAGE.read_text("utf-8"), tables, arguments == ["--exact"])]
    print("".join(f"{fault}\n" for fault in faults), end="")
    if faults:
        print("run tools/documents/figures --write")
    return 1 if faults else 0


if __name__ == "__main__":
    sys.exit(main(sys.argv[1:]))
