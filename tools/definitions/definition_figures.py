"""The tables of docs/FIGURES.md that count lines of definitions."""

import re
from collections.abc import Iterator, Mapping
from pathlib import Path

from tools.definitions import definitions as counted
from tools.definitions.kit_definitions import report
from tools.documents.figure_table import Row, Table

GUIDE = Path("docs/DEFINITIONS.md")
HOUR, ALL = "An hour: the headline and one vector addition", "All of them"
OUTSIDE = {"lending": "`specs/lending`", "src": "constants of `src`"}
"""The rows of parts of `rv_model` outside of its modules."""
REPORTED = re.compile(r" *([\d,]+)  in (\d+) files: (types of src|text of the kit)")


def definition_tables() -> Iterator[Table]:
    """Yield the tables."""
    yield Table(
        "Definitions",
        "[DEFINITIONS.md](DEFINITIONS.md#all-of-them) has their order. Blank lines, comments and `use` lines aren't counted, nor are "
        "types of `src`.",
        ("definitions", "lines"),
        [*_module_rows()],
    )
    yield Table(
        "Definitions behind the headline",
        "The hour is the path from the headline to one vector addition, by the rows of [DEFINITIONS.md]"
        "(DEFINITIONS.md#an-hour-the-headline-and-one-vector-addition).",
        ("definitions", "lines", "files"),
        [*_headline_rows(), *_hour_rows()],
    )


def rows_of(page: str, title: str) -> Iterator[list[str]]:
    """Yield the cells of each row of the table below a title, without its head."""
    section = page.partition(f"\n## {title}\n")[2].partition("\n## ")[0]
    for line in re.findall(r"^\|(.*)\|$", section, re.MULTILINE)[2:]:
        yield [cell.strip() for cell in line.split("|")]


def files_in(cell: str) -> list[str]:
    """Return the files that a cell names: one without a folder is in that of the file before it."""
    found, folder = list[str](), ""
    for name in re.findall(r"`([\w/]+)`", cell):
        folder = f"{name.rpartition('/')[0]}/" if "/" in name else folder
        found.append(name if "/" in name else folder + name)
    return found


def hour_files() -> dict[str, int]:
    """Return the lines of each file of the hour's path, by its name in the page."""
    return {
        str(path.with_suffix("")).removeprefix("rv_model/specs/"): lines for path, lines in counted.addition().items()
    }


def parts() -> dict[str, int]:
    """Return the lines outside of `rv_model/specs`, by crate or folder."""
    return counted.by_part(counted.files_of(counted.definitions()))


def _module_rows() -> Iterator[Row]:
    """Yield a row for each module of `rv_model`, for each part outside of them, and for all."""
    modules = counted.module_files()
    for name, files in modules.items():
        yield Row(f"the module `{name}`", [sum(files.values())])
    for name, lines in parts().items():
        yield Row(OUTSIDE.get(name, f"of the crate `{name}`"), [lines])
    yield Row("the names of the modules", [counted.lines_of(counted.source_of(counted.MODEL / "Lib.antt"))])
    yield Row("all", [counted.total_of(modules, parts())])


def _headline_rows() -> Iterator[Row]:
    """Yield the rows of the definitions, types and text of the kit that the headline rests on."""
    yield _row("the headline: definitions", counted.files_of(counted.closure(counted.start_of(counted.HEADLINE))))
    for found in filter(None, map(REPORTED.fullmatch, report())):
        yield Row(f"the headline: {found[3]}", [int(found[1].replace(",", "")), int(found[2])])


def _hour_rows() -> Iterator[Row]:
    """Yield a row for each row of the hour's table, and for all of them."""
    read = hour_files()
    for name, files in rows_of(GUIDE.read_text("utf-8"), HOUR):
        yield _row(f"the hour: {name}", {file: read.get(file, 0) for file in files_in(files)})
    yield _row("the hour: all", read)


def _row(name: str, files: Mapping[Path, int] | Mapping[str, int]) -> Row:
    """Return a row of lines and files."""
    return Row(name, [sum(files.values()), len(files)])
