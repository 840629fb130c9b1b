"""Show where an image spends its ticks, and how many of its vector elements are active: tables, a CSV file, a page."""

import argparse
import csv
import pathlib
import sys
from collections.abc import Iterator

from .. import LabError
from ..arguments import add_image, check_outputs, image_path
from ..guest.symbols import Symbols
from ..page.build.texts import page_text
from ..tables.table import spreadsheet_row, table_lines
from .counts import Counts
from .profile_page import profile_page
from .tick_profile import ELEMENTS, TickProfile, Table, TableRow, compared, elements_row, share, unmatched
from .run import counted, ending, report_calls, status_of

HEAD = ("address", "place", "source", "instruction", "times", "ticks", *ELEMENTS)
SHOWN_ROWS = 10  # rows of a table in a terminal, at most


def add_arguments(parser: argparse.ArgumentParser) -> None:
    """Add the arguments of `vecmon-lab profile`."""
    add_image(parser)
    parser.add_argument("-o", dest="page", metavar="FILE.html", type=pathlib.Path, help="write a page, and FILE.csv")
    help_ = "compare with another image or source, such as an earlier one"
    parser.add_argument("--against", metavar="IMAGE", help=help_)


def run(arguments: argparse.Namespace) -> int:
    """Print the tables, and write the page and the CSV file. Raises LabError and OSError for bad input.

    Return 0, or the status of `vecmon-lab run` if the program didn't exit.
    """
    image, page = arguments.image, arguments.page
    other = image_path(arguments.against, arguments) if arguments.against else None
    if page and page.suffix != ".html":
        raise LabError(f"-o names a page, FILE.html, and {page} is none")
    inputs: list[pathlib.Path] = [path for path in (image, arguments.input, other) if path]
    check_outputs([page, page and page.with_suffix(".csv")], *inputs)
    counts, symbols, ticks_spent, summary = _profiled(arguments, image)
    tables = [table for table in ticks_spent.tables() if table.rows]
    if other:
        _, _, theirs, more = _profiled(arguments, other)
        tables = [*compared(ticks_spent, theirs), *tables]
        summary += [f"against {other.name}: {line}" for line in [*more, *unmatched(ticks_spent, theirs)]]
    rows = [*_rows(counts, symbols)]
    lines = [line for table in tables for line in (*_shown(table), "")]
    print("\n".join([*lines, *table_lines([HEAD, *rows], 4), "", *_histogram(counts), "", *summary]))
    if page:
        with page.with_suffix(".csv").open("w", newline="", encoding="utf-8") as file:
            csv.writer(file).writerows(map(spreadsheet_row, [HEAD, *rows]))
        lengths = [(kind, vl, times) for (kind, vl), times in sorted(counts.lengths.items())]
        title, frames = page_text("profile.page", image=image.name), ticks_spent.callers.frames()
        page.write_text(profile_page(title, summary, tables, lengths, frames, rows), "utf-8")
    return status_of(counts.stop, image)


def _profiled(arguments: argparse.Namespace, image: pathlib.Path) -> tuple[Counts, Symbols, TickProfile, list[str]]:
    """Return the counts of an image's run, its symbols, the profile of its ticks, and a summary in sentences."""
    words = argparse.Namespace(**{**vars(arguments), "image": image})
    symbols, counts = Symbols.read(image), counted(words)
    if symbols.warning:
        print(f"vecmon-lab: {symbols.warning}", file=sys.stderr)
    report_calls(words, counts, symbols)
    entry = int.from_bytes(image.read_bytes()[24:32], "little")  # e_entry
    return counts, symbols, TickProfile(counts, symbols, entry), [*summary_of(counts, ending(words, counts, symbols))]


def _rows(counts: Counts, symbols: Symbols) -> Iterator[TableRow]:
    """Yield a row for each executed instruction, by rising address."""
    for place in counts.places:
        where = (f"{place.address:x}", symbols.place(place.address), symbols.line(place.address))
        yield [*where, counts.texts[place.word], place.times, place.ticks, *elements_row(place.elements)]


def _shown(table: Table) -> Iterator[str]:
    """Yield the first rows of a table as text."""
    yield from table_lines([table.head, *table.rows[:SHOWN_ROWS]], table.texts)
    if len(table.rows) > SHOWN_ROWS:
        yield f"and {len(table.rows) - SHOWN_ROWS:,} more, which -o FILE.html shows"


def summary_of(counts: Counts, end: str) -> Iterator[str]:
    """Yield sentences with the totals of the executed instructions, and with the end of the run."""
    elements = counts.elements
    yield f"{counts.instructions:,} instructions in {counts.ticks:,} ticks; {end}"
    if sum(elements):
        kinds = "{:,} elements {:,} were active, {:,} masked off and {:,} in the tail".format(sum(elements), *elements)
        work = share(elements[0], sum(elements))
        yield f"{counts.lengths.total():,} vector instructions: of their {kinds}; {work} did work"


def _histogram(counts: Counts) -> Iterator[str]:
    """Yield the vector lengths by vector type, each with a bar."""
    limit = max(counts.lengths.values(), default=1)
    for (kind, vl), times in sorted(counts.lengths.items()):
        yield f"{kind:<14} vl={vl:<4} {times:>10,}  {'#' * -(-40 * times // limit)}"
