"""The code that compilers generate for a C source, on one page with listings side by side.

Each line of the source is followed by its instructions, with the number of times that each was executed, and its numbers of elements.
"""

import json
import os
import pathlib
import sys
from collections.abc import Iterator, Sequence
from dataclasses import dataclass
from itertools import islice, pairwise

from ..compilers.compiled import CompiledProgram, read_compiled_program
from ..guest.guest import Guest
from ..machine.session import Session
from ..page.build.html_elements import Html, cell, element, elements_bar, joined, legend
from ..page.build.pages import filled_page
from ..page.build.texts import page_text
from ..runs.initial_state import initial_state_at
from ..runs.counts import CountedWord
from ..runs.profile import summary_of
from ..runs.recorder import record
from .script import send

MAX_TICKS, MAX_WORDS = 50_000, 4000


@dataclass(frozen=True)
class CompiledListing:
    """The code of one compiler for a source.

    name: the compiler with its options
    summary: sentences about the counts
    rows: for each instruction its address, the number of its line in the source, the name of the function that was inlined there ("" for
        none), its text, the number of times that it was executed, and its numbers of active, masked-off and tail elements
    """

    name: str
    summary: Sequence[str]
    rows: Sequence[Sequence[int | str]]


def listing_of(program: CompiledProgram, name: str, machine: pathlib.Path) -> CompiledListing:
    """Run a program on a new machine to its end, or for MAX_TICKS ticks; return its listing.

    name: the compiler with its options; machine: the path of vecmon

    Raises LabError if the machine refuses the program.
    """
    lines = {address: (line, inlined) for address, line, inlined in program.rows}
    of_source = [(range(first, end, 4), lines[first]) for first, end in pairwise(lines) if lines[first][0]]
    lines = dict(islice(((address, line) for run, line in of_source for address in run), MAX_WORDS))
    with Session(machine) as session:
        guest = Guest(session)
        send(guest, ["enter", *program.load_lines()])
        words = guest.words(lines)
        counts, stop = record(initial_state_at(guest), MAX_TICKS), guest.go(MAX_TICKS)
        end = f"status {stop.number}" if stop and stop.kind == "exit" else guest.describe(stop)
    by_address = {place.address: place for place in counts.places}
    places = [(word, by_address.get(word.address, CountedWord(word.address, word.word))) for word in words]
    rows: list[Sequence[int | str]] = [
        (f"{word.address:x}", *lines[word.address], word.text, it.times, *it.elements) for word, it in places
    ]
    return CompiledListing(name, [*summary_of(counts, end)], rows)


def listings_page(title: str, text: str, listings: Sequence[CompiledListing]) -> str:
    """Return the page with listings of a source, in HTML. text: the source"""
    heads = [[element("h2", it.name), *(element("p", line) for line in it.summary)] for it in listings]
    head = element("tr", *(element("th", *contents, scope="col") for contents in heads))
    rows = [element("thead", head), element("tbody", *_source_lines(text.split("\n"), listings))]
    return filled_page("listings", title, legend=legend(), rows=joined(rows))


def _source_lines(lines: Sequence[str], listings: Sequence[CompiledListing]) -> Iterator[Html]:
    """Yield a row for each line of the source. If a listing has instructions of this line, yield another row with them."""
    for number, text in enumerate(lines, 1):
        tables = [_instructions_of(listing, number) for listing in listings]
        head = element("span", f"{number}", class_="number")
        line = element("th", head, " ", text, scope="rowgroup", colspan=len(listings))
        yield element("tr", line, class_="made" * any(tables))
        if any(tables):
            yield element("tr", *(element("td", table) for table in tables))


def _instructions_of(listing: CompiledListing, line: int) -> Html:
    """Return a table with the instructions of a line, with a gap where instructions of other lines are; empty if it has none."""
    made, end = list[Html](), 0
    for place, _, inlined, text, times, *elements in (row for row in listing.rows if row[1] == line):
        address = int(f"{place}", 16)
        if made and address != end:
            made.append(element("tr", cell("⋯", "gap")))
        end = address + 4
        name = [element("small", f" {inlined}")] if inlined else []
        cells = [cell(times), cell(place, tag="th"), element("td", f"{text}", *name, class_="text")]
        made.append(element("tr", *cells, elements_bar([int(it) for it in elements]), class_="" if times else "unused"))
    caption = element("caption", page_text("listings.instructions"), class_="unseen")
    return element("table", caption, element("tbody", *made)) if made else Html()


if __name__ == "__main__":
    os.nice(10)
    source, made = json.load(sys.stdin)
    sides = [
        listing_of(read_compiled_program(reply.encode("utf-8")), name, pathlib.Path(sys.argv[1]))
        for name, reply in made
    ]
    sys.stdout.write(listings_page("Side by side", source, sides))
