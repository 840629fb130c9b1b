"""Write the fourteen lessons of the tour (docs/TOUR.md), and a page with links to them."""

import argparse
import json
import pathlib
from collections.abc import Sequence
from dataclasses import replace
from itertools import islice

from ..compilers.variables import read_variables
from ..machine.lines import is_look, words_of
from ..machine.program import find_program
from ..page.build.html_elements import Html, element, joined, prose
from ..page.build.pages import filled_page, write_pages
from ..page.build.texts import page_text
from ..tables.table import read_table
from .script import Script, Step, add_line, read_assembled
from .series import Entry, make_series
from .series_links import lesson_link, read_mark
from .strip import strip_picture

TOURS = pathlib.Path(__file__).with_name("tours")
START = {"enter", "map", "asm"}  # commands at the start of a script that share one frame, which shows the program


def add_arguments(parser: argparse.ArgumentParser) -> None:
    """Add the arguments of `vecmon-lab tour` to its parser."""
    parser.add_argument(
        "folder", metavar="DIR", type=pathlib.Path, help="the folder of the pages, created if necessary"
    )


def run(arguments: argparse.Namespace) -> int:
    """Write the pages, and print their paths in the order of the tour. Raises LabError and OSError for bad input."""
    program, folder, scripts, title = find_program(), arguments.folder, tours(), page_text("tour.index")
    folder.mkdir(parents=True, exist_ok=True)
    sentences = {name: sentence for name, _, sentence in read_table("tours")}
    pages, entries = make_series("tour", program, {name: (script, sentences[name]) for name, script in scripts.items()})
    write_pages(folder, [("index", title, tour_page(title, entries)), *pages])
    return 0


def tours() -> dict[str, Script]:
    """Return the lessons of the tour in their order, by the names of their scripts."""
    return {name: _script(name, title) for name, title, _ in read_table("tours")}


def tour_page(title: str, entries: Sequence[Entry]) -> str:
    """Return the index of the lessons. Each has a link, its sentence and its picture."""
    return filled_page("tour", title, lessons=joined([_item(entry) for entry in entries]))


def _item(entry: Entry) -> Html:
    """Return the item of a lesson in the index."""
    mark = read_mark("tour", entry, page_text("tour.read"))
    sentence = element("p", prose(entry["sentence"]))
    return element("li", lesson_link(entry, entry["title"]), " ", mark, sentence, strip_picture(entry["strip"]))


def _script(name: str, title: str) -> Script:
    """Return the lesson of a script or a source of the tour.

    The comments on a script are in a file with the suffix .steps. Each of its lines has a number of script lines, and the comment on them.
    In the lesson of a compiled kernel, these lines are one frame.
    """
    source = TOURS / f"{name}.s"
    if source.exists():
        return replace(read_assembled(source.read_text("ascii"), source.name), title=title)
    lines, data_path = iter((TOURS / name).read_text("ascii").splitlines()), TOURS / f"{name}.json"
    steps: list[Step] = []
    for step_line in (TOURS / f"{name}.steps").read_text("utf-8").splitlines():
        number, _, note = step_line.partition(" ")
        if data_path.exists():
            steps.append(Step([*islice(lines, int(number))], note))
            continue
        for place in range(int(number)):
            _add_line(steps, next(lines), "" if place else note)
    if not data_path.exists():
        return Script(title, steps)
    names = json.loads(data_path.read_text("ascii"))
    variables, text = read_variables(names["variables"]), (TOURS / f"{name}.c").read_text("ascii")
    own = {key: names[key] for key in ("labels", "said", "starts")}
    return Script(title, steps, text=text, variables=variables, **own)


def _add_line(steps: list[Step], line: str, note: str) -> None:
    """Add a line as `add_line` does, but the first frame has all commands of START, and no read-only line."""
    commands = {words_of(each)[0] for each in [*steps[0].lines, line]} if len(steps) == 1 else set()
    if commands and not note and commands <= START:
        steps[0].lines.append(line)
    elif commands and is_look(line):
        steps.append(Step([line], note))
    else:
        add_line(steps, line, note)
