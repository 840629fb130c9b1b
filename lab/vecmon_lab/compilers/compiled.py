"""A compiled source as monitor lines that load its image, so that a replay needs no compiler."""

import bisect
import json
import math
import re
from collections.abc import Callable, Iterable, Iterator, Mapping, Sequence
from dataclasses import dataclass, field, replace
from itertools import groupby, islice
from typing import Any

from .. import LabError, SourceMistakes
from ..assembler.source import Program, SourceError
from ..guest.entries import NAME_LETTERS
from ..guest.guest import pokes
from ..instructions.accesses import PAGE_BYTES, ROW_BYTES
from .compiler import OWN_SOURCES
from .debug import MESSAGE_LETTERS, MAX_BYTES, MAX_MESSAGES, MAX_ROWS, MAX_SEGMENTS, MAX_STOPS, MAX_SYMBOLS
from .failures import ToolError
from .variables import Variable, read_variables

IMAGE_BYTES, IMAGE_PAGES = 1 << 16, 200  # largest number of bytes that aren't zeros, and of pages

_DATA = re.compile(rb"[^\0]+(?:\0{1,15}[^\0]+)*")  # matches bytes with at most 15 successive zeros between them

Isolation = Callable[[Sequence[str], str], bytes]
"""Runs `sandbox_main` with arguments for a source of others, isolated from the user's files; returns its output."""


@dataclass(frozen=True)
class CompiledProgram(Program):
    """A program that a compiler made.

    rows: the addresses where instructions of another line begin, in rising order. Each row has the address, the number of the line (0 for
        none), and the name of the function that was inlined there ("" for none).
    variables: the variables in the source's debug data
    stops: the addresses of breakpoints, by line number
    entries: the first addresses of functions and their inlined copies, by name
    reply: the output of the compiler's process from which the program was read
    """

    rows: Sequence[tuple[int, int, str]] = ()
    variables: Sequence[Variable] = ()
    stops: Mapping[int, Sequence[int]] = field(default_factory=dict)
    entries: Mapping[str, Sequence[int]] = field(default_factory=dict)
    reply: bytes = b""

    def check(self, name: str) -> None:
        """Raise SourceMistakes, with a line for each mistake, if the source has mistakes. name: the source's name in these lines"""
        if self.mistakes:
            raise SourceMistakes("\n".join(error.diagnostic(name) for error in self.mistakes))

    def text(self) -> range:
        """Return the addresses of the program's instructions."""
        return range(self.rows[0][0], self.rows[-1][0], 4) if self.rows else range(0)

    @property
    def size(self) -> int:
        """The number of the program's instructions."""
        return len(self.text())

    def line_at(self, address: int) -> int:
        """Return the source line of the instruction at an address; 0 if it belongs to none."""
        at = bisect.bisect_right(self.rows, address, key=lambda row: row[0])
        return self.rows[at - 1][1] if at else 0

    def line_starts(self) -> dict[str, int]:
        """Return the number of the line (0 for none) for each address where instructions of another line begin.

        The addresses are in hexadecimal digits. An instruction belongs to the line of the last such address at or below its own address.
        """
        numbers = {address: number for address, number, _ in self.rows}  # the last row at each address
        pairs = zip(numbers.items(), [None, *numbers.values()])
        return {f"{address:x}": number for (address, number), before in pairs if number != before}

    def line_stops(self) -> dict[str, list[str]]:
        """Return the addresses of each line's breakpoints, in hexadecimal digits, by the line's number, in decimal digits."""
        return {f"{number}": [f"{address:x}" for address in addresses] for number, addresses in self.stops.items()}

    def source_lines(self, text: str) -> dict[str, str]:
        """Return the number and the text of each source line that has instructions, as one text, by the address where the line begins.

        The addresses are in hexadecimal digits. If instructions of a line are in several places, each place has an entry. text: the source
        """
        lines = ["", *text.split("\n")]
        texts, before = {}, 0
        for address, number, inlined in self.rows:
            if number != before and 0 < number < len(lines):
                of = f"  ({inlined}, inlined)" if inlined else ""
                texts[f"{address:x}"] = f"{number}  {lines[number].strip()}{of}"
            before = number
        return texts

    def addresses(self) -> dict[int, int]:
        """Return the address of the first instruction of each line that has one, by line number."""
        return {number: address for address, number, _ in reversed(self.rows) if number}


def read_compiled_program(reply: bytes, limit: int = IMAGE_BYTES) -> CompiledProgram:
    """Parse the program that `sandbox_main` printed. Raises LabError if the text is malformed, or the program is too large.

    Raises ToolError if the compiler failed for a reason outside the source.
    """
    errors, warnings = list[SourceError](), list[SourceError]()
    try:
        answer = json.loads(reply)
        if failure := answer.get("failure"):
            raise ToolError(str(failure)[:MESSAGE_LETTERS])
        for line, column, is_error, text in answer["messages"][:MAX_MESSAGES]:
            (errors if is_error else warnings).append(SourceError(int(line), int(column), str(text)[:MESSAGE_LETTERS]))
        if errors:
            return CompiledProgram([], {}, [], 0, errors, warnings=warnings)
        program = program_of(answer["image"], warnings, limit)
        program.names()  # so that a malformed field is reported now
        return replace(program, reply=reply)
    except (ValueError, TypeError, LookupError, AttributeError, RecursionError, OverflowError) as error:
        raise LabError("the compiler's output can't be read") from error


def program_of(
    image: Mapping[str, Any], warnings: Sequence[SourceError] = (), most_bytes: int = IMAGE_BYTES
) -> CompiledProgram:
    """Return the program of an image. Raises LabError if the image is too large.

    image: the image in the form of `debug.Image`; warnings: the compiler's warnings
    most_bytes: the largest number of bytes that aren't zeros
    """
    segments = [(address, rights, size, bytes.fromhex(data)) for address, rights, size, data in image["segments"]]
    if len(segments) > MAX_SEGMENTS or not all(0 < size <= MAX_BYTES for _, _, size, _ in segments):
        raise LabError(f"the image has more than {MAX_SEGMENTS} segments, or one of more than {MAX_BYTES:,} bytes")
    pages = rights_by_page((address, rights, size) for address, rights, size, _ in segments)
    pieces = [(address + piece.start(), piece[0]) for address, _, _, data in segments for piece in _DATA.finditer(data)]
    size = sum(len(data) for _, data in pieces)
    if len(pages) > IMAGE_PAGES or size > most_bytes:
        limit = f"{IMAGE_PAGES} pages and {most_bytes:,} bytes that aren't zeros"
        raise LabError(f"the program has {len(pages)} pages and {size:,} bytes; {limit} are the most")
    lines = [*maps(pages), *(line for address, data in pieces for line in pokes(address, data))]
    rows = [(int(address), _own_line(line), str(inlined)) for address, line, inlined in image["rows"][:MAX_ROWS]]
    labels = dict(islice(dict(image["symbols"]).items(), MAX_SYMBOLS))
    variables = read_variables(image["variables"])
    stops, entries = _stops(image.get("stops"), rows)
    entry = int(image["entry"])
    return CompiledProgram(lines, labels, [], entry, [], rows, variables, stops, entries, warnings=warnings)


def variable_rows(variables: Sequence[Variable]) -> list[int]:
    """Return the addresses of the rows of memory that have numbers of global variables, in the order of the variables."""
    rows = dict[int, None]()
    for variable in variables:
        size = int(variable.element[1:]) // 8 * math.prod(variable.counts) if variable.element else 0
        for first in (int(it.offset, 16) for it in variable.locations if it.kind == "memory" and not it.register):
            rows |= dict.fromkeys(range(first // ROW_BYTES * ROW_BYTES, first + min(size, PAGE_BYTES), ROW_BYTES))
    return list(rows)


def _stops(
    addresses_by_name: Mapping[str, Sequence[int]] | None, rows: Sequence[tuple[int, int, str]]
) -> tuple[dict[int, list[int]], dict[str, list[int]]]:
    """Return the addresses of breakpoints in two mappings: by the number of a line, and by the name of a function.

    addresses_by_name: the addresses by line or function, as in `debug.Image`. It is None for an image of version 1.0; then the breakpoints of a
    line are where its instructions begin.
    rows: as in `CompiledProgram`
    """
    stops, entries = dict[int, list[int]](), dict[str, list[int]]()
    for name, addresses in islice((addresses_by_name or {}).items(), MAX_ROWS):
        places = sorted({int(address) for address in islice(addresses, MAX_STOPS)})
        if number := _own_line(name):
            stops[number] = places
        else:
            entries[name[:NAME_LETTERS]] = places
    for (address, number, _), before in zip(
        rows if addresses_by_name is None else (), [0, *(number for _, number, _ in rows)]
    ):
        if number not in (0, before):
            stops.setdefault(number, []).append(address)
    return stops, entries


def _own_line(line: str) -> int:
    """Return the number of a line of the source, such as 12 for `source.c:12`; 0 for a line of another file."""
    file, _, number = line.rpartition(":")
    return int(number) if file in OWN_SOURCES else 0


def rights_by_page(segments: Iterable[tuple[int, str, int]]) -> dict[int, str]:
    """Return the permissions of each page, by its address. A page has the permissions of all segments in it."""
    pages: dict[int, str] = {}
    for address, rights, size in segments:
        for page in range(address // PAGE_BYTES * PAGE_BYTES, address + size, PAGE_BYTES):
            own = pages.get(page, "") + rights
            pages[page] = "".join(letter for letter in "rwx" if letter in own)
    return pages


def maps(pages: Mapping[int, str]) -> Iterator[str]:
    """Yield the lines that map pages. Consecutive pages with equal permissions need only one line."""
    ordered = enumerate(sorted(pages.items()))
    numbered = ((page - PAGE_BYTES * place, rights, page) for place, (page, rights) in ordered)
    for (_, rights), run in groupby(numbered, key=lambda each: each[:2]):
        found = [page for _, _, page in run]
        yield f"map {found[0]:x} {len(found)} {rights}"
