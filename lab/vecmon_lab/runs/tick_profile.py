"""Where a run spends its ticks: its loops, its functions with their calls, and its source lines."""

import bisect
import functools
from collections import Counter, defaultdict
from collections.abc import Iterable, Iterator, Sequence
from dataclasses import dataclass

from ..guest.symbols import Symbols
from ..instructions.words import listed
from ..tables.table import html_table
from .callers import Callers
from .counts import CountedWord, Counts

BRANCH, JAL, JALR = 0x63, 0x6F, 0x67  # opcodes
LINKS = (1, 5)  # registers that a call leaves its return address in
TableRow = Sequence[str | int]

ELEMENTS = ("active", "masked off", "tail", "work")
"""Columns of elements of register groups. Work is the share of active elements. Without elements, all columns are ""."""


@dataclass(frozen=True)
class Table:
    """A table of a profile.

    name: the title; head: the columns; texts: the number of text columns; rows: the greatest first
    """

    name: str
    head: Sequence[str]
    texts: int
    rows: Sequence[TableRow]

    def _repr_html_(self) -> str:
        return html_table([self.head, *self.rows], self.texts)


class TickProfile:
    """The ticks of a run, by places of its image."""

    def __init__(self, counts: Counts, symbols: Symbols, entry: int) -> None:
        self._counts, self._symbols = counts, symbols
        words = {place.address: place.word for place in counts.places}
        calls = {key: times for key, times in counts.calls.items() if _links(words.get(key[0], 0))}
        sized = (symbols.addresses[name] for name, size in symbols.sizes.items() if size)
        self._functions = sorted({entry, *sized, *(target for _, target in calls)})
        self._calls = Counter[tuple[str, str]]()
        for (pc, target), times in calls.items():
            self._calls[self.function(pc), self.function(target)] += times
        self.callers = Callers(self.ticks(False), self._calls, self.function(entry))
        """The ticks of functions, with those of their callees."""

    def function(self, address: int) -> str:
        """Return the function that contains an address.

        A function begins at the target of a call, at a symbol with a size, or at the entry.
        """
        at = bisect.bisect_right(self._functions, address) - 1
        start = self._functions[max(at, 0)]
        name = self._symbols.place(start)
        return name if name and "+" not in name else f"{start:x}"

    def tables(self) -> Iterator[Table]:
        """Yield the tables of loops, functions, calls and source lines. A table may be empty."""
        ticks_spent = ("instructions", "ticks", "share", *ELEMENTS)
        yield Table("Loops", ("loop", "to", "place", "source", "rounds", *ticks_spent), 4, _sorted(self._loops(), -6))
        functions = self._summed((self.function(place.address), place) for place in self._counts.places)
        called = Counter[str]()
        for (_, callee), times in self._calls.items():
            called[callee] += times
        rows = [(name, called[f"{name}"], round(self.callers.total[f"{name}"]), *row) for name, *row in functions]
        yield Table("Functions", ("function", "called", "with callees", *ticks_spent), 1, _sorted(rows, -6))
        yield Table("Calls", ("caller", "callee", "calls", "ticks"), 2, _sorted(self.callers.edges(), -1))
        lines = [(self._symbols.line(place.address), place) for place in self._counts.places]
        of_lines = self._summed((line, place) for line, place in lines if line)
        yield Table("Source lines", ("source", *ticks_spent), 1, _sorted(of_lines, -6))

    def ticks(self, by_line: bool) -> Counter[str]:
        """Return the ticks of each source line or function. Instructions without a source line count for their function."""
        ticks = Counter[str]()
        for place in self._counts.places:
            name = self._symbols.line(place.address) if by_line else ""
            ticks[name or self.function(place.address)] += place.ticks
        return ticks

    @functools.cached_property
    def source_files(self) -> set[str]:
        """The source files of the executed instructions. Instructions without a source line are ignored."""
        lines = (self._symbols.line(place.address) for place in self._counts.places)
        return {line.rpartition(":")[0] for line in lines if line}

    def _loops(self) -> Iterator[TableRow]:
        """Yield a row for each loop.

        A loop begins at an address to which an instruction in the same function jumps back, and ends with the last such jump.
        """
        places = self._counts.places
        addresses, ends = [place.address for place in places], dict[int, int]()
        for place in places:
            head = place.address + _offset(place.word)
            if head <= place.address and self.function(head) == self.function(place.address):
                ends[head] = place.address
        for head, last in ends.items():
            body = places[bisect.bisect_left(addresses, head) : bisect.bisect_right(addresses, last)]
            rounds = sum(place.times for place in body if place.address == head)
            if rounds < 2:  # nothing has led back there
                continue
            where = (f"{head:x}", f"{last:x}", self._symbols.place(head), self._lines(body))
            yield (*where, rounds, *self._spent(body))

    def _lines(self, places: Sequence[CountedWord]) -> str:
        """Return the source lines of places, as `sum.c:20-24`; if they are in several files, those of the first one."""
        lines = [line.rpartition(":") for place in places if (line := self._symbols.line(place.address))]
        numbers = sorted(int(number) for file, _, number in lines if file == lines[0][0])
        if not numbers:
            return ""
        return f"{lines[0][0]}:{numbers[0]}" + (f"-{numbers[-1]}" if numbers[-1] > numbers[0] else "")

    def _summed(self, named: Iterable[tuple[str, CountedWord]]) -> Iterator[TableRow]:
        """Yield a row for each name, with the totals of its places."""
        groups = defaultdict[str, list[CountedWord]](list)
        for name, place in named:
            groups[name].append(place)
        for name, places in groups.items():
            yield (name, *self._spent(places))

    def _spent(self, places: Sequence[CountedWord]) -> Iterator[str | int]:
        """Yield the numbers of instructions and ticks, the share of all ticks, and the columns of elements."""
        ticks = sum(place.ticks for place in places)
        yield sum(place.times for place in places)
        yield ticks
        yield share(ticks, self._counts.ticks)
        yield from elements_row([sum(numbers) for numbers in zip(*(place.elements for place in places))])


def elements_row(elements: Sequence[int]) -> TableRow:
    """Return the cells of a row for the columns of ELEMENTS.

    elements: the numbers of active, masked-off and tail elements; if all are 0, the cells are ""
    """
    return [*elements, share(elements[0], sum(elements))] if sum(elements) else [""] * len(ELEMENTS)


def share(number: int, whole: int) -> str:
    """Return a percentage as text."""
    return f"{100 * number / max(1, whole):.0f} %"


def compared(ours: TickProfile, theirs: TickProfile) -> Iterator[Table]:
    """Yield tables that compare the ticks of two runs, the largest savings first.

    One table is by source lines, if both runs have some, and one by functions.
    """
    for by_line in (True, False) if ours.source_files and theirs.source_files else (False,):
        mine, others = ours.ticks(by_line), theirs.ticks(by_line)
        rows = [(name, mine[name], others[name], mine[name] - others[name]) for name in dict.fromkeys([*mine, *others])]
        what, title = ("source", "Source lines") if by_line else ("function", "Functions")
        head = (what, "ticks", "against", "change")
        yield Table(f"{title} against the other image", head, 1, sorted(rows, key=lambda row: row[3]))


def unmatched(ours: TickProfile, theirs: TickProfile) -> Iterator[str]:
    """Yield sentences about rows of `compared` without a counterpart: lines of files in only one program, or all functions."""
    mine, others = ours.source_files, theirs.source_files
    if mine and others and mine != others:
        yield f"the lines of {listed(sorted(mine ^ others))} are in one program only: they are compared with 0"
    if not ours.ticks(False).keys() & theirs.ticks(False).keys():
        yield "no function is in both programs: each is compared with 0"


def _sorted(rows: Iterable[TableRow], column: int) -> list[TableRow]:
    """Return rows in falling order of a column."""
    return sorted(rows, key=lambda row: -int(row[column]))


def _links(word: int) -> bool:
    """Return whether a word is a jump that saves its return address."""
    return word & 0x7F in (JAL, JALR) and word >> 7 & 31 in LINKS


def _offset(word: int) -> int:
    """Return the distance of a branch, or of a jump that saves no return address; 4 for any other word."""
    sign = -(word >> 31)
    if word & 0x7F == BRANCH:
        return sign << 12 | (word >> 7 & 1) << 11 | (word >> 25 & 0x3F) << 5 | (word >> 8 & 0xF) << 1
    if word & 0xFFF == JAL:
        return sign << 20 | (word >> 12 & 0xFF) << 12 | (word >> 20 & 1) << 11 | (word >> 21 & 0x3FF) << 1
    return 4
