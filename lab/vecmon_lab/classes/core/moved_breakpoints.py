"""Breakpoints of a program, moved to the program of a changed source."""

from collections import Counter
from collections.abc import Iterable, Sequence
from difflib import SequenceMatcher

from ...assembler.source import Program
from ...compilers.compiled import CompiledProgram

MAX_BREAKPOINTS = 16  # of a user
MAX_EQUAL_PAIRS = (
    100_000  # the most pairs of an old line and an equal new line; the time of a comparison grows with their number
)


def moved_breakpoints(addresses: Iterable[int], before: Program, old: str, after: Program, new: str) -> list[int]:
    """Return the addresses of breakpoints at the same lines of a changed source, in rising order.

    before, old: the program with these breakpoints, and its source; after, new: the program and the source that replace them
    A breakpoint that is at no line, or whose line is gone, is left out. At most MAX_BREAKPOINTS are returned.
    """
    lines, firsts, starts = _moved_lines(old, new), before.addresses(), after.addresses()
    moved = set[int]()
    for address in addresses:
        number = before.line_at(address)
        line = lines.get(number, 0)
        if isinstance(after, CompiledProgram) and line in after.stops:
            moved.update(after.stops[line])
        elif line in starts:
            place = starts[line] + address - firsts.get(number, address)
            moved.add(place if after.line_at(place) == line else starts[line])
    return sorted(moved)[:MAX_BREAKPOINTS]


def _moved_lines(old: str, new: str) -> dict[int, int]:
    """Return the new number of each line of a text in a changed text, by its old number. Numbers start at 1.

    Lines that are gone are left out. If the lines from the first change to the last one have too many equal pairs to compare, they
    all count as replaced.
    """
    before, after = old.split("\n"), new.split("\n")
    head = _equal_at_start(before, after)
    tail = _equal_at_start(before[head:][::-1], after[head:][::-1])
    moved = {number: number for number in range(1, head + 1)}
    moved.update((len(before) - place, len(after) - place) for place in range(tail))
    own, other = before[head : len(before) - tail], after[head : len(after) - tail]
    for kind, first, last, start, end in _changes(own, other):
        if kind == "equal" or kind == "replace" and last - first == end - start:
            moved.update(zip(range(head + first + 1, head + last + 1), range(head + start + 1, head + end + 1)))
    return moved


def _equal_at_start(before: Sequence[str], after: Sequence[str]) -> int:
    """Return how many lines at the start of two texts are equal."""
    pairs = enumerate(zip(before, after))
    return next((place for place, (own, other) in pairs if own != other), min(len(before), len(after)))


def _changes(before: Sequence[str], after: Sequence[str]) -> Sequence[tuple[str, int, int, int, int]]:
    """Return the changes between two lists of lines, as `SequenceMatcher.get_opcodes` does.
    If the lists have too many equal pairs, the whole first list counts as replaced by the second one.
    """
    counts, others = Counter(before), Counter(after)
    if sum(count * others[line] for line, count in counts.items()) > MAX_EQUAL_PAIRS:
        return [("replace", 0, len(before), 0, len(after))]
    return SequenceMatcher(None, before, after, autojunk=False).get_opcodes()
