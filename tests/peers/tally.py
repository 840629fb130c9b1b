"""The result of a comparison: cases that agree, those that are left out, and those that differ."""

from collections import Counter
from collections.abc import Iterator
from dataclasses import dataclass, field

SHOWN = 20


@dataclass
class Tally:
    """Counts of the cases of a comparison.

    what: the comparison; agreeing: cases with equal results; left_out: cases by the reason why their results aren't
    compared, or may differ; differing: a line for each other case
    """

    what: str
    agreeing: int = 0
    left_out: Counter[str] = field(default_factory=Counter)
    differing: list[str] = field(default_factory=list)

    def __add__(self, other: "Tally") -> "Tally":
        """Both together, under the name of the first."""
        left_out = self.left_out + other.left_out
        return Tally(self.what, self.agreeing + other.agreeing, left_out, self.differing + other.differing)

    def lines(self) -> Iterator[str]:
        """The counts, one a line, and the first cases that differ."""
        yield f"{self.what}: {self.agreeing:,} agree, {self.left_out.total():,} left out, {len(self.differing):,} differ"
        yield from (f"    left out: {count:,}: {reason}" for reason, count in self.left_out.most_common())
        yield from (f"    differs: {case}" for case in self.differing[:SHOWN])
        if len(self.differing) > SHOWN:
            yield f"    and {len(self.differing) - SHOWN:,} more"
