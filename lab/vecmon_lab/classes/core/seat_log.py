"""The log of a seat: the last entries of its console, and the last command with its answer."""

from collections import deque
from dataclasses import dataclass, field
from itertools import takewhile

from ...machine.answers import first_word

LOG_ENTRIES = 500


@dataclass(eq=False)
class SeatLog:
    """The log of a seat.

    entries: the last entries; the first character of each is its kind, as docs/CLASS_PROTOCOL.md lists them
    count: the number of all entries, including dropped ones
    command: the last command; answer: the last line of an answer to the seat. Both lack the user's digit.
    """

    entries: deque[str] = field(default_factory=lambda: deque(maxlen=LOG_ENTRIES))
    count: int = 0
    command: str = ""
    answer: str = ""

    def add(self, entry: str) -> None:
        """Add an entry. While a program prints without end, equal entries about its output are added once."""
        if _is_repeatable(entry) and entry in takewhile(_is_repeatable, reversed(self.entries)):
            return
        self.entries.append(entry)
        self.count += 1

    def since(self, count: int) -> list[str]:
        """Return the entries after the first `count` ones, without those that were dropped."""
        new = self.count - count
        return list(self.entries)[-new:] if new else []


def _is_repeatable(entry: str) -> bool:
    """Return whether an entry is about a full output buffer, or about the server that empties it."""
    return entry[0] == "=" or first_word(entry[1:]) == "outfull"
