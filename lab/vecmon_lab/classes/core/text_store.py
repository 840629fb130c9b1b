"""A store of texts by their names: the folder of a class, or a page."""

from collections.abc import Iterator
from typing import Protocol


class TextStore(Protocol):
    """Texts by name, each with the time when it was saved, in seconds since 1970."""

    def files(self, pattern: str) -> Iterator[tuple[str, float]]:
        """Return the names that match a pattern such as `A1.*`, each with the time when its text was saved."""

    def read_text(self, name: str) -> str:
        """Return the text that has this name; "" if there is none."""

    def write_text(self, name: str, text: str) -> bool:
        """Save a text; return whether that succeeded."""

    def remove(self, name: str) -> None:
        """Remove a text, if there is one of this name."""
