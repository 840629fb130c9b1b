"""Texts by name that a page saves. They are in memory, and each change is reported to the page."""

import fnmatch
import time
from collections.abc import Callable, Iterator, Mapping, Sequence

from ..classes.core.text_store import TextStore

Changed = Callable[[str, str | None, float], object]
"""Is called for each changed text, with its name, its present text (None if it was removed), and the time in seconds since 1970."""


class KeptTexts:
    """A TextStore (classes/core/text_store.py) in memory."""

    def __init__(
        self, texts: Mapping[str, Sequence[object]] = {}, changed: Changed = lambda name, text, when: None
    ) -> None:
        """texts: the saved texts: by name, a list of a text and the time when it was saved; entries of another form are ignored

        changed: is called when a text changes
        """
        self._changed = changed
        self._texts = dict[str, tuple[str, float]]()
        for name, entry in texts.items():
            match entry:
                case [str() as text, int() | float() as when]:
                    self._texts[name] = text, when

    def files(self, pattern: str) -> Iterator[tuple[str, float]]:
        """Yield the names that match a pattern, with the times of their texts."""
        yield from ((name, when) for name, (_, when) in self._texts.items() if fnmatch.fnmatchcase(name, pattern))

    def read_text(self, name: str) -> str:
        """Return the text of a name; "" if there is none."""
        return self._texts.get(name, ("", 0))[0]

    def write_text(self, name: str, text: str) -> bool:
        """Save a text; return True, since this always succeeds."""
        if name not in self._texts or text != self._texts[name][0]:
            self._texts[name] = text, time.time()
            self._changed(name, *self._texts[name])
        return True

    def remove(self, name: str) -> None:
        """Remove the text of a name, if there is one."""
        if self._texts.pop(name, None):
            self._changed(name, None, 0)


def set_aside(texts: TextStore, name: str) -> None:
    """Copy a damaged text to another name, so that an export includes it."""
    texts.write_text(f"damaged/{name.replace('/', '-')}", texts.read_text(name))
