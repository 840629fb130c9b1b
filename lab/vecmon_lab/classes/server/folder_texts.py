"""Texts and JSON objects in the folder of a class, by the names of their files."""

import json
import pathlib
import time
from collections.abc import Callable, Iterator, Mapping
from fnmatch import fnmatchcase
from typing import TypeVar

from .damage import Damage
from .durable import Flusher

Value = TypeVar("Value")


class FolderTexts:
    """The small files of a class, as a `TextStore` and as JSON objects.

    A new text waits in memory and is on the disk soon, as a whole or not at all. Readers get it at once.
    """

    def __init__(
        self, folder: pathlib.Path, damage: Damage, flusher: Flusher | None, journaled: Mapping[str, bytes | None]
    ) -> None:
        """flusher: writes files; None if the class is only read

        journaled: if the class is only read, the contents of files in its journals, by name; None for a removed file
        """
        self._folder, self._damage, self._flusher, self._journaled = folder, damage, flusher, journaled

    def files(self, pattern: str) -> Iterator[tuple[str, float]]:
        """Return the names that match a pattern such as `A1.*`, and their times in seconds since 1970.

        A text that waits for the disk has the present time.
        """
        waiting = self._flusher.all_waiting() if self._flusher else {}
        for path in self._folder.glob(pattern):
            name = path.relative_to(self._folder).as_posix()
            try:
                when = path.stat().st_mtime_ns / 1e9
            except FileNotFoundError:  # it was replaced or removed meanwhile
                continue
            if name not in waiting:
                yield name, when
        yield from (
            (name, time.time()) for name, is_there in waiting.items() if is_there and fnmatchcase(name, pattern)
        )

    def read_text(self, name: str) -> str:
        """Return the last text of this name, whether it is saved or waits for the disk; "" if there is none."""
        try:
            return self._data(name).decode("utf-8", "replace")
        except FileNotFoundError:
            return ""

    def write_text(self, name: str, text: str) -> bool:
        """Save a text soon; return whether this class can be written."""
        if self._flusher:
            self._flusher.replace(name, text.encode("utf-8", "replace"))
        return self._flusher is not None

    def remove(self, name: str) -> None:
        """Remove a text, whether it is saved or waits for the disk."""
        if self._flusher:
            self._flusher.remove(name)

    def read(self, name: str, kind: Callable[..., Value], loss: str = "") -> Value:
        """Read a JSON object: return `kind`, called with the object's values as keyword arguments.

        If there is no such file, `kind` is called without arguments. A damaged file counts as missing: it is renamed, and the damage is
        reported. loss: the consequence of the damage, for the report
        """
        try:
            return self.read_undamaged(name, kind)
        except FileNotFoundError:
            return kind()
        except ValueError:
            self._damage.files.add(name)
            aside = self._damage.set_aside(name)
            self._damage.report(f"{name} is damaged{aside}" + (f": {loss}" if loss else ""))
            return kind()

    def read_undamaged(self, name: str, kind: Callable[..., Value]) -> Value:
        """Read a JSON object as `read` does. Raises FileNotFoundError for a missing file, and ValueError for a damaged one."""
        try:
            values = json.loads(self._data(name).decode("utf-8"))
            if values == {} and (kind() != {} or name == "codes.json"):  # a file of names or exercises may be empty
                raise ValueError(f"{name} has nothing")
            return kind(**values)
        except (TypeError, AttributeError, RecursionError) as error:
            raise ValueError(f"{name} isn't what a server wrote") from error

    def is_readable(self, name: str, kind: Callable[..., object]) -> bool:
        """Return whether there is an undamaged file of this name."""
        try:
            self.read_undamaged(name, kind)
            return True
        except (FileNotFoundError, ValueError):
            return False

    def write(self, name: str, value: Mapping[str, object]) -> bool:
        """Save an object soon; return whether this class can be written. `warning` explains a failure of the disk."""
        return self.write_text(name, json.dumps(value, indent=1))

    def write_now(self, name: str, value: Mapping[str, object]) -> bool:
        """Save an object, and wait for the disk; return whether that succeeded."""
        self.write(name, value)
        self.flush()
        return self._flusher is not None and self._flusher.is_saved(name)

    def flush(self) -> None:
        """Write all waiting changes, as far as the disk takes them, and wait for the disk."""
        if self._flusher:
            self._flusher.flush()

    def shorten_journals(self) -> None:
        """Flush the files that are named in journals, and remove these journals. Raises OSError."""
        if self._flusher:
            self._flusher.shorten()

    def unsaved(self) -> list[str]:
        """Return sentences on files that aren't saved."""
        return self._flusher.unsaved() if self._flusher else []

    @property
    def warning(self) -> str:
        """The reason why a file isn't saved; "" if all files are saved."""
        return "".join(list(self._flusher.failures.values())[:1]) if self._flusher else ""

    def warning_of(self, seat: str) -> str:
        """Return a sentence on why a file of a seat isn't saved, without the file's name; "" if all files of the seat are saved."""
        failures = self._flusher.failures if self._flusher else {}
        own = (text for name, text in list(failures.items()) if name.rpartition("/")[2].startswith(f"{seat}."))
        cause = next(own, "").rpartition(": ")[2]
        return f"your text isn't saved: {cause}" if cause else ""

    def _data(self, name: str) -> bytes:
        """Return the last contents of a file, which may still be in memory or in a journal. Raises FileNotFoundError."""
        waiting = self._flusher.waiting(name) if self._flusher else self._journaled.get(name)
        return (self._folder / name).read_bytes() if waiting is None else waiting
