"""The journal of a class's folder: new contents of small files, on the disk after one sync for a whole batch.

journal.1, journal.2 ..: records, each with changes of files by name. A file is replaced without a sync once its record is on the disk.
    After a power cut any replaced file may be missing or torn, and `recover` writes the files again from the records, in order.
    A journal is removed once all files that it names are flushed to the disk, the oldest journal first.

A record is a line with the length and the CRC-32 of its text, the text, which is JSON, and a newline. Only the last record
can be torn, since each is flushed before the next one.
"""

import contextlib
import errno
import json
import os
import pathlib
import re
from binascii import crc32
from collections.abc import Iterator, Mapping
from concurrent.futures import ThreadPoolExecutor
from dataclasses import dataclass, field

from .disk_files import aside_of, make_folder, replace_file, sync_folder, write_all

JOURNAL = re.compile(r"journal\.([1-9][0-9]{0,8})")
HEADER_BYTES = 18
MANY, AT_ONCE = 64, 16  # files of a journal that are flushed in threads, and how many at a time

Changes = Mapping[str, bytes | None]
"""New contents of files, by their names relative to the folder; None for a file that is removed."""


@dataclass
class Generation:
    """A journal.

    names: the names of the files in its records; size: its size in bytes; doubtful: the names of files whose flush failed
    """

    path: pathlib.Path
    names: set[str] = field(default_factory=set)
    size: int = 0
    doubtful: set[str] = field(default_factory=set)


class Journal:
    """The journals of a folder that is served. Only one thread at a time may call its methods, except `flush_files`."""

    def __init__(self, folder: pathlib.Path) -> None:
        self.generations: list[Generation] = []  # the oldest first
        self._folder = folder
        self._file: int | None = None  # of the last generation, while records are appended to it
        self._number = 0

    @property
    def size(self) -> int:
        """The bytes of all journals."""
        return sum(each.size for each in self.generations)

    def append(self, changes: Changes) -> None:
        """Write a record, and wait until it is on the disk. Raises OSError; then the journal is as before."""
        if self._file is None:
            self._begin()
        assert self._file is not None
        last, record = self.generations[-1], record_of(changes)
        try:
            write_all(self._file, record, last.size)
            os.fsync(self._file)
            if not last.size:
                sync_folder(self._folder)
        except OSError:
            self.switch()  # a torn record would hide later ones
            raise
        last.size += len(record)
        last.names |= changes.keys()

    def switch(self) -> None:
        """Let the next record start another journal."""
        file, self._file = self._file, None
        if file is not None:
            with contextlib.suppress(OSError):
                os.ftruncate(file, self.generations[-1].size)
            with contextlib.suppress(OSError):  # the error is one that an earlier sync has raised
                os.close(file)

    def flush_files(self, generation: Generation) -> None:
        """Flush the files that a journal names. No more records are appended to this journal. Raises OSError.

        After a failed flush the system counts the data as flushed, though it isn't. So `write_again` is called before the next
        flush.
        """
        by_folder: dict[pathlib.Path, set[str]] = {}
        failure: OSError | None = None
        for name, error in self._flushed_together(sorted(generation.names)):
            path = self._folder / name
            if error:
                failure = error
                generation.doubtful.add(name)
            if path.parent.is_dir():
                by_folder.setdefault(path.parent, set()).add(name)
        for folder, names in sorted(by_folder.items()):
            try:
                sync_folder(folder)
            except OSError as error:
                failure = error
                generation.doubtful |= names
        if failure:
            raise failure

    def _flushed_together(self, names: list[str]) -> list[tuple[str, OSError | None]]:
        """Flush files; return each name with its error, or None. Many files are flushed several at a time, which is faster on a disk."""
        paths = [self._folder / name for name in names]
        if len(names) < MANY:
            return [*zip(names, map(_flush_error, paths))]
        with ThreadPoolExecutor(AT_ONCE) as pool:
            return [*zip(names, pool.map(_flush_error, paths))]

    def write_again(self, generation: Generation) -> None:
        """Write the files of a journal whose flush failed once more, with the contents in the journals, and flush them. Raises OSError."""
        if generation.doubtful:
            changes, damaged = journaled(self._folder)
            if damaged:
                raise OSError(errno.EIO, next(iter(damaged.values())))
            for name in sorted(generation.doubtful):
                data = changes.get(name)
                if data is not None:
                    replace_file(self._folder / name, data)
            generation.doubtful.clear()

    def drop(self, generation: Generation) -> None:
        """Remove a journal whose files are flushed. Raises OSError."""
        sync_folder(self._folder)
        with contextlib.suppress(FileNotFoundError):
            os.unlink(generation.path)
        sync_folder(self._folder)
        if generation in self.generations:
            self.generations.remove(generation)

    def _begin(self) -> None:
        """Start another journal. Raises OSError."""
        self._number += 1
        path = self._folder / f"journal.{self._number}"
        self._file = os.open(path, os.O_WRONLY | os.O_CREAT | os.O_TRUNC, 0o600)
        self.generations.append(Generation(path))


def record_of(changes: Changes) -> bytes:
    """Return the record of changes."""
    texts = {name: None if data is None else data.decode("utf-8", "surrogateescape") for name, data in changes.items()}
    text = json.dumps(texts).encode("ascii")
    return b"%08x %08x\n%s\n" % (len(text), crc32(text), text)


def records(data: bytes) -> Iterator[tuple[int, Changes]]:
    """Return the records of a journal, each with the offset of its end, up to one that is torn, damaged or of another form."""
    place = 0
    while (text := _text_at(data, place)) is not None and (changes := _changes_of(text)) is not None:
        place += HEADER_BYTES + len(text) + 1
        yield place, changes


def _text_at(data: bytes, place: int) -> bytes | None:
    """Return the text of the record at an offset; None if there is none, or if it is torn or damaged."""
    header = re.match(rb"([0-9a-f]{8}) ([0-9a-f]{8})\n", data[place : place + HEADER_BYTES])
    if header is None:
        return None
    end = place + HEADER_BYTES + int(header[1], 16)
    text = data[place + HEADER_BYTES : end]
    return text if data[end : end + 1] == b"\n" and crc32(text) == int(header[2], 16) else None


def _changes_of(text: bytes) -> Changes | None:
    """Return the changes in a record's text; None for a text of another form, as a later version may write."""
    try:
        values = json.loads(text)
        if not isinstance(values, dict) or not all(isinstance(value, str | None) for value in values.values()):
            return None
        if any(b"\0" in os.fsencode(name) for name in values):
            return None
        return {
            name: None if content is None else content.encode("utf-8", "surrogateescape")
            for name, content in values.items()
        }
    except (ValueError, RecursionError):
        return None


def journals(folder: pathlib.Path) -> list[pathlib.Path]:
    """Return the journals of a folder, the oldest first."""
    found = [path for path in folder.glob("journal.*") if JOURNAL.fullmatch(path.name)]
    return sorted(found, key=lambda path: int(path.name.partition(".")[2]))


def journaled(folder: pathlib.Path) -> tuple[dict[str, bytes | None], dict[pathlib.Path, str]]:
    """Read the journals of a folder. Raises OSError.

    Return the last contents of each file in them, by name, with None for a removed file; and a sentence on each damaged journal.
    """
    changes, damaged = dict[str, bytes | None](), dict[pathlib.Path, str]()
    for path in journals(folder):
        data, end = path.read_bytes(), 0
        for end, record in records(data):
            changes |= {name: content for name, content in record.items() if _is_inside(name)}
        if _text_at(data, end) is not None or _has_later_record(data[end:]):
            damaged[path] = f"{path.name} is damaged behind byte {end:,}: changes of the last minute may be lost"
    return changes, damaged


def recover(folder: pathlib.Path) -> list[str]:
    """Write the files whose contents are in the journals of a folder, and remove the journals. Damaged journals are renamed.

    Return a sentence on each damaged journal. Raises OSError.
    """
    changes, damaged = journaled(folder)
    for name, data in changes.items():
        if data is not None:
            replace_file(folder / name, data)
        elif (folder / name).exists():
            os.unlink(folder / name)
    for parent in sorted({(folder / name).parent for name in changes}):
        if parent.is_dir():
            sync_folder(parent)
    for path in journals(folder):
        if path in damaged:
            os.replace(path, aside_of(path))
        else:
            os.unlink(path)
        sync_folder(folder)
    return [*damaged.values()]


def put_file(path: pathlib.Path, data: bytes) -> None:
    """Replace a file without a sync, since a journal has its contents. Raises OSError."""
    make_folder(path.parent)
    new = path.with_name(f"{path.name}.new")
    file = os.open(new, os.O_WRONLY | os.O_CREAT | os.O_TRUNC, 0o600)
    try:
        write_all(file, data, 0)
    finally:
        os.close(file)
    os.replace(new, path)


def _flush_error(path: pathlib.Path) -> OSError | None:
    """Flush a file, unless it was removed; return the error, or None."""
    try:
        file = os.open(path, os.O_RDONLY)
    except FileNotFoundError:
        return None
    except OSError as error:
        return error
    try:
        os.fsync(file)
    except OSError as error:
        return error
    finally:
        os.close(file)
    return None


def _is_inside(name: str) -> bool:
    """Return whether a name is relative and stays inside the folder."""
    return not pathlib.PurePath(name).is_absolute() and ".." not in pathlib.PurePath(name).parts


def _has_later_record(rest: bytes) -> bool:
    """Return whether more than one torn record follows the last good record. rest: the bytes after the good record"""
    header = re.match(rb"([0-9a-f]{8}) [0-9a-f]{8}\n", rest)
    return len(rest) > HEADER_BYTES + (int(header[1], 16) + 1 if header else 0) and bool(
        re.search(rb"\n[0-9a-f]{8} [0-9a-f]{8}\n", rest)
    )
