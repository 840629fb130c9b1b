"""Files that survive a power cut: a thread replaces files as a whole, and flushes files that lines are appended to, in batches.

Callers never wait for the disk. A batch first flushes appended files. Then it writes the new contents of all other files in one
record of a journal (`journal.py`). So a batch takes a few syncs, however many files change, and notes never count lines that
aren't on the disk. Finally the batch replaces and removes files. Another thread flushes these files, and removes the journal.
"""

import contextlib
import errno
import os
import pathlib
import threading
from typing import Protocol

from .disk_files import replace_file, sync_folder
from .journal import Changes, Journal, put_file

FLUSH_SECONDS = 0.3  # between a change and the batch that has it
JOURNAL_SECONDS, JOURNAL_BYTES = 30.0, 8 << 20  # age or size after which journals are flushed and removed
RETRY_SECONDS = 1.0  # after a batch that failed in part


class Appended(Protocol):
    """A file that lines are appended to. notes: the name of the file that counts these lines, and is written after them"""

    notes: str

    def sync(self) -> None:
        """Flush all appended lines to the disk. Raises OSError."""


class Flusher:
    """Replaces files of a folder in a separate thread. File names are relative to the folder.

    If a file is replaced again before a batch, only its last contents are saved.
    failures: by file name, the reason why the file isn't saved; the next batch tries again
    """

    def __init__(self, folder: pathlib.Path) -> None:
        self.failures: dict[str, str] = {}
        self._folder, self._identity = folder, _identity_of(folder)
        self._waiting: dict[str, bytes | None] = {}  # None for a file that will be removed
        self._appended: set[Appended] = set()
        self._journal = Journal(folder)
        self._lock, self._turn = threading.Lock(), threading.Lock()  # protects the waiting changes; held during a batch
        self._has_work, self._is_ending, self._is_long = threading.Event(), threading.Event(), threading.Event()
        self._threads = [threading.Thread(target=run, daemon=True) for run in (self._run, self._shorten)]
        for thread in self._threads:
            thread.start()

    def replace(self, name: str, data: bytes) -> None:
        """Replace a file soon."""
        self._put(name, data)

    def remove(self, name: str) -> None:
        """Remove a file soon, if it is there then."""
        self._put(name, None)

    def flush_soon(self, file: Appended) -> None:
        """Flush a file soon, since lines were appended to it."""
        with self._lock:
            self._appended.add(file)
        self._has_work.set()

    def waiting(self, name: str) -> bytes | None:
        """Return the contents that a file will get; None if no change of it waits. Raises FileNotFoundError if it will be removed."""
        with self._lock:
            if name in self._waiting and self._waiting[name] is None:
                raise FileNotFoundError(name)
            return self._waiting.get(name)

    def all_waiting(self) -> dict[str, bool]:
        """Return by name the files with waiting changes: True for new contents, False for files that will be removed."""
        with self._lock:
            return {name: data is not None for name, data in self._waiting.items()}

    def is_saved(self, name: str) -> bool:
        """Return whether a file is saved: no change of it waits."""
        with self._lock:
            return name not in self._waiting

    def flush(self) -> None:
        """Write all waiting changes now, as far as the disk takes them. `failures` has the files of the other changes."""
        with self._turn:
            with self._lock:
                waiting, appended = dict(self._waiting), self._appended
                self._appended = set()
            for file in appended:
                try:
                    file.sync()
                except OSError:  # which the file reports; notes that count its lines wait
                    waiting.pop(file.notes, None)
                    with self._lock:
                        self._appended.add(file)
            if waiting:
                self._save(waiting)
            with self._lock:
                for name, data in waiting.items():
                    if name not in self.failures and self._waiting.get(name, b"") is data:
                        del self._waiting[name]

    def shorten(self) -> None:
        """Flush the files that are named in journals, and remove these journals. Batches go on meanwhile. Raises OSError."""
        with self._turn:
            self._journal.switch()
            generations = list(self._journal.generations)
        for generation in generations:
            with self._turn:
                self.check_folder()
                self._journal.write_again(generation)
            self._journal.flush_files(generation)
            with self._turn:
                self.check_folder()
                self._journal.drop(generation)

    def unsaved(self) -> list[str]:
        """Return sentences on files whose contents aren't saved."""
        with self._lock:
            names = [name for name, data in self._waiting.items() if data is not None]
        return [self.failures.get(name, f"{name} isn't saved") for name in names]

    def check_folder(self) -> None:
        """Raise OSError if the class's folder is no longer at its path, since files there aren't files of the class."""
        if _identity_of(self._folder) != self._identity:
            raise FileNotFoundError(errno.ENOENT, "the class's folder was moved or removed")

    def end(self) -> None:
        """Write all waiting changes, and end the threads. A journal remains if the disk fails."""
        self._is_ending.set()
        self._has_work.set()
        self._is_long.set()
        for thread in self._threads:
            thread.join()
        self.flush()
        with contextlib.suppress(OSError):
            self.shorten()

    def _put(self, name: str, data: bytes | None) -> None:
        with self._lock:
            self._waiting.pop(name, None)
            self._waiting[name] = data
        self._has_work.set()

    def _save(self, changes: Changes) -> None:
        """Bring changes to the disk by a record of the journal, or each by itself if there is no room for the record."""
        try:
            self.check_folder()
        except OSError as error:
            self.failures |= {name: f"{name} isn't saved: {error.strerror}" for name in changes}
            return
        try:
            self._journal.append(changes)
        except OSError:
            self._save_each(changes)
            return
        for name, data in changes.items():
            try:
                if data is not None:
                    put_file(self._folder / name, data)
                self.failures.pop(name, None)
            except OSError as error:
                self.failures[name] = f"{name} isn't saved: {error.strerror}"
        self._remove([name for name, data in changes.items() if data is None])
        if self._journal.size > JOURNAL_BYTES:
            self._is_long.set()

    def _save_each(self, changes: Changes) -> None:
        """Replace and remove files, and flush each of them. First flush and remove the journals.

        Otherwise a journal would replace the files by older ones at the next start.
        """
        self._journal.switch()
        try:
            for generation in list(self._journal.generations):
                self._journal.write_again(generation)
                self._journal.flush_files(generation)
                self._journal.drop(generation)
        except OSError as error:
            self.failures |= {name: f"{name} isn't saved: {error.strerror}" for name in changes}
            return
        self._replace({name: data for name, data in changes.items() if data is not None})
        self._remove([name for name, data in changes.items() if data is None])

    def _replace(self, files: dict[str, bytes]) -> None:
        """Replace files, and then flush their folders."""
        written: dict[pathlib.Path, list[str]] = {}
        for name, data in files.items():
            try:
                replace_file(self._folder / name, data)
            except OSError as error:
                self.failures[name] = f"{name} isn't saved: {error.strerror}"
            else:
                written.setdefault((self._folder / name).parent, []).append(name)
        for folder, names in written.items():
            self._sync(folder, names)

    def _remove(self, names: list[str]) -> None:
        """Remove files. The next flush of their folders makes that durable. After a power cut before this flush, the files are back."""
        for name in names:
            try:
                os.unlink(self._folder / name)
            except OSError:  # an older file that is left over loses nothing
                pass
            self.failures.pop(name, None)

    def _sync(self, folder: pathlib.Path, names: list[str]) -> None:
        """Flush a folder in which files of these names were replaced."""
        try:
            sync_folder(folder)
        except OSError as error:
            self.failures |= {name: f"{name} isn't saved: {error.strerror}" for name in names}
            return
        for name in names:
            self.failures.pop(name, None)

    def _shorten(self) -> None:
        """Remove journals that are old or long, until `end`."""
        while not self._is_ending.is_set():
            self._is_long.wait(JOURNAL_SECONDS)
            self._is_long.clear()
            if self._journal.generations and not self._is_ending.is_set():
                with contextlib.suppress(OSError):  # the journal stays, and the next look tries again
                    self.shorten()

    def _run(self) -> None:
        """Write changes in batches until `end`."""
        while not self._is_ending.is_set():
            self._has_work.wait()
            self._is_ending.wait(RETRY_SECONDS if self.failures else FLUSH_SECONDS)
            self._has_work.clear()
            self.flush()
            with self._lock:
                if self._waiting or self._appended:
                    self._has_work.set()


def _identity_of(folder: pathlib.Path) -> tuple[int, int] | None:
    """Return the numbers of a folder's device and inode; None if there is no folder."""
    try:
        found = os.stat(folder)
    except FileNotFoundError:
        return None
    return found.st_dev, found.st_ino
