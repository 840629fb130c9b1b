"""The lock of a class's folder: one server at a time serves the class."""

import contextlib
import fcntl
import os
import pathlib

from ... import LabError


class BadFolder(LabError):
    """The folder can't be served as this class; the text says why."""


class FolderLock(contextlib.AbstractContextManager["FolderLock"]):
    """The right to serve a class, which no other process has until this one releases it.

    Two files are locked: `lock` in the folder, and the folder itself, in case somebody removes `lock`. The file system of a
    network may be unable to lock a folder; then the first lock has to suffice.
    """

    def __init__(self, folder: pathlib.Path) -> None:
        """Lock a folder. Raises BadFolder if another server has it, and OSError."""
        lock = os.open(folder / "lock", os.O_RDWR | os.O_CREAT, 0o600)
        self._files = [lock, os.open(folder, os.O_RDONLY | os.O_DIRECTORY)]
        for file in self._files:
            try:
                fcntl.flock(file, fcntl.LOCK_EX | fcntl.LOCK_NB)
            except BlockingIOError:
                self.release()
                raise BadFolder(f"{folder} is served by another server") from None
            except OSError:
                if file == lock:
                    self.release()
                    raise

    def __exit__(self, *error: object) -> None:
        self.release()

    def release(self) -> None:
        """Let other servers have the folder."""
        for file in self._files:
            os.close(file)


def is_served(folder: pathlib.Path) -> bool:
    """Return whether a server has locked the folder."""
    try:
        lock = os.open(folder / "lock", os.O_RDONLY)
    except OSError:
        return False
    try:
        fcntl.flock(lock, fcntl.LOCK_SH | fcntl.LOCK_NB)
        return False
    except BlockingIOError:
        return True
    finally:
        os.close(lock)
