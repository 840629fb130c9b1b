"""Stores which edits were refused, so that `tools/try_edits` tries nothing a second time while nothing that it rests on changes.

In ~/.cache/vecmon/KIT/tried-edits, or $XDG_CACHE_HOME/vecmon/KIT/tried-edits, each refused edit has a file with the prover's first message.
Its name is the SHA-256 of all that the try read: the edit, the crate, the bytes of the libraries below it, the kit, and the tools that
judge. Other results aren't stored. A program that can write to the folder can pass any edit as refused, so only its owner can (mode 700).
"""

import functools
import hashlib
import os
import stat
from pathlib import Path

from tools.building.linked_kit import cache
from tools.editing.edit_checks import Prover
from tools.editing.edit_plans import Edit

TOOLS = Path(__file__).resolve().parents[1]
JUDGES = (
    "editing/edit_plans.py",
    "editing/edit_checks.py",
    "editing/edit_stubs.py",
    "editing/edit_trials.py",
    "editing/edit_clauses.py",
    "definitions/definitions.py",
)


class TriedEdits:
    """The store of refused edits. It stores and finds nothing if its folder belongs to somebody else or can't be made."""

    def __init__(self, prover: Prover, folder: Path | None = None) -> None:
        self.prover = prover
        self.folder = private_folder(folder or Path(cache(), "tried-edits"))

    def key(self, edit: Edit, *, whole: bool) -> str:
        """Return the sum of all that a try of an edit reads. `whole`: the try checks the whole crate."""
        crate = self.prover.crates[edit.crate]
        below = [(it.name, sum_of_folder(it.rlib)) for it in crate.below()]
        parts = [sum_of_judges(), self.prover.rt.own_sum(crate), below, edit.path.name, edit.path.read_bytes(), whole]
        return hashlib.sha256(repr(parts).encode()).hexdigest()

    def message(self, key: str) -> str | None:
        """Return the stored message of a refused edit, or None if it isn't stored."""
        try:
            return (self.folder / key).read_text(encoding="utf-8") if self.folder else None
        except OSError:
            return None

    def store(self, key: str, message: str) -> None:
        """Store that an edit was refused, with the prover's message. A full disk stores nothing."""
        if self.folder:
            new = self.folder / f"{key}.{os.getpid()}"
            try:
                new.write_text(message, encoding="utf-8")
                new.replace(self.folder / key)
            except OSError:
                new.unlink(missing_ok=True)


def private_folder(folder: Path) -> Path | None:
    """Make a folder that only this user can read and write; None if that fails, or if somebody else made it."""
    try:
        folder.mkdir(mode=0o700, parents=True, exist_ok=True)
        found = folder.lstat()
        if not stat.S_ISDIR(found.st_mode) or found.st_uid != os.geteuid():
            return None
        folder.chmod(0o700)
    except OSError:
        return None
    return folder


@functools.cache
def sum_of_judges() -> str:
    """Return a sum of the tools that decide whether an edit counts as refused."""
    return hashlib.sha256(b"".join((TOOLS / it).read_bytes() for it in JUDGES)).hexdigest()


@functools.cache
def sum_of_folder(folder: str) -> str:
    """Return a sum of all files of a library."""
    found = hashlib.sha256()
    for path in sorted(it for it in Path(folder).rglob("*") if it.is_file()):
        with open(path, "rb") as it:
            found.update(f"{path.relative_to(folder)} {hashlib.file_digest(it, 'sha256').hexdigest()}\n".encode())
    return found.hexdigest()
