"""Changes in the folder of a class that isn't served: names are deleted, and the teacher gets a new code."""

import json
import pathlib

from ..core.codes import TEACHER, new_code
from .disk_files import asides_of, replace_file, sync_folder
from .folder_lock import BadFolder, FolderLock
from .journal import journals, recover
from .stored_files import codes


def forget(folder: pathlib.Path, name: str) -> None:
    """Delete a file of the class, and all copies of it. name: the file's name. Raises BadFolder if there is no class, or it is being served."""
    _check_has_class(folder)
    with FolderLock(folder):
        recover(folder)
        copies = [*asides_of(folder / name), *folder.glob("journal.*.damaged*")]  # a journal may have the file
        for each in (folder / name, folder / f"{name}.new", *copies):
            each.unlink(missing_ok=True)
        sync_folder(folder)


def renew_teacher(folder: pathlib.Path) -> None:
    """Give the teacher a new code; the codes of seats stay.

    Raises BadFolder if there is no class, if it is being served, or if its codes are missing or damaged.
    """
    _check_has_class(folder)
    with FolderLock(folder):
        recover(folder)
        try:
            stored = codes(**json.loads((folder / "codes.json").read_bytes()))
            if TEACHER not in stored:
                raise ValueError("there are no codes")
            replace_file(folder / "codes.json", json.dumps(stored | {TEACHER: new_code()}, indent=1).encode())
            sync_folder(folder)
        except (FileNotFoundError, TypeError, ValueError, RecursionError) as error:
            raise BadFolder(f"{folder}/codes.json is missing or damaged: the next start gives all new codes") from error


def _check_has_class(folder: pathlib.Path) -> None:
    """Raise BadFolder if the folder has no class."""
    if not (folder / "class.json").exists() and not journals(folder):
        raise BadFolder(f"{folder} has no class")
