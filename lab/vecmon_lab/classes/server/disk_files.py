"""Files and folders that are on the disk once a function returns."""

import os
import pathlib

MAX_ASIDE = 10_000  # copies of a damaged file


def replace_file(path: pathlib.Path, data: bytes) -> None:
    """Replace a file. Its data is on the disk before it gets its name; flush the folder afterwards. Raises OSError."""
    make_folder(path.parent)
    new = path.with_name(f"{path.name}.new")
    file = os.open(new, os.O_WRONLY | os.O_CREAT | os.O_TRUNC, 0o600)
    try:
        write_all(file, data, 0)
        os.fsync(file)
    finally:
        os.close(file)
    os.replace(new, path)


def write_all(file: int, data: bytes, place: int) -> None:
    """Write all bytes into an open file. place: the offset of the first one. Raises OSError."""
    written = 0
    while written < len(data):
        written += os.pwrite(file, data[written:], place + written)


def make_folder(folder: pathlib.Path) -> None:
    """Make a folder on the disk, unless it is there. Raises OSError."""
    if not folder.is_dir():
        os.mkdir(folder, 0o700)
        sync_folder(folder.parent)


def sync_folder(folder: pathlib.Path) -> None:
    """Flush the names in a folder to the disk. Raises OSError."""
    file = os.open(folder, os.O_RDONLY | os.O_DIRECTORY)
    try:
        os.fsync(file)
    finally:
        os.close(file)


def aside_of(path: pathlib.Path) -> pathlib.Path:
    """Return an unused path for a damaged file, or for its copy."""
    numbers = ("", *(f"-{number}" for number in range(2, MAX_ASIDE)))
    names = (path.with_name(f"{path.name}.damaged{number}") for number in numbers)
    return next(each for each in names if not each.exists())


def asides_of(path: pathlib.Path) -> list[pathlib.Path]:
    """Return the copies of a damaged file that were set aside."""
    return sorted(path.parent.glob(f"{path.name}.damaged*"))
