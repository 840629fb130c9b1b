"""Files that your own source includes."""

import pathlib

from .. import LabError
from .assembly import FileReader

MAX_BYTES = 1 << 20  # the largest file: the size of a user's memory


def files_beside(source: pathlib.Path) -> FileReader:
    """Return a function that reads files in the folder of a source, and in folders below it. source: the path of the source"""
    folder = source.absolute().parent.resolve()

    def read(name: str) -> bytes:
        """Return the bytes of a file. Raises LabError if the file can't be read, isn't below the source's folder, or is too large.

        name: the path of the file relative to the source's folder
        """
        try:
            path = (folder / name).resolve()
            if not path.is_relative_to(folder):
                raise LabError(f"{name} is outside of the folder of the source, and isn't read")
            if not path.is_file() and path.exists():
                raise LabError(f"{name} can't be read: it isn't a regular file")
            if path.stat().st_size > MAX_BYTES:
                raise LabError(f"{name} has more than {MAX_BYTES:,} bytes")
            return path.read_bytes()
        except (OSError, ValueError) as error:
            raise LabError(f"{name} can't be read: {getattr(error, 'strerror', None) or error}") from error

    return read
