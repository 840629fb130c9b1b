"""Damage to the files of a class: sentences on losses, and damaged files under other names."""

import os
import pathlib

from .disk_files import aside_of, replace_file, sync_folder

SHOWN = 5  # sentences that pages show


class Damage:
    """The damage that was found since the class was opened.

    sentences: one about each loss, for the teacher; files: the names of damaged files, relative to the folder
    """

    def __init__(self, folder: pathlib.Path, is_reading: bool) -> None:
        """is_reading: whether the class is only read, so that its files stay as they are"""
        self.sentences = list[str]()
        self.files = set[str]()
        self._folder, self._is_reading = folder, is_reading

    def report(self, sentence: str) -> None:
        """Add a sentence about a loss, unless it has been added before."""
        if sentence not in self.sentences:
            self.sentences.append(sentence)

    @property
    def summary(self) -> str:
        """The first few sentences, for a page; "" without a loss."""
        more = len(self.sentences) - SHOWN
        shown = [*self.sentences[:SHOWN], *([f"and {more} more, which the terminal lists"] if more > 0 else [])]
        return f"Lost before the class was started: {'; '.join(shown)}." if shown else ""

    def set_aside(self, name: str, copied: bytes | None = None) -> str:
        """Rename a damaged file, or save a copy of it. Return the end of a sentence that reports this.

        name: relative to the folder; copied: the bytes to save as a copy; None to rename the file

        If the class is only read, change nothing, and return "".
        """
        if self._is_reading:
            return ""
        path = aside_of(self._folder / name)
        aside = path.relative_to(self._folder).as_posix()
        if copied is None:
            os.replace(self._folder / name, path)
        else:
            replace_file(path, copied)
        sync_folder(path.parent)
        return f", and is now {aside}" if copied is None else f", and {aside} is a copy of it"
