"""The process of the program that a session uses, and how it is started: from a file, or by a `Starter`."""

import pathlib
from collections.abc import Iterator, Mapping, Sequence
from typing import Protocol

from .. import LabError

BLOCK_BYTES = 65536  # number of bytes written or read at once


class ProgramGone(LabError):
    """The program can't be started, has ended, or printed nothing in time."""


class Process(Protocol):
    """A process of the program, which receives lines and returns their whole answers.

    fed: the number of bytes that the process has received
    number: the process id
    """

    fed: int
    number: int

    def ask(self, lines: Sequence[str]) -> list[list[str]]:
        """Send lines together, and return the answer to each of them, as a list of lines.

        Raises ProgramGone and OutOfStep. After either error, the process can't be used.
        """

    def stream(self, script: bytes) -> Iterator[bytes]:
        """Send the lines of a script, and yield blocks of whole lines of output as they arrive. Raises ProgramGone."""

    def kill(self) -> None:
        """End the process at once, whatever it does. Another thread may call this."""

    def close(self) -> None:
        """End the process, and close its pipes."""


class Starter(Protocol):
    """A program that isn't a file, such as WebAssembly in a page."""

    def start(self, arguments: Sequence[str], images: Mapping[str, pathlib.Path]) -> Process:
        """Start a process. Raises ProgramGone.

        arguments: the arguments of the program; images: the path of each image, by the image's name in the arguments
        """


Vecmon = pathlib.Path | Starter
"""The program vecmon: the path of a file, or a `Starter`, which starts a program that isn't a file."""


def start(program: Vecmon, command: Sequence[str], images: Mapping[str, pathlib.Path], patience: float) -> Process:
    """Start a process of a program. Raises ProgramGone.

    command: the program's path and its arguments; a `Starter` gets only the arguments
    images: the path of each image, by the image's name in the arguments
    patience: the seconds without output after which a process of a file counts as ended
    """
    if not isinstance(program, pathlib.Path):
        return program.start(command[1:], images)
    from .pipe import PipedProcess  # imports subprocess, which a page doesn't have

    return PipedProcess(command, patience)
