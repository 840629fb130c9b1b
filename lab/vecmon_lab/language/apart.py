"""Assembly of other people's sources with limits on processor time and memory: of small ones in this process, of others in a separate process.

The separate process runs this module. It reads the source from standard input, and prints a pickled object: the program, or the reason why
there is none. Its arguments are the name of a reader and the path of `vecmon`.
"""

import contextlib
import os
import pathlib
import pickle
import resource
import subprocess
import sys
from collections.abc import Callable
from dataclasses import replace

from .. import LabError
from ..assembler.blocks import MAX_CHARACTERS, TooMuchMade
from ..assembler.source import Program, SourceError, read_source
from ..assembler.statements import without_comments
from ..assembler.trial import read_tried_source, read_whole_source
from .line_types import read_typed_source

LAB = pathlib.Path(__file__).resolve().parents[2]
MODULE = "language.apart"
SMALL = (
    4096  # the most characters of a small source, without comments and blanks, and the most that its macros may make
)
CPU_SECONDS, MEMORY_BYTES = 10, 1 << 30
TOO_LONG = f"assembling this source takes more than {CPU_SECONDS} s of processor: shorten its repetitions and lists"
TOO_LARGE = (
    f"assembling this source takes more than {MEMORY_BYTES >> 20} MB of memory: shorten its repetitions and lists"
)

Reader = Callable[[str, pathlib.Path, int], Program]
"""Reads a source. Its arguments are the source, the path of `vecmon`, and the most characters that macros may make.

Raises TooMuchMade if macros make more.
"""

READERS: dict[str, Reader] = {
    "source": lambda text, vecmon, most: read_source(text, most_made=most),
    "whole": lambda text, vecmon, most: read_whole_source(text, vecmon, most_made=most),
    "tried": lambda text, vecmon, most: read_tried_source(text, vecmon, most_made=most),
    "typed": lambda text, vecmon, most: read_typed_source(text, vecmon, most_made=most),
}


def read_small(reader: str, text: str, vecmon: pathlib.Path) -> Program | None:
    """Read a source in this process if it is small; return None if it isn't, or if its macros make more than SMALL characters.

    reader: a name in READERS; text: the source; vecmon: the path of the program
    """
    if len("".join(without_comments(text)[0].split())) > SMALL:
        return None
    try:
        return READERS[reader](text, vecmon, SMALL)
    except TooMuchMade:
        return None


def read_limited(reader: str, text: str, vecmon: pathlib.Path) -> Program:
    """Read a source: in this process if it is small, otherwise in a separate process with limits.

    reader: a name in READERS; text: the source; vecmon: the path of the program

    Raises LabError if the process takes more than CPU_SECONDS or MEMORY_BYTES, or ends with an error.
    """
    if (program := read_small(reader, text, vecmon)) is not None:
        return program
    command = [sys.executable, "-PB", "-m", f"vecmon_lab.{MODULE}", reader, str(vecmon)]
    environment = os.environ | {"PYTHONPATH": str(LAB)}
    completed = subprocess.run(command, input=encoded(text), stdout=subprocess.PIPE, env=environment)
    if completed.returncode < 0:
        raise LabError(TOO_LONG)
    if completed.returncode:
        raise LabError(f"the process that assembles this source ended with status {completed.returncode}")
    return decoded(completed.stdout)


def encoded(text: str) -> bytes:
    """Return the input of the separate process for a source. text: the source"""
    return text.encode("utf-8", "surrogatepass")


def decoded(output: bytes) -> Program:
    """Return the program in the output of the separate process. Raises LabError with the reason if there is none."""
    result: Program | str = pickle.loads(output)
    if isinstance(result, str):
        raise LabError(result)
    return result


def _plain(mistake: SourceError) -> SourceError:
    """Return a mistake or a warning as a plain SourceError, without the attributes that only the assembler uses."""
    return SourceError(mistake.line, mistake.column, mistake.message, mistake.code, list(mistake.fix))


def main() -> int:
    """Assemble the source on standard input within the limits, and print the pickled result. Return the exit status."""
    reader, vecmon = sys.argv[1:]
    resource.setrlimit(resource.RLIMIT_CPU, (CPU_SECONDS, CPU_SECONDS + 1))
    resource.setrlimit(resource.RLIMIT_AS, (MEMORY_BYTES, MEMORY_BYTES))
    resource.setrlimit(resource.RLIMIT_CORE, (0, 0))
    output = pickle.dumps(TOO_LARGE)  # first, since later no memory may be left for it
    with contextlib.suppress(MemoryError):
        output = _assembled(reader, pathlib.Path(vecmon))
    sys.stdout.buffer.write(output)
    return 0


def _assembled(reader: str, vecmon: pathlib.Path) -> bytes:
    """Return the pickled program of the source on standard input, or the pickled reason why there is none. Raises MemoryError."""
    text = sys.stdin.buffer.read().decode("utf-8", "surrogatepass")
    try:
        program = READERS[reader](text, vecmon, MAX_CHARACTERS)
    except (LabError, ValueError, RecursionError) as error:
        return pickle.dumps(str(error))
    mistakes, warnings = ([*map(_plain, each)] for each in (program.mistakes, program.warnings))
    return pickle.dumps(replace(program, mistakes=mistakes, warnings=warnings))


if __name__ == "__main__":
    sys.exit(main())
