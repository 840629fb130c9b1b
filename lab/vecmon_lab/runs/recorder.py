"""The program vecmon-record, which executes a run of one user: its input, and its counts."""

import contextlib
import io
import os
import re
import select
from collections.abc import Callable, Sequence
from dataclasses import dataclass, replace
from subprocess import DEVNULL, PIPE, Popen

from .. import LabError
from ..machine.program import RECORDER, find_recorder, image_refusal
from .initial_state import InitialState
from .counts import Counts, read_counts

TAKEN_BYTES = 1 << 16  # the most bytes of output to read at once
CHECK_SECONDS = 0.1  # between two calls of `check`
LARGE_PAGES = "glibc.malloc.hugetlb=1"  # this saves a third of a short run's time

PlacedFile = tuple[list[str], str, io.FileIO]
"""An option of the recorder, what precedes the path of its file, and the file, which is in memory."""


@dataclass(frozen=True)
class Record:
    """A record to write in addition to the counts.

    words: the recorder's options for it, without the file; file: receives the record, and is then closed
    """

    words: Sequence[str]
    file: io.FileIO


def record(
    initial_state: InitialState,
    ticks: int | None = None,
    write: Callable[[bytes], object] | None = None,
    more: Sequence[Record] = (),
    check: Callable[[], object] = lambda: None,
) -> Counts:
    """Execute a run to its end, or until its ticks run out, and return its counts.

    Raises LabError if there is no recorder, or if it refuses its arguments.

    ticks: the most ticks; None for no limit; write: is called with the run's output as it arrives; more: further records
    check: is called several times a second during the run, and ends the run if it raises
    """
    counts = in_memory()
    given = placed_files(initial_state)
    given += [(["--counts"], "", counts), *((list(each.words), "", each.file) for each in more)]
    words = ["--policy", initial_state.policy, *(["--ticks", f"{ticks}"] if ticks else [])]
    with contextlib.ExitStack() as stack:
        files = [stack.enter_context(file) for *_, file in given]
        for option, place, file in given:
            words += [*option, f"{place}/dev/fd/{file.fileno()}"]
        words += ["--", str(initial_state.image)] if initial_state.image else []
        status, operands = run_recorder(words, files, len(more), write, check)
        counts.seek(0)
        text = counts.read().decode("ascii")
    if status != 0:
        raise LabError(refusal(operands, initial_state) or f"{RECORDER} ended with status {status}")
    return replace(read_counts(text), short_writes=int(operands.rpartition(" ")[2] or 0))


def placed_files(initial_state: InitialState) -> list[PlacedFile]:
    """Return what the recorder reads at the start of a run: the bytes of memory, and the registers, if any are set."""
    registers = "\n".join(initial_state.registers).encode()
    files: list[PlacedFile] = [
        (["--memory"], f"{at:x}:{permissions}:", in_memory(data)) for at, permissions, data in initial_state.memory
    ]
    return files + ([(["--registers"], "", in_memory(registers))] if registers else [])


def run_recorder(
    words: Sequence[str],
    files: Sequence[io.FileIO],
    number: int,
    write: Callable[[bytes], object] | None,
    check: Callable[[], object],
) -> tuple[int, str]:
    """Run the recorder to its end. Return its exit status, and its text on standard error.

    files: are passed to the recorder. The last `number` of them are closed in this process, so that a reader of a pipe sees its end.
    """
    command, given = [str(find_recorder()), *words], [file.fileno() for file in files]
    output, variables = PIPE if write else DEVNULL, {"GLIBC_TUNABLES": LARGE_PAGES, **os.environ}
    with Popen(command, stdin=DEVNULL, stdout=output, stderr=PIPE, pass_fds=given, env=variables) as process:
        try:
            for file in files[len(files) - number :]:
                file.close()
            assert process.stderr
            source = process.stdout or process.stderr
            while True:
                while not select.select([source], [], [], CHECK_SECONDS)[0]:
                    check()
                if not (write and process.stdout) or not (data := os.read(source.fileno(), TAKEN_BYTES)):
                    break
                write(data)
                check()
            operands = process.stderr.read().decode("utf-8", "replace")
            return process.wait(), operands
        except BaseException:  # as Ctrl-C, or output that can't be written
            process.kill()
            raise


def refusal(operands: str, initial_state: InitialState) -> str:
    """Return why the recorder recorded nothing. If it refused the image, the text is the monitor's.

    operands: the recorder's text on standard error
    """
    reason = operands.removeprefix(f"{RECORDER}: ").strip()
    if refused := re.search("(?:bad image: ([A-Za-z]+)|image takes too many pages)$", reason):
        return f"{initial_state.image}: " + image_refusal("image", f"E09 {refused[1]}" if refused[1] else "E10")
    return reason


def in_memory(data: bytes = b"") -> io.FileIO:
    """Return a file in memory with these bytes."""
    file = io.FileIO(os.memfd_create(RECORDER), "w+")
    file.write(data)
    return file
