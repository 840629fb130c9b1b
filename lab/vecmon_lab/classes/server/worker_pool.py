"""Processes next to a class, which run modules of the lab."""

import asyncio
import contextlib
import os
import pathlib
import signal
import sys
from asyncio.subprocess import PIPE
from collections.abc import Iterator

from ... import LabError
from ...compilers.failures import ToolError

LAB = pathlib.Path(__file__).resolve().parents[3]


class WorkerEnded(ToolError):
    """A process was ended by a signal, for example since it exceeded its memory limit, or it took too long."""


@contextlib.contextmanager
def exclusive(seat: str, busy: set[str], refusal: LabError) -> Iterator[None]:
    """Mark a seat as busy within the context. Raises the refusal if it is busy already."""
    if seat in busy:
        raise refusal
    busy.add(seat)
    try:
        yield
    finally:
        busy.discard(seat)


class WorkerPool:
    """Runs a limited number of processes at once; others wait."""

    def __init__(self, places: int, seconds: float | None = None) -> None:
        """places: the number of processes; seconds: the time limit of each after its start; None for no limit"""
        self._places, self._seconds = asyncio.Semaphore(places), seconds

    async def run(self, module: str, *words: str, script: bytes = b"") -> bytes:
        """Run a module of the lab in a process; return the output. module: its name in `vecmon_lab`; words: arguments; script: the input

        Raises LabError if the process fails, and ToolError if it can't start, is killed, or takes too long.
        """
        command = (sys.executable, "-PB", "-m", f"vecmon_lab.{module}", *words)  # no module from the present folder
        environment = os.environ | {"PYTHONPATH": str(LAB)}
        async with self._places:
            try:
                child = await asyncio.create_subprocess_exec(
                    *command, stdin=PIPE, stdout=PIPE, stderr=PIPE, env=environment, start_new_session=True
                )
            except OSError as error:
                raise ToolError(f"{sys.executable} can't be started: {error.strerror}") from error
            try:
                async with asyncio.timeout(self._seconds):
                    output, errors = await child.communicate(script)
            except TimeoutError as error:
                raise WorkerEnded(f"it took more than {self._seconds:g} s") from error
            finally:
                with contextlib.suppress(ProcessLookupError):
                    child.kill()
                await child.wait()
        if child.returncode and child.returncode < 0:
            raise WorkerEnded(
                f"the process of {module} was ended by the signal {signal.Signals(-child.returncode).name}"
            )
        if child.returncode:
            last = errors.decode("utf-8", "replace").strip().rpartition("\n")[2]
            raise LabError(last.partition("Error: ")[2] or last)
        return output
