"""The processes that a test has started, and that none outlives it."""

import contextlib
import os
import pathlib
import signal
import time
from collections.abc import Collection
from typing import NamedTuple

SECONDS = 60.0


class Process(NamedTuple):
    """A process: its number, and when it was started, in clock ticks since boot. The system may use a number again."""

    number: int
    started: int


def _stat(number: int) -> list[str] | None:
    """The fields of /proc/N/stat behind the name, from the state on; None of a process that has ended, or is a zombie."""
    try:
        fields = pathlib.Path(f"/proc/{number}/stat").read_text("utf-8", "replace").rpartition(")")[2].split()
    except OSError:
        return None
    return None if fields[0] in "ZX" else fields


def descendants(parent: int) -> list[Process]:
    """The processes below a process, which isn't one of them."""
    parents: dict[int, list[Process]] = {}
    for path in pathlib.Path("/proc").glob("[0-9]*"):
        if fields := _stat(int(path.name)):
            parents.setdefault(int(fields[1]), []).append(Process(int(path.name), int(fields[19])))
    found, numbers = [], [parent]
    while numbers:
        below = parents.get(numbers.pop(), [])
        found += below
        numbers += [each.number for each in below]
    return found


def alive(processes: Collection[Process]) -> list[Process]:
    """Those of the processes that haven't ended."""
    return [each for each in processes if (fields := _stat(each.number)) and int(fields[19]) == each.started]


def end_all(processes: Collection[Process], seconds: float = SECONDS) -> list[Process]:
    """Wait until processes have ended; after a number of seconds, kill the groups of the others, and return these."""
    left = _wait(processes, seconds)
    for each in left:
        with contextlib.suppress(ProcessLookupError):
            group = os.getpgid(each.number)
            os.kill(each.number, signal.SIGKILL) if group == os.getpgrp() else os.killpg(group, signal.SIGKILL)
    assert not _wait(left, SECONDS), f"processes go on after SIGKILL: {left}"
    return left


def _wait(processes: Collection[Process], seconds: float) -> list[Process]:
    """Wait at most a number of seconds until processes have ended; return those that haven't."""
    end = time.monotonic() + seconds
    while (left := alive(processes)) and time.monotonic() < end:
        time.sleep(0.02)
    return left
