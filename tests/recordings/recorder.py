"""The recorder under test: its path, the results of a run, and the form of a file of counts."""

import os
import pathlib
import subprocess
from collections.abc import Mapping, Sequence
from dataclasses import dataclass
from typing import TypeVar

from tests.program import TOP, limit_stack, lines_of

Value = TypeVar("Value")
BUILT = TOP / "crates/vecmon_record/out/vecmon_record"


@dataclass(frozen=True)
class Recorded:
    """The output of a run of the recorder, and its counts, if it wrote some."""

    stdout: bytes
    stderr: str
    status: int
    counts: str


@dataclass(frozen=True)
class RecordedLog:
    """The output of a run of the recorder, and its log, if it wrote one."""

    stdout: bytes
    stderr: str
    status: int
    log: str


@dataclass(frozen=True)
class Counts:
    """The content of a file of counts.

    words: by address and word how often, ticks, and elements that were active, masked off and of the tail
    lengths: by vtype and vl how often; calls: counts by the address of a jump and its target
    end: why the program stopped and where, as the monitor says it; instructions, ticks: of all the run
    """

    words: Mapping[tuple[int, int], tuple[int, ...]]
    lengths: Mapping[tuple[int, int], int]
    calls: Mapping[tuple[int, int], int]
    end: str
    instructions: int
    ticks: int


def built_recorder() -> pathlib.Path:
    """The recorder named by VECMON_RECORD; else the one in VECMON's folder; else the one built in this checkout."""
    named, monitor = os.environ.get("VECMON_RECORD"), os.environ.get("VECMON")
    beside = pathlib.Path(monitor).with_name("vecmon-record") if monitor else BUILT
    return pathlib.Path(named or beside).absolute()


def record(folder: pathlib.Path, *arguments: object, more: Sequence[int] = (), counts: bool = True) -> Recorded:
    """Runs the recorder in a folder with `--counts counts` before other words, or without, and with the stack of `STACK`.

    more: descriptors that it is given
    """
    file = folder / "counts"
    file.unlink(missing_ok=True)
    command = [str(built_recorder()), *(["--counts", "counts"] if counts else []), *map(str, arguments)]
    completed = subprocess.run(
        command, cwd=folder, capture_output=True, check=False, pass_fds=more, preexec_fn=limit_stack
    )
    reply = file.read_text("ascii") if file.exists() else ""
    return Recorded(completed.stdout, completed.stderr.decode(), completed.returncode, reply)


def record_log(folder: pathlib.Path, *arguments: object) -> RecordedLog:
    """Runs the recorder in a folder with `--log log` before other words."""
    log = folder / "log"
    log.unlink(missing_ok=True)
    command = [str(built_recorder()), "--log", "log", *map(str, arguments)]
    completed = subprocess.run(command, cwd=folder, capture_output=True, check=False, preexec_fn=limit_stack)
    return RecordedLog(
        completed.stdout,
        completed.stderr.decode(),
        completed.returncode,
        log.read_text("ascii") if log.exists() else "",
    )


def read_counts(text: str) -> Counts:
    """The content of a file of counts. Raises ValueError for a line of another form, or a key with two lines."""
    words = dict[tuple[int, int], tuple[int, ...]]()
    lengths, calls = dict[tuple[int, int], int](), dict[tuple[int, int], int]()
    *rows, last = lines_of(text)
    for row in rows:
        match row.split(" "):
            case ["at", pc, word, *numbers] if len(numbers) == 5:
                _enter(words, (int(pc, 16), int(word, 16)), tuple(map(int, numbers)))
            case ["vl", vtype, vl, times]:
                _enter(lengths, (int(vtype, 16), int(vl)), int(times))
            case ["call", pc, target, times]:
                _enter(calls, (int(pc, 16), int(target, 16)), int(times))
            case _:
                raise ValueError(f"no line of counts: {row}")
    end, instructions, ticks = last.rsplit(" ", 2)
    return Counts(words, lengths, calls, end, int(instructions), int(ticks))


def _enter(rows: dict[tuple[int, int], Value], key: tuple[int, int], value: Value) -> None:
    if key in rows:
        raise ValueError(f"two lines of {key}")
    rows[key] = value
