"""A session: a machine that continues in a new `vecmon` process if its process ends.

Calls block; use a session in one thread at a time. An event loop calls it from another thread.
"""

import contextlib
import pathlib
import re
import time
from collections import deque
from collections.abc import Callable, Iterator, Mapping, Sequence
from functools import partial

from .. import LabError
from .answers import OutOfStep
from .lines import BadLine, check_line, is_look
from .live_process import LiveProcess
from .process import ProgramGone, Vecmon, start
from .program import check_is_vecmon
from .replay import DIFFERS, Progress, Replayer, ReplayDiffers
from .script import Block, Checkpoint, Script, ScriptStart

__all__ = [
    "BadLine",
    "Block",
    "Checkpoint",
    "OutOfStep",
    "ProgramGone",
    "ReplayDiffers",
    "ScriptFull",
    "Session",
    "recorded_lines",
]

SCRIPT_BYTES = 15_000_000  # a process takes at most 16,777,216 bytes, and read-only lines need room as well
WEIGHTY_BYTES, WEIGHTY_SECONDS = 1_000_000, 1.0  # size and time of a replay from which a checkpoint is worth making
TOGETHER = 40  # number of lines that are sent at once: all of them have to fit into the pipe
Observer = Callable[[int, Sequence[str], Sequence[str]], object]
# Matches the first line that no session records, or the end.
_OTHER_LINE = re.compile(rb"^(?![1-8*] [ -~]{0,1022}\n)", re.MULTILINE)


class ScriptFull(LabError):
    """The script has no room for another line."""


def recorded_lines(script: bytes) -> bytes:
    """Return the first lines of a script, up to one that a session wouldn't record, such as an incomplete or damaged line."""
    other = _OTHER_LINE.search(script)
    return script[: other.start()] if other else script


class Session(contextlib.AbstractContextManager["Session"]):
    """A machine for eight users, and the script that brings a new machine into the same state.

    The process is replaced if it ends, hangs, or has no room for more lines. The new one executes the script again, or a
    checkpoint's lines and the lines since then.

    quantum: the number of ticks in a slice
    images: the path of each image, by its name
    command: the path of the program, and its arguments
    recorded: the script
    policy: the policy of each present user for agnostic elements, `keep` or `ones`, by the user's number; no command shows it
    progress: is called with the percentage of the script, from 0 to 100, while a new process executes it
    starts: first parts of the script, the shortest first, that `rewound` doesn't need to execute
    on_lines: is called after lines were recorded, with the size of the script before them, the lines, and their answers
    """

    def __init__(
        self,
        program: Vecmon,
        images: Mapping[str, pathlib.Path] = {},
        *,
        quantum: int | None = None,
        patience: float = 30.0,
        script_bytes: int = SCRIPT_BYTES,
        check: Callable[[], object] = lambda: None,
        lock: Callable[[], contextlib.AbstractContextManager[object]] = contextlib.nullcontext,
    ) -> None:
        """Start the program. Raises as `do` does.

        program: the path of vecmon, or a `Starter`; images: the path of each image, by its name
        quantum: the number of ticks in a slice; None for the program's default
        patience: the seconds without output after which a process counts as hung
        script_bytes: the largest size of the script
        check: is called after a process has started; raises an error if the program mustn't be used
        lock: returns a new lock that its holder can take again; needed if another thread calls `follow`
        """
        self.quantum = 100 if quantum is None else quantum
        options = [] if quantum is None else ["--quantum", str(quantum)]
        words = [f"{name}={path}" for name, path in images.items()]
        self.images = images
        self.command = [str(program), *options, "--", "/dev/stdin", *words]  # vecmon takes images only after a script
        opening = partial(Session, program, images, quantum=quantum, patience=patience)
        self._opening = partial(opening, script_bytes=script_bytes, check=check, lock=lock)
        self._script_bytes = script_bytes
        self.recorded = Script()
        self.policy = self.recorded.policy
        replayer = Replayer(self.recorded, partial(start, program, self.command, images, patience), check)
        self._live = LiveProcess(replayer, script_bytes, lock(), lambda percent: self.progress(percent))
        self.starts: Sequence[ScriptStart] = ()
        self.on_lines: Observer = lambda size, lines, answers: None
        self.progress: Progress = lambda percent: None
        try:
            self._live.replace()
        except BaseException as error:
            self.close()
            if isinstance(error, ProgramGone | OutOfStep) and isinstance(program, pathlib.Path):
                check_is_vecmon(program)
            raise

    def __exit__(self, *error: object) -> None:
        self.close()

    @property
    def script(self) -> bytes:
        """The recorded lines, each with its newline. A plain run of the program with them leads to the same machine."""
        return bytes(self.recorded.text)

    @property
    def size(self) -> int:
        """The number of bytes of the script."""
        return len(self.recorded.text)

    @property
    def lines(self) -> int:
        """The number of lines of the script."""
        return len(self.recorded.marks)

    @property
    def digest(self) -> str:
        """The SHA-256, in hexadecimal digits, of all answers to the script, as a plain run prints them."""
        return self.recorded.answers.hexdigest()

    @property
    def script_digest(self) -> str:
        """The SHA-256 of the script's lines, in hexadecimal digits."""
        return self.recorded.sent.hexdigest()

    @property
    def process(self) -> int | None:
        """The process id; None if there is no process now."""
        return self._live.number

    @property
    def losses(self) -> list[str]:
        """The reason for each replacement of a process that gave no answer."""
        return self._live.losses

    def do(self, line: str) -> list[str]:
        """Execute a line, and record it unless it is read-only. Return the lines of its answer.

        Raises BadLine and ScriptFull for a line that isn't sent. Raises ProgramGone, OutOfStep and ReplayDiffers if there is no answer.
        After an error the line isn't recorded, and the session is unchanged.
        """
        return self.do_all([line])[0]

    def do_all(self, lines: Sequence[str]) -> list[list[str]]:
        """Execute at most TOGETHER lines that are sent at once, and return the answer to each, as `do` does. Raises as `do` does.

        Either all of the lines are executed, or none.
        """
        for line in lines:
            check_line(line)
        self.check_room(lines)
        return self._ask(lines)

    def check_room(self, lines: Sequence[str]) -> None:
        """Raise ScriptFull if the script has no room for these lines."""
        size = sum(len(line) + 1 for line in lines if not is_look(line))
        if size and self.size + size > self._script_bytes:
            raise ScriptFull(f"the script has {self._script_bytes:,} bytes at most, so only lines that look go on")

    def do_script(self, script: bytes) -> Iterator[tuple[str, list[str]]]:
        """Execute the lines of a script that a session recorded, in bulk. Yield each line and the lines of its answer.

        The form of the answers isn't checked: the digest covers them. Raises BadLine, ProgramGone and OutOfStep. After an error, or if the
        caller doesn't iterate to the end, the session can't be used.
        """
        for lines, answers in self.do_blocks(script):
            for line, answer in zip(lines, answers):
                yield line, answer.split("\n")

    def do_blocks(self, script: bytes) -> Iterator[Block]:
        """As `do_script`, but yield blocks of lines with their answers, for callers that need few of them."""
        if len(recorded_lines(script)) < len(script):
            raise BadLine("a script has lines that no session records")
        started = time.monotonic()
        for block in self._live.pipe(script):
            self.recorded.add_replayed(*block)
            yield block
        self.recorded.text += script
        self.recorded.spend(started)

    @property
    def short_script(self) -> bytes:
        """Lines that bring a machine into the script's final state: those of the last checkpoint, and the lines since then."""
        checkpoint, covered = self.recorded.base
        return checkpoint.lines + self.recorded.text[covered:]

    @property
    def weight(self) -> float:
        """The cost of a replay in a new process, as a ratio: from 1 on, a checkpoint should be made."""
        return (self.size - self.recorded.base[1]) / WEIGHTY_BYTES + self.recorded.spent / WEIGHTY_SECONDS

    def follow(self) -> None:
        """Let a spare process execute the script up to its end, perhaps in another thread. It replaces a process that has ended.

        Raises as a replay does; then there is no spare process.
        """
        self._live.follow()

    def renewed(self) -> "Session":
        """Return a new session on an equal machine, whose script is `short_script`. Raises ReplayDiffers, and as `rewound` does."""
        recorded = self.recorded
        replacement, since = self.rewound(self.short_script), recorded.marks[recorded.base[0].number :]
        if replacement.recorded.marks[replacement.lines - len(since) :] != since:
            replacement.close()
            raise ReplayDiffers(DIFFERS)
        replacement.losses.extend(self.losses)
        return replacement

    def rewound(self, script: bytes, check: Callable[[], object] = lambda: None) -> "Session":
        """Return a new session with the same images that has executed `script`. Raises as `do_script` does.

        The lines of the longest of `starts` with which `script` begins aren't executed, if other lines can set up the same state.

        check: is called repeatedly while the script is executed. An error that it raises closes the new session
        """
        replacement = self._opening()
        try:
            replacement._skip_start(script, self.starts, self.recorded)
            for _ in replacement.do_blocks(script[replacement.size :]):
                check()
        except BaseException:
            replacement.close()
            raise
        return replacement

    def _skip_start(self, script: bytes, starts: Sequence[ScriptStart], other: Script) -> None:
        """Bring the machine into the state after the longest of `starts` with which `script` begins, if there are lines that do so.

        Add the lines of this start to the recorded script. other: the script to which the starts belong
        """
        for number, first in reversed([*enumerate(starts, 1)]):
            if first.size > len(script) or script[: first.size] != other.text[: first.size]:
                continue
            lines = first.lines()
            if lines is not None and self._live.number is not None:
                deque(self._live.pipe_set_up(lines), 0)
                self.recorded.begin(first, lines, other)
                self.starts = starts[:number]
                return

    def looks(self, lines: Sequence[str]) -> list[str]:
        """Return the answers to at most TOGETHER read-only lines whose answers have one line each. The lines aren't checked.

        Raises as `do` does if there are no answers.
        """
        return [answer for (answer,) in self._ask(lines)]

    def look(self, line: str) -> list[str]:
        """Return the answer to a read-only line. Raises BadLine for any other line, and otherwise as `do`."""
        check_line(line)
        if not is_look(line):
            raise BadLine(f"{line[:40]!r} isn't a line that only looks")
        return self._ask([line])[0]

    def close(self) -> None:
        """End the process. The session starts a new one when it gets another line."""
        self._live.close()

    def end(self) -> None:
        """End the process for good. Another thread that waits for an answer gets ProgramGone."""
        self._live.end()

    def _ask(self, lines: Sequence[str]) -> list[list[str]]:
        """Send lines, record those that aren't read-only, and return the answers. An error or an interrupt ends the process."""
        started = time.monotonic()
        try:
            answers = self._live.ask(lines)
            done = [(line, "\n".join(answer)) for line, answer in zip(lines, answers) if not is_look(line)]
            if done:
                self._record(*zip(*done))
                self.recorded.spend(started)
        except BaseException:
            self.close()
            raise
        return answers

    def _record(self, lines: Sequence[str], answers: Sequence[str]) -> None:
        """Add lines and their answers to the script, and call `on_lines`."""
        size = self.size
        self.recorded.record(lines, answers)
        self.on_lines(size, lines, answers)
