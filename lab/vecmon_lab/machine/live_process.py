"""The process of a session, and a spare one that takes its place once it ends, hangs or is full."""

import contextlib
from collections.abc import Iterator, Sequence

from .process import Process, ProgramGone
from .replay import Copy, Progress, Replayer
from .script import Block


class LiveProcess:
    """The process of a session. If it fails, a process in the same state replaces it.

    losses: for each process that gave no answer and was replaced, the reason
    """

    def __init__(
        self, replayer: Replayer, limit: int, lock: contextlib.AbstractContextManager[object], progress: Progress
    ) -> None:
        """replayer: starts new processes; limit: the number of bytes of lines for which a process has room
        lock: protects the spare process, since another thread may call `follow`; the thread that holds the lock can take it again
        progress: is called with the percentage of the script that a new process has executed
        """
        self.losses: list[str] = []
        self._replayer, self._limit, self._lock, self._progress = replayer, limit, lock, progress
        self._process: Process | None = None
        self._spare: Copy | None = None
        self._percent = 100

    @property
    def number(self) -> int | None:
        """The process id; None if there is no process now."""
        return self._process.number if self._process else None

    def ask(self, lines: Sequence[str]) -> list[list[str]]:
        """Return the answer to each line, as a list of lines. If the process has ended or is full, a new one answers.

        Raises as `replace` and `Process.ask` do.
        """
        if self._process and self._process.fed + sum(map(len, lines)) >= self._limit + self._limit // 10:
            self.close()
        if self._process:
            try:
                return self._process.ask(lines)
            except ProgramGone as gone:
                self.losses.append(str(gone))
                self.close()
        return self.replace().ask(lines)

    def pipe(self, script: bytes) -> Iterator[Block]:
        """Execute lines in bulk, and yield blocks of lines with their answers. script: the lines, each with its newline"""
        return self._replayer.piped(self._process or self.replace(), script, self._tell)

    def pipe_set_up(self, lines: bytes) -> Iterator[Block]:
        """Execute lines that set up a new machine, and yield blocks as `pipe` does. Don't report progress."""
        return self._replayer.piped(self._process or self.replace(), lines)

    def replace(self) -> Process:
        """Make the spare process, or else a new one, the session's process, and return it.

        It has executed the script with the same answers as the process before. Raises ProgramGone, OutOfStep and ReplayDiffers.
        """
        with self._lock:
            spare, self._spare = self._spare, None
            if spare:
                with contextlib.suppress(ProgramGone):
                    self._use(spare).ask(["* list"])  # raises ProgramGone if the spare has ended
                    return spare.process
                spare.process.close()
            return self._use(self._replayer.copy())

    def follow(self) -> None:
        """Let a spare process execute the script up to its end, perhaps in another thread.

        Raises as `replace` does. After an error there is no spare process.
        """
        with self._lock:
            if self._spare and self._spare.process.fed > self._limit:
                self._spare.process.close()
                self._spare = None
            if not self._replayer.has_ended:
                self._spare = self._spare or self._replayer.copy()
                try:
                    self._replayer.bring_up(self._spare)
                except BaseException:
                    self._spare = None
                    raise

    def close(self) -> None:
        """End the process. The next `ask` starts another one, unless the session has ended."""
        if self._process:
            self._process.close()
        self._process = None
        if self._replayer.has_ended:
            with self._lock:
                if self._spare:
                    self._spare.process.close()
                self._spare = None

    def end(self) -> None:
        """End the process for good. Another thread that waits for an answer gets ProgramGone."""
        self._replayer.has_ended, spare = True, self._spare
        for process in (self._process, spare.process if spare else None):
            if process:
                process.kill()

    def _use(self, copy: Copy) -> Process:
        """Make a copy's process the session's, execute the rest of the script in it, and return it.

        Raises as `replace` does. After an error the process is closed.
        """
        self._process = copy.process
        try:
            self._replayer.bring_up(copy, self._tell)
        except BaseException:
            self.close()
            raise
        return copy.process

    def _tell(self, percent: int) -> None:
        """Report the percentage of the script that was executed, if it has changed."""
        if percent != self._percent:
            self._percent = percent
            self._progress(percent)
