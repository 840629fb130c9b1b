"""One `vecmon` process, connected by pipes. Calls block; use it in one thread at a time."""

import contextlib
import os
import select
import signal
from collections import deque
from collections.abc import Iterator, Sequence
from subprocess import PIPE, Popen

from .answers import OutOfStep, is_whole
from .process import BLOCK_BYTES, ProgramGone


@contextlib.contextmanager
def _blocked_interrupts() -> Iterator[None]:
    """Block SIGINT in this thread, and in processes that it starts meanwhile."""
    before = signal.pthread_sigmask(signal.SIG_BLOCK, {signal.SIGINT})
    try:
        yield
    finally:
        signal.pthread_sigmask(signal.SIG_SETMASK, before)


class PipedProcess:
    """A process of the program, which receives lines and returns their whole answers.

    fed: the number of bytes that the process has received
    number: the process id
    """

    def __init__(self, command: Sequence[str], patience: float) -> None:
        self.fed = 0
        self._patience = patience
        self._unread = b""
        self._lines = deque[str]()  # complete lines that were received, and aren't read yet
        try:  # in a new session of the system, so that Ctrl-C in a terminal never ends the process, not even while it starts
            with _blocked_interrupts():
                self._child = Popen(command, stdin=PIPE, stdout=PIPE, stderr=PIPE, bufsize=0, start_new_session=True)
        except OSError as error:
            raise ProgramGone(f"{command[0]} can't be started: {error.strerror}") from error
        assert self._child.stdin and self._child.stdout and self._child.stderr
        self.number = self._child.pid
        self._feed, self._source = self._child.stdin.fileno(), self._child.stdout.fileno()
        self._stderr = self._child.stderr.fileno()
        os.set_blocking(self._stderr, False)
        self._readable = select.poll()
        self._readable.register(self._source, select.POLLIN)

    def ask(self, lines: Sequence[str]) -> list[list[str]]:
        """Send lines together, and return the answer to each of them, as a list of lines.

        Raises ProgramGone and OutOfStep. After either error, the process can't be used.
        """
        if self._rest() or self._receive(0):
            raise OutOfStep(f"before {lines[0][:60]!r} was sent there came {self._rest()[:60]!r}")
        data = "".join(f"{line}\n" for line in lines).encode("ascii")
        self._put(memoryview(data))
        self.fed += len(data)
        answers = [self._answer(line) for line in lines]
        if self._rest():
            raise OutOfStep(f"after the answer to {lines[-1][:60]!r} there came {self._rest()[:60]!r}")
        return answers

    def stream(self, script: bytes) -> Iterator[bytes]:
        """Send the lines of a script while the process reads them, and yield blocks of whole lines of output as they arrive.

        The script mustn't have read-only lines. The form of the answers isn't checked. Raises ProgramGone.
        """
        # A read-only line marks the end of the answers: no line of a script has an answer like it.
        left = memoryview(script + b"* list\n")
        self.fed += len(left)
        os.set_blocking(self._feed, False)
        ends = select.poll()
        ends.register(self._source, select.POLLIN)
        ends.register(self._feed, select.POLLOUT)
        while True:
            ready = {end for end, _ in ends.poll(self._patience * 1000)}
            if not ready:
                raise ProgramGone(f"the program says nothing for {self._patience:g} s")
            if self._feed in ready:
                left = left[self._put(left[:BLOCK_BYTES]) :]
                if not left:
                    ends.unregister(self._feed)
            if self._source in ready and self._receive(0):
                block, newline, self._unread = self._unread.rpartition(b"\n")
                answers, _, last = block.rpartition(b"\n")
                if last.startswith(b"* list ") and not left:
                    yield answers + newline if answers else b""
                    break
                yield block + newline
        os.set_blocking(self._feed, True)

    def _put(self, data: memoryview) -> int:
        """Write bytes to the process, as many as the pipe takes, and return their number. Raises ProgramGone."""
        try:
            return os.write(self._feed, data)
        except OSError as error:
            raise ProgramGone(self._end()) from error

    def _answer(self, line: str) -> list[str]:
        """Return the lines of the next answer. Raises ProgramGone and OutOfStep. line: the line that was sent"""
        answer = [self._line()]
        while not is_whole(line, answer):
            answer.append(self._line())
        return answer

    def _line(self) -> str:
        """Return the next line that the process has printed, without its newline."""
        while not self._lines:
            if not self._receive(self._patience):
                raise ProgramGone(f"the program says nothing for {self._patience:g} s")
            whole, newline, self._unread = self._unread.rpartition(b"\n")
            self._lines += whole.decode("latin-1").split("\n") if newline else []
        return self._lines.popleft()

    def _rest(self) -> bytes:
        """Return the bytes that were received, and that no answer has used yet."""
        return "".join(f"{line}\n" for line in self._lines).encode("latin-1") + self._unread

    def _receive(self, seconds: float) -> bool:
        """Wait for output, at most a number of seconds, and receive it. Return whether there was any. Raises ProgramGone at the end."""
        if not self._readable.poll(seconds * 1000):
            return False
        data = os.read(self._source, BLOCK_BYTES)
        if not data:
            raise ProgramGone(self._end())
        self._unread += data
        return True

    def _end(self) -> str:
        """End the process; return a message with its exit status or signal, and the first line of its standard error."""
        self._child.kill()
        status = self._child.wait()
        how = f"with status {status}" if status >= 0 else f"by {signal.Signals(-status).name}"
        with contextlib.suppress(BlockingIOError):
            errors = os.read(self._stderr, 4096).decode("utf-8", "replace")
            how = ": ".join([how, *errors.splitlines()[:1]])
        return f"the program ended {how}"

    def kill(self) -> None:
        """End the process at once, whatever it does. Another thread may call this."""
        self._child.kill()

    def close(self) -> None:
        """End the process, and close its pipes."""
        self.kill()
        with self._child:  # closes the pipes, and waits for the process
            pass
