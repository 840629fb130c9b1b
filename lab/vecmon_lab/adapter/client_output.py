"""Output to a client that may have gone without a sign: one that sends nothing more, and leaves a full pipe unread."""

import select
from collections.abc import Callable

GONE_SECONDS = 3.0
"""How long a client that has closed its own output may leave the adapter's output unread."""

_BLOCK = select.PIPE_BUF  # bytes that can be written without waiting to a pipe that is ready
_HANG_UP = select.POLLHUP | getattr(select, "POLLRDHUP", 0)  # the client has closed its output; macOS has no POLLRDHUP
_READY = select.POLLOUT | select.POLLERR | select.POLLHUP | select.POLLNVAL  # a write doesn't wait, or it fails


class ClientOutput:
    """The output to a client. Writing waits for a client that reads slowly, but not for one that has gone."""

    def __init__(self, source: int, target: int, write_some: Callable[[bytes], int]) -> None:
        """source, target: file descriptors for the client's output and input, which are equal for a socket

        write_some: writes some of the bytes to `target`, and returns how many
        """
        self._source, self._target, self._write_some = source, target, write_some
        self._is_gone = False

    def write(self, data: bytes) -> None:
        """Write bytes. Raises BrokenPipeError or ConnectionError if the client has gone."""
        while data:
            self._wait()
            try:
                data = data[self._write_some(data[:_BLOCK]) :]
            except BlockingIOError:
                continue  # a socket has less room than a block needs

    def _wait(self) -> None:
        """Wait until the client reads. Raises BrokenPipeError if it has closed its output and reads nothing for `GONE_SECONDS`."""
        if not self._is_gone and (self._reads_before_hang_up() or self._reads_within(GONE_SECONDS)):
            return
        self._is_gone = True
        raise BrokenPipeError("the client reads nothing")

    def _reads_before_hang_up(self) -> bool:
        """Wait until the client reads or closes its output; return whether it reads."""
        poll = select.poll()
        poll.register(self._source, _HANG_UP)
        poll.register(self._target, select.POLLOUT | (_HANG_UP if self._source == self._target else 0))
        return bool(dict(poll.poll()).get(self._target, 0) & _READY)

    def _reads_within(self, seconds: float) -> bool:
        """Wait until the client reads, for this time at most; return whether it reads."""
        poll = select.poll()
        poll.register(self._target, select.POLLOUT)
        return bool(poll.poll(1000 * seconds))
