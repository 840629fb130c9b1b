"""Messages of the Debug Adapter Protocol: https://microsoft.github.io/debug-adapter-protocol/overview"""

from collections import deque
from collections.abc import Callable, Sequence
from typing import Any

from .. import LabError
from ..json_messages import Contents, message_bytes, read_content

Message = dict[str, Any]

MAX_BYTES = 1 << 24  # of a message


class BadMessage(LabError):
    """A message of the client isn't a request."""


class Wire:
    """The connection to a client."""

    def __init__(self, source: int, write: Callable[[bytes], object]) -> None:
        """source: a file descriptor to read from; write: sends bytes to the client"""
        self._contents, self._write = Contents(source, MAX_BYTES), write
        self._waiting = deque[Message]()
        self._number = 0  # of the last message that was sent

    def send(self, kind: str, **fields: Any) -> None:
        """Send a message: an `event` or a `response`. Raises BrokenPipeError or ConnectionError if the client has gone."""
        self._number += 1
        self._write(message_bytes({"seq": self._number, "type": kind, **fields}))

    def receive(self) -> Message:
        """Return the next message; wait for it if necessary.

        Raises EOFError if the client has gone, and BadMessage, BadContent or BadHead for an invalid message.
        """
        return self._waiting.popleft() if self._waiting else _request_of(self._contents.next())

    def comes_within(self, seconds: float) -> bool:
        """Wait for input for `seconds` at most. Return whether there is input: the start of a message, or the end of the input."""
        return bool(self._waiting) or self._contents.comes_within(seconds)

    @property
    def has_ended(self) -> bool:
        """Whether the end of the client's input has been read. Messages that arrived before the end may still be waiting."""
        return self._contents.has_ended

    def take(self, message: Message) -> None:
        """Remove a message from the waiting messages."""
        self._waiting.remove(message)

    def waiting(self) -> Sequence[Message]:
        """Return the messages that have arrived and that `receive` hasn't returned yet, the oldest first. Raises as `receive` does."""
        self._contents.read_arrived()
        while self._contents.waiting:
            self._waiting.append(_request_of(self._contents.next()))
        if self._contents.has_ended and not self._waiting:
            raise EOFError
        return self._waiting


def _request_of(content: bytes) -> Message:
    """Return the message in a content. Raises BadContent if the content isn't JSON, and BadMessage if the message isn't a request."""
    message = read_content(content)
    if not isinstance(message, dict) or type(message.get("seq")) is not int:
        raise BadMessage("a message has no number seq")
    if message.get("type") != "request" or not isinstance(message.get("command"), str):
        raise BadMessage("a message is no request with a command")
    return message
