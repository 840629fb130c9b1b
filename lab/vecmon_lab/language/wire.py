"""Messages of the Language Server Protocol over two pipes: https://microsoft.github.io/language-server-protocol"""

import os

from ..json_messages import Contents, message_bytes, read_content

MAX_BYTES = 64_000_000  # of a message


class Wire:
    """The server's end of the connection to an editor, for use by one thread."""

    def __init__(self, source: int = 0, target: int = 1) -> None:
        """source, target: the file descriptors to read from and to write to"""
        self._contents, self._target = Contents(source, MAX_BYTES), target

    def send(self, message: object) -> None:
        """Write a message. Raises BrokenPipeError if the editor has gone."""
        data = message_bytes(message)
        while data:
            data = data[os.write(self._target, data) :]

    def receive(self) -> object:
        """Return the next message; wait for it if necessary.

        Raises EOFError if the editor has gone, and BadContent or BadHead for an invalid message.
        """
        return read_content(self._contents.next())

    def is_waiting(self) -> bool:
        """Return whether a message has arrived that `receive` hasn't returned, or the editor has gone. Doesn't wait. Raises BadHead."""
        self._contents.read_arrived()
        return bool(self._contents.waiting) or self._contents.has_ended
