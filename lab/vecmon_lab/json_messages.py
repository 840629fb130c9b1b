"""Messages of editors' protocols: a header with the length of the content in bytes, and the content in JSON.

The specifications of the Debug Adapter Protocol and of the Language Server Protocol call this the base protocol.
"""

import json
import os
import re
import select
from collections import deque

from . import LabError

_HEAD_BYTES = 4096  # the longest header
_BLOCK = 65536  # bytes to read at once, at most
_LENGTH = re.compile(rb"^content-length:[ \t]*([0-9]{1,15})[ \t]*\r?$", re.IGNORECASE | re.MULTILINE)
_END = b"\r\n\r\n"  # the end of a header
_HINT = "start this command from an editor"


class BadHead(LabError):
    """The header of a message is invalid, so the start of the next message is unknown."""


class BadContent(LabError):
    """The content of a message isn't JSON."""


def message_bytes(message: object) -> bytes:
    """Return the bytes of a message: its header, and its content in JSON."""
    content = json.dumps(message, separators=(",", ":")).encode("ascii")
    return b"Content-Length: %d\r\n\r\n%s" % (len(content), content)


def read_content(content: bytes) -> object:
    """Parse the content of a message. Raises BadContent if it isn't JSON."""
    try:
        value: object = json.loads(content)
    except (ValueError, RecursionError) as error:
        raise BadContent(f"a message isn't JSON: {error}") from error
    return value


class Contents:
    """The contents of the messages that arrive through a file descriptor.

    waiting: the contents that arrived and that `next` hasn't returned yet, the oldest first
    has_ended: whether the client has closed its side
    """

    def __init__(self, source: int, limit: int) -> None:
        """source: the file descriptor; limit: the largest length of a content, in bytes"""
        self.waiting = deque[bytes]()
        self.has_ended = False
        self._source, self._limit = source, limit
        self._unread = bytearray()

    def next(self) -> bytes:
        """Return the next content; wait for it if necessary. Raises EOFError if the client has gone, and BadHead for an invalid header."""
        while not self.waiting:
            if self.has_ended:
                raise EOFError
            self._read()
        return self.waiting.popleft()

    def comes_within(self, seconds: float) -> bool:
        """Wait for input for this time at most; return whether there is some, also the end of the input."""
        return bool(self.waiting or self.has_ended or select.select([self._source], [], [], seconds)[0])

    def read_arrived(self) -> None:
        """Read all messages that have arrived, without waiting. Raises BadHead for an invalid header."""
        while not self.has_ended and select.select([self._source], [], [], 0)[0]:
            self._read()

    def _read(self) -> None:
        """Wait for the next bytes, and append the contents that they complete to `waiting`. Raises BadHead for an invalid header."""
        data = os.read(self._source, _BLOCK)
        self.has_ended = not data
        self._unread += data
        while (end := self._unread.find(_END)) >= 0:
            found = _LENGTH.search(self._unread[:end])
            if found is None or int(found[1]) > self._limit:
                raise BadHead(f"a message has no Content-Length of up to {self._limit:,} in its head: {_HINT}")
            start = end + len(_END)
            stop = start + int(found[1])
            if len(self._unread) < stop:
                return
            self.waiting.append(bytes(self._unread[start:stop]))
            del self._unread[:stop]
        if len(self._unread) > _HEAD_BYTES or self._unread[:1] in (b"\r", b"\n"):
            raise BadHead(f"a message has no Content-Length in its first {_HEAD_BYTES:,} bytes: {_HINT}")
