"""Limits of WebSocket frames: their form, their rate, and the single small frame that a client may send before its code.

aiohttp parses all frames of a read at once, whatever their number: thousands of empty ones delay everybody. So the limits
are checked on the bytes, before aiohttp parses them.
"""

import time
from collections.abc import Callable
from typing import Protocol

from aiohttp import WSCloseCode, WSMsgType, web
from aiohttp.http import WebSocketError, WebSocketWriter

FRAMES_A_SECOND, FRAMES_AT_ONCE = 500, 1000  # of a tab; a page sends fewer than 100 requests a second
CONTROLS_A_SECOND, CONTROLS_AT_ONCE = 20, 60  # pings, pongs and closes; a browser answers a ping each 10 s
CODE_BYTES, CONTROLS_BEFORE_CODE = 1024, 16  # of the message with the code; control frames before it
MASKED, LENGTH = 0x80, 0x7F  # bits of a header's second byte
FINAL, OPCODE = 0x80, 0x0F  # bits of a header's first byte
CONTROL = 8  # the first opcode of control frames
PIECE = 4096  # bytes that aiohttp gets at once

Clock = Callable[[], float]


class Rate:
    """A limit on events (a token bucket): `a_second` events each second on average, and `at_once` events at once."""

    def __init__(self, a_second: float, at_once: float, clock: Clock = time.monotonic) -> None:
        self._a_second, self._at_once, self._clock = a_second, at_once, clock
        self._left, self._since = at_once, clock()

    def take(self, amount: float = 1) -> float:
        """Count `amount` events; return how many more may come at once. A negative number shows that the limit is exceeded."""
        now = self._clock()
        self._left = min(self._at_once, self._left + (now - self._since) * self._a_second) - amount
        self._since = now
        return self._left


class FrameLimits:
    """Follows the headers of a client's frames. `has_code` is set once the client has sent a code that opens a seat."""

    def __init__(self, clock: Clock = time.monotonic) -> None:
        self.has_code = False
        self._frames = Rate(FRAMES_A_SECOND, FRAMES_AT_ONCE, clock)
        self._controls = Rate(CONTROLS_A_SECOND, CONTROLS_AT_ONCE, clock)
        self._controls_before_code = 0
        self._has_first = False
        self._header, self._payload_left = bytearray(), 0

    def follow(self, data: bytes) -> None:
        """Follow the next bytes of a client. Raises WebSocketError at the first frame beyond a limit."""
        place = 0
        while place < len(data):
            if self._payload_left:
                skipped = min(self._payload_left, len(data) - place)
                self._payload_left, place = self._payload_left - skipped, place + skipped
                continue
            self._header.append(data[place])
            place += 1
            if len(self._header) == _header_size(self._header):
                self._payload_left = _payload_size(self._header)
                self._check_frame(self._header[0], self._header[1])
                self._header.clear()

    def _check_frame(self, first: int, second: int) -> None:
        """Raise WebSocketError if a frame isn't allowed. first, second: the first two bytes of its header"""
        if not second & MASKED:
            raise WebSocketError(WSCloseCode.PROTOCOL_ERROR, "a client's frames are masked")
        is_control = first & OPCODE >= CONTROL
        if self._frames.take() < 0 or is_control and self._controls.take() < 0:
            raise WebSocketError(WSCloseCode.POLICY_VIOLATION, "too many frames in a second")
        if not self.has_code:
            self._check_before_code(first, is_control)

    def _check_before_code(self, first: int, is_control: bool) -> None:
        """Raise WebSocketError unless a frame may come before the code is accepted: one small text, and a few control frames."""
        if is_control:
            self._controls_before_code += 1
            if self._controls_before_code > CONTROLS_BEFORE_CODE:
                raise WebSocketError(WSCloseCode.POLICY_VIOLATION, "too many control frames before the code")
            return
        is_whole_text = first & FINAL and first & OPCODE == WSMsgType.TEXT
        if self._has_first or not is_whole_text or self._payload_left > CODE_BYTES:
            raise WebSocketError(WSCloseCode.POLICY_VIOLATION, "one small message with the code comes first")
        self._has_first = True


def _header_size(header: bytearray) -> int:
    """Return the size in bytes of the header that starts with these bytes. Two bytes determine it; for fewer bytes, return 2."""
    if len(header) < 2:
        return 2
    return 2 + {126: 2, 127: 8}.get(header[1] & LENGTH, 0) + (4 if header[1] & MASKED else 0)


def _payload_size(header: bytearray) -> int:
    """Return the size of the payload after a whole header."""
    length = header[1] & LENGTH
    size = {126: 2, 127: 8}.get(length, 0)
    return int.from_bytes(header[2 : 2 + size], "big") if size else length


class _Parser(Protocol):
    """A parser of a connection's bytes, as aiohttp calls it."""

    def feed_data(self, data: bytes) -> tuple[bool, bytes]:
        """Parse bytes; return whether the connection has ended, and the bytes after its end."""

    def feed_eof(self) -> None:
        """Take up that the client sends no more bytes."""


class _LimitedParser:
    """Passes bytes to aiohttp's parser as long as their frames are within the limits."""

    def __init__(self, parser: _Parser, limits: FrameLimits, refuse: Callable[[WebSocketError], object]) -> None:
        """refuse: is called with the error of the first frame beyond a limit"""
        self._parser, self._limits, self._refuse = parser, limits, refuse
        self._is_over = False

    def feed_data(self, data: bytes) -> tuple[bool, bytes]:
        """Parse bytes as `_Parser.feed_data` does, but drop all bytes after a frame that isn't allowed."""
        for start in range(0, len(data), PIECE):
            if self._is_over:
                return False, b""
            piece = data[start : start + PIECE]
            try:
                self._limits.follow(piece)
            except WebSocketError as error:
                self._is_over = True
                self._refuse(error)
                return False, b""
            has_ended, rest = self._parser.feed_data(piece)
            if has_ended:
                return True, rest
        return False, b""

    def feed_eof(self) -> None:
        """Pass the end of the client's bytes on."""
        self._parser.feed_eof()


class LimitedSocket(web.WebSocketResponse):
    """A server's WebSocket with limits for a client's frames, also for frames that arrive together with the request."""

    limits: FrameLimits

    def _post_start(self, request: web.BaseRequest, protocol: str, writer: WebSocketWriter) -> None:
        """Begin to read frames; called by aiohttp once the handshake is sent."""
        handler = request.protocol
        early, handler._message_tail = handler._message_tail, b""
        super()._post_start(request, protocol, writer)
        reader = self._reader
        assert handler._payload_parser is not None and reader is not None
        self.limits = FrameLimits()
        handler._payload_parser = _LimitedParser(handler._payload_parser, self.limits, reader.set_exception)
        if early:
            handler._payload_parser.feed_data(early)
