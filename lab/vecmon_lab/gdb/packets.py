"""Packets of gdb's remote serial protocol over a pipe or a socket (gdb's manual, "gdb Remote Serial Protocol").

A packet is `$DATA#SUM`, where SUM is the sum of the bytes of DATA modulo 256, in two hexadecimal digits. The receiver acknowledges a packet
with `+`, or requests it again with `-`, until gdb turns acknowledgements off. A byte 03 between packets requests a stop.
"""

import os
import re
import select
from collections.abc import Callable

from ..output import write_out

_PACKET = re.compile(rb"\$([^$#]*)#([0-9A-Fa-f]{2})")
_INTERRUPT = b"\x03"


class Link:
    """The connection to gdb: by default standard input and output."""

    def __init__(self, source: int = 0, write: Callable[[bytes], object] = write_out) -> None:
        """source: a file descriptor to read from; write: is called with bytes for gdb"""
        self._source, self._write = source, write
        self._unread = b""
        self._acknowledges = True

    def receive(self) -> str:
        """Return the data of the next packet; bytes between packets are dropped. Raises EOFError if the connection is closed."""
        while True:
            while not (packets := [*_PACKET.finditer(self._unread)]):
                self._read()
            packet = packets[-1]  # gdb sends one packet at a time, and repeats it if the reply takes some seconds
            self._unread = self._unread[packet.end() :]
            data, is_good = packet[1], sum(packet[1]) % 256 == int(packet[2], 16)
            if self._acknowledges:
                self._write(b"+" if is_good else b"-")
            if is_good:
                self._acknowledges &= data != b"QStartNoAckMode"
                return data.decode("latin-1")

    def send(self, text: str) -> None:
        """Send a packet with this data."""
        data = re.sub(rb"[#$}*]", lambda odd: b"}" + bytes([odd[0][0] ^ 0x20]), text.encode("latin-1"))
        self._write(b"$" + data + b"#%02x" % (sum(data) % 256))

    def is_interrupted(self) -> bool:
        """Whether gdb has requested a stop, while it waits for a reply. Raises EOFError if the connection is closed."""
        if _INTERRUPT not in self._unread and select.select([self._source], [], [], 0)[0]:
            self._read()
        before, interrupt, behind = self._unread.partition(_INTERRUPT)
        self._unread = before + behind
        return bool(interrupt)

    def _read(self) -> None:
        data = os.read(self._source, 65536)
        if not data:
            raise EOFError
        self._unread += data
