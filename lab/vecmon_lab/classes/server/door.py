"""The door of a class's server: accepted connections wait there, and are served at a limited rate, the newest first.

A connection that waits costs a file handle and no work. So a flood of connections is left open: its clients would connect
again at once if they were closed. A request that shows the code of a seat is served before all others, however many wait.
"""

import asyncio
import contextlib
import socket
from collections import defaultdict
from collections.abc import Callable, Coroutine
from typing import Any, cast

from aiohttp import web

from .connections import Crowd, network_of
from .frame_limits import Rate

A_SECOND, AT_ONCE = 100, 1000  # connections that are served; a class of 96 opens some 200 after a restart of the server
BREATH = 0.001  # seconds between two connections, in which other work is done
BACKLOG = 4096  # connections that the kernel holds until they are accepted; the client of a dropped connection waits for seconds
ACCEPTED = 256  # the most connections that are accepted in a row
OF_CODE_A_SECOND, OF_CODE_AT_ONCE = 4, 32  # connections with a seat's code that go ahead of others
HEAD_BYTES = 4096  # of a request, in which the door looks for a code
ACCEPT_PAUSE = 1.0  # seconds until the next attempt, as when the process may open no more files
LAST_SECONDS = 2.0  # that connections have once the server ends

Serve = Callable[[socket.socket], Coroutine[Any, Any, object]]
Recognize = Callable[[bytes], tuple[str | None, str]]
"""A function from the first bytes of a client to the owner of the code in them, or None, and the kind of the connection. Connections of
different kinds take turns."""


class Door:
    """Accepts connections at a socket, and serves them at a limited rate. For aiohttp it is the server of a site."""

    def __init__(
        self, listener: socket.socket, serve: Serve, recognize: Recognize, waiting: int, beginning: int
    ) -> None:
        """listener: the socket; serve: makes a connection the transport of a protocol, perhaps after a handshake

        recognize: finds the owner of a code in the first bytes
        waiting: the limit of waiting connections; beginning: the limit of connections in `serve`. If there are too many, the oldest
            connection of the address with the most is closed.
        """
        self.sockets = (listener,)
        self._listener, self._serve, self._recognize = listener, serve, recognize
        self._loop = asyncio.get_running_loop()
        self._waiting = Crowd[socket.socket](waiting, self._close)
        self._beginning = Crowd[asyncio.Task[None]](beginning, lambda task: task.cancel())
        self._rate, self._has_come = Rate(A_SECOND, AT_ONCE), asyncio.Event()
        self._rates = defaultdict[str, Rate](lambda: Rate(OF_CODE_A_SECOND, OF_CODE_AT_ONCE))
        listener.setblocking(False)
        listener.listen(BACKLOG)
        self._loop.add_reader(listener, self._accept)
        self._admitting = asyncio.create_task(self._admit())

    def close(self) -> None:
        """Accept no more connections. Close those that wait, and cancel those in `serve`."""
        self._loop.remove_reader(self._listener)
        for task in (self._admitting, *self._beginning):
            task.cancel()
        for connection in self._waiting:
            self._close(connection)

    async def wait_closed(self) -> None:
        """Wait until no connection is in `serve`, and close the socket."""
        await asyncio.gather(self._admitting, *self._beginning, return_exceptions=True)
        self._listener.close()

    def _accept(self) -> None:
        """Accept some of the connections that the kernel holds. Other work is done between two calls."""
        for _ in range(ACCEPTED):
            try:
                connection, peer = self._listener.accept()
            except (BlockingIOError, InterruptedError, ConnectionAbortedError):
                return
            except OSError:
                self._loop.remove_reader(self._listener)
                self._loop.call_later(ACCEPT_PAUSE, self._accept_again)
                return
            connection.setblocking(False)
            address = network_of(peer[0])
            self._waiting.add(connection, address)
            self._loop.add_reader(connection, self._look, connection, address)
            self._has_come.set()

    def _look(self, connection: socket.socket, address: str) -> None:
        """Look once at the first bytes of a client. A connection with the code of a seat is served at once; others wait."""
        self._loop.remove_reader(connection)
        try:
            head = connection.recv(HEAD_BYTES, socket.MSG_PEEK)
        except OSError:
            head = b""
        owner, kind = self._recognize(head)
        self._waiting.discard(connection)
        if not head:
            connection.close()
        elif owner is not None and self._rates[owner].take() >= 0:
            self._start(connection, address)
        else:
            self._waiting.add(connection, f"{address} {kind}")

    def _close(self, connection: socket.socket) -> None:
        """Close a connection that waits."""
        self._loop.remove_reader(connection)
        connection.close()

    def _accept_again(self) -> None:
        """Accept connections again after a pause, unless the server has ended meanwhile."""
        if not self._admitting.done():
            self._loop.add_reader(self._listener, self._accept)

    async def _admit(self) -> None:
        """Serve waiting connections at the limited rate. Never returns."""
        while True:
            await self._has_come.wait()
            if (missing := 1 - self._rate.take(0)) > 0:
                await asyncio.sleep(missing / A_SECOND)
                continue
            if not self._waiting:
                self._has_come.clear()
                continue
            connection, address = self._waiting.pop_newest()
            self._loop.remove_reader(connection)
            if _has_ended(connection):
                connection.close()
                continue
            self._rate.take()
            self._start(connection, address)
            await asyncio.sleep(BREATH)

    def _start(self, connection: socket.socket, address: str) -> None:
        """Start to serve a connection."""
        task = asyncio.create_task(self._begin(connection))
        self._beginning.add(task, address)
        task.add_done_callback(self._beginning.discard)

    async def _begin(self, connection: socket.socket) -> None:
        """Serve a connection. Errors of the client end it."""
        with contextlib.suppress(OSError):
            await self._serve(connection)


def _has_ended(connection: socket.socket) -> bool:
    """Return whether a client has closed its connection before it sent anything."""
    try:
        return not connection.recv(1, socket.MSG_PEEK)
    except BlockingIOError:
        return False
    except OSError:
        return True


class DoorSite(web.SockSite):
    """A site whose connections come through a door."""

    __slots__ = ("_make_door",)

    def __init__(
        self, runner: web.BaseRunner, listener: socket.socket, make_door: Callable[[web.Server, socket.socket], Door]
    ) -> None:
        """make_door: returns the door. When the site starts, it is called with aiohttp's server, which makes the protocol of each
        connection, and with the listening socket.
        """
        super().__init__(runner, listener, shutdown_timeout=LAST_SECONDS)
        self._make_door = make_door

    async def start(self) -> None:
        """Begin to serve."""
        await web.BaseSite.start(self)
        assert self._runner.server
        self._server = cast(asyncio.AbstractServer, self._make_door(self._runner.server, self._sock))
