"""Connections to the server of a class. The server ends connections that hold resources without need.

A client may send nothing, take no response, or send requests without end before it takes the first response. aiohttp limits none of this.
"""

import asyncio
import ipaddress
from collections import OrderedDict, deque
from collections.abc import Callable, Iterable, Iterator, Mapping, Sequence
from functools import lru_cache
from typing import Generic, TypeVar

from aiohttp import web

SWEEP_SECONDS = 0.5
V6_PREFIX = 64  # bits of an address by IPv6 that a client can't choose
AHEAD = 16  # requests of a connection that wait for the response to an earlier one; browsers send none ahead


Connection = TypeVar("Connection")


def address_of(transport: asyncio.BaseTransport | None) -> str:
    """Return the address of a client, as limits count it; "" if the connection has ended."""
    peer = transport.get_extra_info("peername") if transport else None
    return network_of(peer[0]) if peer else ""


@lru_cache(1024)
def network_of(address: str) -> str:
    """Return an address as limits count it: for IPv6 the network, since a client can use all addresses of its network."""
    host = ipaddress.ip_address(address.partition("%")[0])
    if host.version == 4 or host.ipv4_mapped:
        return str(host)
    return str(ipaddress.ip_network((int(host), V6_PREFIX), strict=False))


def excess(connections: Iterable[Connection], address: Callable[[Connection], str], limit: int) -> set[Connection]:
    """Return the connections to end so that `limit` remain. The oldest connection of the address with the most connections ends first.

    connections: the oldest first; address: returns the address of a connection
    """
    by_address, ended = _by_address(connections, address), set[Connection]()
    for _ in range(sum(map(len, by_address)) - limit):
        ended.add(max(by_address, key=len).popleft())
    return ended


def _by_address(connections: Iterable[Connection], address: Callable[[Connection], str]) -> list[deque[Connection]]:
    """Return the connections of each address, the oldest first. Addresses are in the order of their first connections."""
    found: dict[str, deque[Connection]] = {}
    for each in connections:
        found.setdefault(address(each), deque()).append(each)
    return list(found.values())


class Crowd(Generic[Connection]):
    """Connections by their addresses. If there are too many, the oldest one of the address with the most is ended."""

    def __init__(self, limit: int, end: Callable[[Connection], object]) -> None:
        """limit: the number of connections that may stay; end: ends a connection, which is no longer in the crowd then"""
        self._limit, self._end = limit, end
        self._addresses: dict[Connection, str] = {}
        self._by_address: OrderedDict[str, OrderedDict[Connection, None]] = OrderedDict()  # the oldest first

    def __len__(self) -> int:
        """The number of connections."""
        return len(self._addresses)

    def __iter__(self) -> Iterator[Connection]:
        """Iterate over the connections that are in the crowd at the time of this call."""
        return iter(list(self._addresses))

    def add(self, connection: Connection, address: str) -> None:
        """Add a connection. If there are too many then, end one."""
        self._addresses[connection] = address
        self._by_address.setdefault(address, OrderedDict())[connection] = None
        if len(self) > self._limit:
            largest = max(self._by_address.values(), key=len)
            oldest = next(iter(largest))
            self.discard(oldest)
            self._end(oldest)

    def discard(self, connection: Connection) -> None:
        """Remove a connection, if it is there."""
        if (address := self._addresses.pop(connection, None)) is not None:
            of_address = self._by_address[address]
            del of_address[connection]
            if not of_address:
                del self._by_address[address]

    def pop_newest(self) -> tuple[Connection, str]:
        """Remove a connection; return the connection and its address. The addresses take turns, and each gives up its newest connection.

        Raises StopIteration if there is no connection.
        """
        address, of_address = next(iter(self._by_address.items()))
        self._by_address.move_to_end(address)
        connection = next(reversed(of_address))
        self.discard(connection)
        return connection, address


class Connections:
    """The connections of a server, with their times and unread bytes.

    spoken: connections that have made a whole request; tabs: connections of tabs, which have sent a code
    """

    def __init__(self, limit: int, silent_seconds: float, unread_seconds: float) -> None:
        """limit: the maximum for each of three groups: connections without a whole request, between two requests, with unread responses

        silent_seconds: how long a connection may take for its first request
        unread_seconds: how long a client may take no part of a response
        """
        self.spoken, self.tabs = set[web.RequestHandler](), set[web.RequestHandler]()
        self._limit, self._silent_seconds, self._unread_seconds = limit, silent_seconds, unread_seconds
        self._silent: dict[web.RequestHandler, float] = {}  # since when they are open without a whole request
        self._idle: dict[web.RequestHandler, float] = {}  # since when they are between two requests
        self._unread: dict[web.RequestHandler, int] = {}  # bytes that wait to be sent
        self._unread_since: dict[web.RequestHandler, float] = {}  # since when bytes wait
        self._stalled_since: dict[web.RequestHandler, float] = {}  # since when the number of these bytes is the same

    async def sweep(self, runner: web.AppRunner) -> None:
        """End connections that exceed a limit, at intervals. Never returns.

        These connections make no request in time, take no response in time, or send too many requests ahead. If there are too many
        connections, the oldest ones end as well.
        """
        loop = asyncio.get_running_loop()
        while True:
            await asyncio.sleep(SWEEP_SECONDS)
            there = runner.server.connections if runner.server else []  # the oldest first
            self.spoken &= set(there)
            self.tabs &= set(there)
            ahead, now = {it for it in there if len(it._messages) > AHEAD}, loop.time()
            ended = ahead | self._silent_too_long(there, now) | self._idle_too_many(there, now)
            for handler in ended | self._unread_too_long(there, now):
                handler._messages.clear()
                if handler.transport:
                    handler.transport.abort()

    def _silent_too_long(self, there: Sequence[web.RequestHandler], now: float) -> set[web.RequestHandler]:
        """Return the connections that have made no request in time. If too many have made none yet, return the oldest ones as well."""
        self._silent = {it: self._silent.get(it, now) for it in there if it not in self.spoken}
        return _before(self._silent, now - self._silent_seconds) | _excess(self._silent, self._limit)

    def _idle_too_many(self, there: Sequence[web.RequestHandler], now: float) -> set[web.RequestHandler]:
        """Return the oldest connections between two requests, if there are too many. Their clients can connect again."""
        idle = (it for it in there if it in self.spoken and it not in self.tabs and it._current_request is None)
        self._idle = {it: self._idle.get(it, now) for it in idle}
        return _excess(self._idle, self._limit)

    def _unread_too_long(self, there: Sequence[web.RequestHandler], now: float) -> set[web.RequestHandler]:
        """Return the connections whose clients took no part of a response in time.

        If too many connections without a code have unread responses, return the oldest ones as well.
        """
        sizes = {it: it.transport.get_write_buffer_size() for it in there if it.transport}
        unread = {it: size for it, size in sizes.items() if size}
        stalled = {it for it, size in unread.items() if self._unread.get(it) == size}
        self._unread_since = {it: self._unread_since.get(it, now) for it in unread}
        self._stalled_since = {it: self._stalled_since.get(it, now) for it in stalled}
        self._unread = unread
        nameless = {it: since for it, since in self._unread_since.items() if it not in self.tabs}
        return _before(self._stalled_since, now - self._unread_seconds) | _excess(nameless, self._limit)


def _before(since: Mapping[web.RequestHandler, float], time: float) -> set[web.RequestHandler]:
    """Return the connections whose time in `since` is before `time`."""
    return {it for it, start in since.items() if start < time}


def _excess(since: Mapping[web.RequestHandler, float], limit: int) -> set[web.RequestHandler]:
    """Return the connections to end so that `limit` remain, as `excess` does. since: since when each connection is in this state"""
    if len(since) <= limit:
        return set()
    return excess(sorted(since, key=since.__getitem__), lambda it: address_of(it.transport), limit)
