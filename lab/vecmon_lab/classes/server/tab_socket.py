"""The WebSocket of a tab: it brings requests, which are executed in turn, and takes responses and news (docs/CLASS_PROTOCOL.md)."""

import asyncio
import contextlib
import json
from collections import deque
from collections.abc import Callable
from functools import partial

from aiohttp import WSMsgType, web

from ..core.codes import TEACHER
from ..core.messages import Beat, Message, News, with_changes
from .resumed_pages import OpenPage
from .seat_budget import SeatBudget
from .tab_requests import TabRequests
from .tab import Tab

READ_SECONDS = 20.0  # the time in which a tab has to read a message
MAX_WAITING, WAITING_BYTES = 64, 2_000_000  # the most requests of a tab that wait, and their bytes
TOO_MANY_WAIT = f"{MAX_WAITING} requests of this tab wait already, or they are too long: nothing was done"
BEAT = '{"ask":"beat"}'  # asks whether the connection works
CLOSED = 4403  # the status of a socket whose code isn't valid, or no longer


class TabSocket:
    """The messages on the socket of a tab that has sent its code.

    Requests are read while others wait, so that pings are answered however long the machine takes. Requests that wait
    when the tab goes away are still executed, unless its code no longer opens the seat.
    """

    def __init__(
        self,
        tabs: TabRequests,
        socket: web.WebSocketResponse,
        tab: Tab,
        page: tuple[OpenPage, bool],
        abort: Callable[[], object],
        budget: SeatBudget,
    ) -> None:
        """page: the open page, and whether it was open before; abort: ends the connection at once; budget: is shared by all tabs of the seat"""
        self._tabs, self._socket, self._tab, self._abort = tabs, socket, tab, abort
        self._budget = budget
        self._page, self._is_resumed = page
        self._waiting: deque[str] = deque()
        self._has_come = asyncio.Event()  # set if a request waits, or no more will come
        self._is_read = False

    async def serve(self, is_ending: Callable[[], bool]) -> None:
        """Greet the tab, and serve it until its socket is closed and no request waits, or until the server ends.

        is_ending: returns whether the server ends
        """
        try:
            await self._budget.ready()
            await self._budget.metered(self._greet())
            async with asyncio.TaskGroup() as tasks:
                pusher, _ = tasks.create_task(self._push()), tasks.create_task(self._respond())
                with contextlib.suppress(ConnectionError):
                    await self._read()
                    code = 1001 if is_ending() else 1000 if self._tab.is_open else CLOSED
                    await self._socket.close(code=code)  # another task may close it as well, perhaps later
                pusher.cancel()
                if is_ending():
                    self._waiting.clear()
                self._is_read = True
                self._has_come.set()
        finally:
            self._tabs.leave(self._tab)

    async def _greet(self) -> None:
        """Send the first message, with all that the tab shows."""
        hello = self._tabs.hello(self._tab)
        if self._is_resumed:
            hello["resumed"] = True
        await self._send(hello)

    async def _read(self) -> None:
        """Read requests until the socket is closed."""
        async for message in self._socket:
            if message.type is not WSMsgType.TEXT or not self._tab.is_open:
                return
            await self._budget.ready()
            if message.data == BEAT:
                await self._budget.metered(self._send(Beat(kind="beat")))
            elif len(self._waiting) < MAX_WAITING and sum(map(len, self._waiting)) + len(message.data) <= WAITING_BYTES:
                self._waiting.append(message.data)
                self._has_come.set()
            else:
                await self._budget.metered(self._refuse(message.data))

    async def _respond(self) -> None:
        """Execute waiting requests in turn, until no more will come."""
        while self._waiting or not self._is_read:
            await self._has_come.wait()
            while self._waiting:
                await self._budget.ready()
                text = self._waiting.popleft()
                if self._tab.is_open:
                    await self._budget.metered(self._execute(text))
            self._has_come.clear()

    async def _execute(self, text: str) -> None:
        """Execute a request, and send its response."""
        await self._send(await self._page.respond(text, partial(self._tabs.respond, self._tab, text)))

    async def _refuse(self, text: str) -> None:
        """Refuse a request, since too many requests wait."""
        await self._send(await self._tabs.respond(self._tab, text, TOO_MANY_WAIT))

    async def _push(self) -> None:
        """Send news at intervals, until the tab is closed."""
        while self._tab.is_open:
            await self._tab.changed.wait()
            if self._tab.is_open:
                await self._budget.ready()
            # a response may have sent all of it meanwhile
            if self._tab.is_open and self._tab.changed.is_set():
                await self._budget.metered(self._send_news())
            await asyncio.sleep(0.1 if self._tab.who == TEACHER else 0.02)
        with contextlib.suppress(ConnectionError):
            await self._socket.close(code=CLOSED, message=b"another code")

    async def _send_news(self) -> None:
        """Send the changes since the last message, if there are any."""
        if changes := self._tabs.news(self._tab):
            await self._send(with_changes(News(kind="news"), changes))

    async def _send(self, message: Message) -> None:
        """Send a message to the tab, which may be gone. If it doesn't take the message in time, the connection is ended."""
        try:
            async with asyncio.timeout(READ_SECONDS):
                await self._socket.send_str(json.dumps(message, separators=(",", ":")))
        except asyncio.TimeoutError:
            self._abort()  # a close would wait for what the tab doesn't read
        except ConnectionError:
            pass
