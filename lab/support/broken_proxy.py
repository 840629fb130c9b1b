"""A class behind a proxy whose connections can be cut, or swallow what is sent."""

import asyncio
import pathlib
import threading
from collections.abc import Collection

from support.class_pages import Served


class ProxiedClass(Served):
    """A class whose pages reach its server through a proxy, in a thread of its own.

    swallows: what is lost from now on, while connections stay open: `requests` of pages, `answers` of the server
    """

    def __init__(self, folder: pathlib.Path, program: pathlib.Path) -> None:
        super().__init__(folder, program)
        self.swallows: Collection[str] = ()
        self._proxy_port = 0
        self._writers = set[asyncio.StreamWriter]()
        self._loop = asyncio.new_event_loop()
        self._is_over = asyncio.Event()
        self._has_begun = threading.Event()
        self._thread = threading.Thread(target=self._loop.run_until_complete, args=[self._pass_connections()])
        self._thread.start()
        self._has_begun.wait()

    def address(self, role: str) -> str:
        """The address of a seat's page, or the teacher's, at the proxy."""
        return super().address(role).replace(f":{self.port}/", f":{self._proxy_port}/")

    def cut(self) -> None:
        """Abort all connections; new ones are passed on."""
        self._loop.call_soon_threadsafe(self._abort)

    def end(self) -> None:
        """End the proxy and the server."""
        self.cut()
        self._loop.call_soon_threadsafe(self._is_over.set)
        self._thread.join()
        self._loop.close()
        super().end()

    def _abort(self) -> None:
        for writer in self._writers:
            writer.transport.abort()

    async def _pass_connections(self) -> None:
        server = await asyncio.start_server(self._connect, "127.0.0.1", 0)
        self._proxy_port = server.sockets[0].getsockname()[1]
        self._has_begun.set()
        await self._is_over.wait()
        server.close()

    async def _connect(self, reader: asyncio.StreamReader, writer: asyncio.StreamWriter) -> None:
        try:
            answers, requests = await asyncio.open_connection("127.0.0.1", self.port)
        except ConnectionRefusedError:
            return writer.close()
        self._writers |= {writer, requests}
        ways = self._pass("requests", reader, requests), self._pass("answers", answers, writer)
        await asyncio.gather(*ways, return_exceptions=True)
        self._writers -= {writer, requests}

    async def _pass(self, what: str, reader: asyncio.StreamReader, writer: asyncio.StreamWriter) -> None:
        """Pass bytes on until one side ends. A connection that has lost some passes none on later."""
        has_lost = False
        while data := await reader.read(65536):
            has_lost |= what in self.swallows
            if not has_lost:
                writer.write(data)
                await writer.drain()
        writer.close()
