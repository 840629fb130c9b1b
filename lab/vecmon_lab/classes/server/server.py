"""The server of a class, on aiohttp: the page, one WebSocket a tab, scripts and transcripts (docs/CLASS_PROTOCOL.md)."""

import asyncio
import contextlib
import errno
import ipaddress
import json
import logging
import os
import re
import resource
import signal
import socket
import ssl
import subprocess
import sys
import weakref
from collections import defaultdict
from collections.abc import AsyncIterator, Awaitable, Callable, Iterable
from functools import partial
from typing import Any

from aiohttp import web, web_response
from aiohttp.http import HttpProcessingError

from ... import LabError
from ...compilers.failures import ToolError
from ...page.build.pages import Page
from ...page.build.texts import page_text
from ...page.build.reference import reference_text
from ..core.codes import TEACHER
from .connections import Connections, Crowd, address_of
from .door import Door, DoorSite
from .frame_limits import LimitedSocket, Rate
from .resumed_pages import OpenPages
from .room import Room
from .seat_budget import SeatBudget
from .folder_lock import BadFolder
from .script_file import script_name
from .tab_requests import TabRequests
from .tab_socket import CLOSED, READ_SECONDS, TabSocket
from .tls import Handshake, kind_of_start
from .served_class import Class
from .student_view import exercise_table, seat_table
from .tab import Tab

MESSAGE_BYTES = 400_000
SOCKET = "/socket"  # the path of the WebSocket; requests to upgrade at other paths are ignored
PATIENCE = 10.0  # seconds for a first request
CODE_SECONDS = 60.0  # for a tab's code; so long that few sockets of a flood are closed each second, since their clients connect again
LATER_A_SECOND, LATER_AT_ONCE = 100, 1000  # later requests of a connection than the first; above this rate they wait
IDLE_SECONDS = 15.0  # of a connection between two requests
# The most connections without a whole request, connections between two requests, and sockets without a code.
UNKNOWN = 1500
WAITING = 8000  # the most connections that wait at the door
FILES = 20_000  # that a process needs for these limits; with fewer files, the limits are smaller
TEACHERS_SHARE = 1.0  # of a core; a seat's is smaller
SOCKETS = 8  # the most sockets of a seat; the teacher may have twice this number
WRONG_CODE_SECONDS = 0.5
KEEP_SECONDS = 0.3  # between saves; a save takes about as long to reach the disk, so a change is there within a second
HEADERS = {
    "Cache-Control": "no-store",
    "Referrer-Policy": "no-referrer",
    "X-Content-Type-Options": "nosniff",
    "Cross-Origin-Opener-Policy": "same-origin",
}
SHOWN_PROTOCOL = "vecmon"  # the subprotocol of a WebSocket; a page also requests one that contains its code, which the door recognizes
SHOWN_CODE = re.compile(rb"\r\nSec-WebSocket-Protocol:[^\r\n]*\bvecmon-code\.([a-z0-9]{1,64})\b", re.IGNORECASE)
HOST = re.compile(r"(?:\[([0-9a-fA-F:.]+)\]|([A-Za-z0-9.-]+))(?::[0-9]+)?")
# the header `Server` without versions, also in answers that have no hook
vars(web_response)["SERVER_SOFTWARE"] = "vecmon-lab"
CROWDED = 4429  # the status of a socket that is closed since its seat has too many


class Server:
    """Answers the HTTP requests to a class, if the client may make them."""

    def __init__(self, members: Class, names: set[str]) -> None:
        """names: of this host, by which pages may be opened, in addition to all numeric addresses"""
        self.members, self.names = members, {"localhost", *names}
        self._requests, self._pages = TabRequests(members), OpenPages()
        self._page, self._lesson, self._listings = Page("class"), Page("lesson"), Page("listings")
        self._page_data = b""  # the class's page, once a client has requested it
        self.connections = Connections(_share_of_files(UNKNOWN), PATIENCE, READ_SECONDS)
        self._budgets = defaultdict[str, SeatBudget](SeatBudget)
        self._budgets[TEACHER] = SeatBudget(TEACHERS_SHARE)
        self._later = Rate(LATER_A_SECOND, LATER_AT_ONCE)
        self._is_ending = False
        self._nameless = Crowd[web.RequestHandler](_share_of_files(UNKNOWN), _abort)  # of sockets without a code
        self._sockets: weakref.WeakSet[web.WebSocketResponse] = weakref.WeakSet()

    def application(self) -> web.Application:
        """Return the application, which one runner serves."""
        application = web.Application(middlewares=[self._check], client_max_size=MESSAGE_BYTES)
        application.on_response_prepare.append(self._add_headers)
        application.router.add_get("/", self._get_page)
        application.router.add_get(SOCKET, self._socket)
        application.router.add_get("/{machine:[A-L]}/{what:script|transcript}", self._get_file)
        application.router.add_get("/{seat:[A-L][1-8]}/home", self._get_home)
        application.router.add_get("/{table:seats|exercises}.csv", self._get_table)
        application.router.add_get(r"/lesson/{ticket:[\w-]+}", partial(self._get_ticket, self._lesson))
        application.router.add_get(r"/listings/{ticket:[\w-]+}", partial(self._get_ticket, self._listings))
        application.router.add_get("/{machine:[A-L]}.{number:[1-9][0-9]{0,5}}/{what:script|transcript}", self._get_file)
        return application

    def is_ours(self, host: str, origin: str | None) -> bool:
        """Return whether a request is for this site, and comes from one of its pages or from no page.

        host, origin: the request's headers `Host` and `Origin`. They show if the name of another site leads to this host, and if a page
        of another site sends requests here.
        """
        parts = HOST.fullmatch(host)
        if parts is None or origin not in (None, f"http://{host}", f"https://{host}"):
            return False
        try:
            ipaddress.ip_address(parts[1] or parts[2])
        except ValueError:
            return parts[2] in self.names
        return True

    def recognize(self, head: bytes) -> tuple[str | None, str]:
        """Return the owner of the code in the first bytes of a request, or None; and the kind of the connection, for the door."""
        found = SHOWN_CODE.search(head)
        owner = self.members.codes.owner(found[1].decode("ascii")) if found else None
        return owner, "page" if head.startswith(b"GET / ") else "other"

    async def close(self) -> None:
        """Close the sockets of all tabs, since the server ends."""
        self._is_ending, sockets = True, list(self._sockets)
        await asyncio.gather(*(each.close(code=1001, message=b"the server ends") for each in sockets))

    @web.middleware
    async def _check(
        self, request: web.Request, handler: Callable[[web.Request], Awaitable[web.StreamResponse]]
    ) -> web.StreamResponse:
        if request.protocol in self.connections.spoken and (left := self._later.take()) < 0:
            await asyncio.sleep(-left / LATER_A_SECOND)
        self.connections.spoken.add(request.protocol)
        if request._message.upgrade and request.path != SOCKET:
            request.protocol._message_tail = b""  # aiohttp would store later data without a limit
            request.protocol.close()  # after the answer
        if not self.is_ours(request.headers.get("Host", ""), request.headers.get("Origin")):
            raise web.HTTPForbidden
        return await handler(request)

    async def _add_headers(self, request: web.Request, response: web.StreamResponse) -> None:
        host = request.headers.get("Host", "")
        own = f"{request.get('policy', self._page.policy)}; frame-ancestors 'none'; connect-src 'self'"
        sockets = f" ws://{host} wss://{host}" if response.status == 200 else ""
        response.headers.update({"Content-Security-Policy": own + sockets} | HEADERS)

    async def _get_page(self, request: web.Request) -> web.Response:
        if not self._page_data:
            self._page_data = self._page.text(page_text("join.class"), reference_text()).encode("utf-8")
        return web.Response(body=self._page_data, content_type="text/html", charset="utf-8")

    async def _room(self, request: web.Request, *names: str) -> Room:
        """Return the room of the machine that a request names, or of machine A.

        Raises HTTPNotFound unless the request has a code of one of the owners in `names`.
        """
        code, place = request.headers.get("Authorization", "").removeprefix("Bearer "), request.match_info
        room = self.members.rooms.get(place.get("machine", place.get("seat", "A"))[0])
        if self.members.codes.owner(code) not in names or room is None:
            await asyncio.sleep(WRONG_CODE_SECONDS)
            raise web.HTTPNotFound
        return room

    async def _get_table(self, request: web.Request) -> web.Response:
        await self._room(request, TEACHER)
        table = seat_table if request.match_info["table"] == "seats" else exercise_table
        return web.Response(body=table(self.members), content_type="text/csv", charset="utf-8")

    async def _get_ticket(self, kind: Page, request: web.Request) -> web.Response:
        """Respond to a request for a lesson or for listings, which has the page's ticket. kind: the kind of page, which has its content policy

        The status is 404 if there is no such page, and 503 if the process that makes it fails or takes too long.
        """
        make = self.members.checks.lesson if kind is self._lesson else self.members.comparisons.page
        try:
            page = await make(request.match_info["ticket"])
        except ToolError as error:
            raise web.HTTPServiceUnavailable(text=page_text("lesson.not-made", cause=str(error))) from error
        except LabError as error:
            await asyncio.sleep(WRONG_CODE_SECONDS)
            raise web.HTTPNotFound(text=str(error)) from error
        request["policy"] = kind.policy
        return web.Response(body=page, content_type="text/html", charset="utf-8")

    async def _get_file(self, request: web.Request) -> web.Response:
        room = await self._room(request, TEACHER)
        data, number = room.session.script, int(request.match_info.get("number", len(room.scripts.set_up)))
        if number > len(room.scripts.set_up):
            raise web.HTTPNotFound
        if number < len(room.scripts.set_up):
            data = await asyncio.to_thread((self.members.store.folder / script_name(room.letter, number)).read_bytes)
        if request.match_info["what"] == "transcript":
            data = await asyncio.to_thread(_transcript, room.session.command, data)
            try:
                self.members.store.check_program()
            except BadFolder as error:
                raise web.HTTPServiceUnavailable from error
        return web.Response(body=data, content_type="text/plain")

    async def _get_home(self, request: web.Request) -> web.Response:
        seat = request.match_info["seat"]
        await self._room(request, TEACHER, seat)
        try:
            return web.Response(body=await self.members.take_home(seat), content_type="application/zip")
        except LabError as error:
            raise web.HTTPServiceUnavailable(text=str(error)) from error

    async def _socket(self, request: web.Request) -> web.WebSocketResponse:
        own = LimitedSocket(
            heartbeat=READ_SECONDS, max_msg_size=MESSAGE_BYTES, compress=False, timeout=2, protocols=(SHOWN_PROTOCOL,)
        )
        await own.prepare(request)
        self._sockets.add(own)
        role, name = await self._who(request, own)
        others = sum(tab.who == role for tab in self.members.tabs)
        if role is None:
            await own.close(code=CLOSED, message=b"no such code")
        elif others >= (2 * SOCKETS if role == TEACHER else SOCKETS):
            await own.close(code=CROWDED, message=b"too many tabs")
        else:
            own.limits.has_code = True
            self.connections.tabs.add(request.protocol)
            page, abort, budget = self._pages.open(role, name), partial(_abort, request.protocol), self._budgets[role]
            tab = Tab(role)
            tab.page = page[0]
            await TabSocket(self._requests, own, tab, page, abort, budget).serve(lambda: self._is_ending)
        return own

    async def _who(self, request: web.Request, own: web.WebSocketResponse) -> tuple[str | None, object]:
        """Return the owner of the code in the first message, and the page's name in this message.

        For a wrong code, the owner is None, after a delay. If too many sockets have no code, the oldest one of the address with the most
        is closed, so that new sockets are served.
        """
        self._nameless.add(request.protocol, address_of(request.transport))
        try:
            async with asyncio.timeout(CODE_SECONDS):  # pings would prolong the time limit of `receive_str`
                message = json.loads(await own.receive_str())
            first = message if isinstance(message, dict) else {}
            role = self.members.codes.owner(first.get("code"))
            if role is None:
                await asyncio.sleep(WRONG_CODE_SECONDS)
            return role, first.get("page")
        except (TypeError, ValueError, RecursionError, asyncio.TimeoutError):
            return None, None
        finally:
            self._nameless.discard(request.protocol)


def listening(host: str, port: int) -> list[socket.socket]:
    """Return listening sockets, one for each address of a host. Raises LabError if an address or the port is unavailable."""
    try:
        found = dict.fromkeys(socket.getaddrinfo(host, port, type=socket.SOCK_STREAM, flags=socket.AI_PASSIVE))
        return [socket.create_server(address, family=family) for family, _, _, _, address in found]
    except OSError as error:
        is_resolved = not isinstance(error, socket.gaierror)  # which has numbers and texts of its own
        reason = os.strerror(error.errno) if is_resolved and error.errno else error.strerror or f"{error}"
        hint = "; --port names another port" if error.errno == errno.EADDRINUSE else ""
        raise LabError(f"{host}, port {port}: {reason}{hint}") from error


def is_loopback(host: str) -> bool:
    """Return whether a host can be reached only from this computer."""
    try:
        return ipaddress.ip_address(host).is_loopback
    except ValueError:
        return host == "localhost"


def _report(loop: asyncio.AbstractEventLoop, context: dict[str, Any]) -> None:
    """Log an exception that no task retrieved. Lost connections are left out: aiohttp leaves their exceptions after a cancelled write."""
    if not isinstance(context.get("exception"), ConnectionError):
        loop.default_exception_handler(context)


@contextlib.asynccontextmanager
async def served(
    members: Class, listeners: Iterable[socket.socket], names: set[str], tls: ssl.SSLContext | None = None
) -> AsyncIterator[int]:
    """Serve a class at listening sockets within the context, and end the class afterwards. Yield the port of the first socket.

    names: as in `Server`; tls: None to serve HTTP
    """
    logging.getLogger("aiohttp.server").addFilter(_is_ours)
    logging.getLogger("aiohttp.websocket").setLevel(logging.ERROR)  # its warning quotes what a client asks for
    asyncio.get_running_loop().set_exception_handler(_report)
    server = Server(members, {socket.gethostname(), *names})
    runner = web.AppRunner(
        server.application(),
        access_log=None,
        auto_decompress=False,
        keepalive_timeout=IDLE_SECONDS,
        lingering_time=2.0,
    )
    await runner.setup()
    tasks = []
    try:
        members.checks.resume()
        for listener in listeners:
            await DoorSite(runner, listener, partial(_door, server, tls)).start()
        rooms = members.rooms.values()
        work = [
            server.connections.sweep(runner),
            _keep(members),
            *(each for room in rooms for each in (room.clock.run(), room.watch(), room.shorten())),
            *(room.scripts.follow() for room in rooms if members.has_spares),
        ]
        tasks = [asyncio.create_task(each) for each in work]
        yield runner.addresses[0][1]
    finally:
        for task in tasks:
            task.cancel()
        await server.close()
        members.save()
        members.end()
        await asyncio.gather(*tasks, return_exceptions=True)
        await runner.cleanup()


def _share_of_files(most: int) -> int:
    """Return the limit for a kind of connections. Each connection needs a file, and a process may open a limited number of files.

    most: the limit for a process that may open FILES files
    """
    return min(most, resource.getrlimit(resource.RLIMIT_NOFILE)[0] * most // FILES)


def _door(server: Server, tls: ssl.SSLContext | None, make: web.Server, listener: socket.socket) -> Door:
    """Return the door at a listening socket. tls: None to serve HTTP; make: returns the protocol of a connection"""
    limits = _share_of_files(WAITING), _share_of_files(UNKNOWN)
    if tls:
        return Door(listener, Handshake(make, tls, PATIENCE), kind_of_start, *limits)
    return Door(listener, partial(asyncio.get_running_loop().connect_accepted_socket, make), server.recognize, *limits)


def end_signals() -> list[signal.Signals]:
    """Return the signals on which a server saves all and ends.

    A closed terminal sends SIGHUP, which is one of them unless it is ignored, as by `nohup`.
    """
    is_ignored = signal.getsignal(signal.SIGHUP) is signal.SIG_IGN
    return [signal.SIGINT, signal.SIGTERM, *([] if is_ignored else [signal.SIGHUP])]


async def serve(
    members: Class,
    host: str,
    listeners: Iterable[socket.socket],
    names: set[str],
    role: str = TEACHER,
    tls: ssl.SSLContext | None = None,
) -> None:
    """Serve a class at a host's sockets until one of `end_signals` arrives, and print the address of a page.

    listeners, names, tls: as in `served`; role: the owner of the page: the teacher or a seat
    Raises BadFolder if the program is replaced or removed, as by an upgrade of its package.
    """
    sys.setswitchinterval(0.0005)  # seconds that a machine's thread waits for the event loop's thread if that is busy
    limit = resource.getrlimit(resource.RLIMIT_NOFILE)[1]
    resource.setrlimit(resource.RLIMIT_NOFILE, (limit, limit))
    ended, loop = asyncio.Event(), asyncio.get_running_loop()
    for sign in end_signals():
        loop.add_signal_handler(sign, ended.set)
    members.is_unencrypted = tls is None and not is_loopback(host)
    async with served(members, listeners, {host, *names}, tls) as port:
        whose = "page" if role != TEACHER else role
        named = members.address if tls else ""  # with a name that the certificate has
        address = named or _address(host, port, "https" if tls else "http")
        print(f"{whose}: {address}#{members.codes.codes[role]}", flush=True)
        if members.is_unencrypted:
            warning = f"codes travel unencrypted, and all computers that reach {host} can use them: use a network that you trust"
            print(f"vecmon-lab: warning: {warning}, or --tls (docs/CLASS_ADMIN.md)", file=sys.stderr)
        missed = 0  # looks that found no program; it may be missing for a moment while it is installed again
        while not ended.is_set():
            missed = 0 if members.store.check_program() else missed + 1
            if missed > 1:
                raise BadFolder(f"the class has ended, since {members.store.program} isn't there any more")
            with contextlib.suppress(asyncio.TimeoutError):
                await asyncio.wait_for(ended.wait(), 1)


def _abort(connection: web.RequestHandler) -> None:
    """End a connection at once."""
    if connection.transport:
        connection.transport.abort()


def _is_ours(record: logging.LogRecord) -> bool:
    """Return whether a log record is about a fault of the server, and not about a malformed request or a lost connection."""
    return not (record.exc_info and isinstance(record.exc_info[1], (HttpProcessingError, ConnectionError)))


async def _keep(members: Class) -> None:
    while True:
        await asyncio.sleep(KEEP_SECONDS)
        members.save(with_counts=False)


def _address(host: str, port: int, scheme: str) -> str:
    """Return the address of the class, with a slash at its end."""
    shown = f"[{host}]" if ":" in host else host
    return f"{scheme}://{socket.gethostname() if host in ('0.0.0.0', '::') else shown}:{port}/"


def _transcript(command: list[str], script: bytes) -> bytes:
    """Return the transcript of a script, from a run of the program."""
    return subprocess.run(command, input=script, stdout=subprocess.PIPE, check=True).stdout
