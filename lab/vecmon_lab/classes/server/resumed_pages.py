"""Pages over lost connections: a request that a page sends again isn't executed again (docs/CLASS_PROTOCOL.md)."""

import asyncio
import json
import re
from collections import OrderedDict
from collections.abc import Awaitable, Callable
from typing import cast

from ..core.messages import Response

MAX_RESPONSES = 8  # of a page that are remembered; a page waits for a response before its next request
MAX_PAGES = 32  # of a seat that are remembered; those used last
_NAME = re.compile("[0-9a-f]{32}")


class OpenPage:
    """The last responses to a page, by the numbers of their requests, without changes of its view."""

    def __init__(self) -> None:
        self._responses: OrderedDict[int, asyncio.Future[Response]] = OrderedDict()

    async def respond(self, text: str, execute: Callable[[], Awaitable[Response]]) -> Response:
        """Execute a request; return its response. If the page sent it before, return the same response without executing it again.

        text: the message; execute: executes the request
        """
        number = _number_of(text)
        if number is None:
            return await execute()
        if number in self._responses:
            return await asyncio.shield(self._responses[number])
        first = self._responses[number] = asyncio.get_running_loop().create_future()
        while len(self._responses) > MAX_RESPONSES:
            self._responses.popitem(last=False)
        try:
            response = await execute()
            first.set_result(_without_changes(response))
            return response
        finally:
            first.cancel()  # unless it has a result


class OpenPages:
    """The pages of each seat, the teacher and the wall, by the names that pages give themselves."""

    def __init__(self) -> None:
        self._pages: dict[str, OrderedDict[str, OpenPage]] = {}

    def open(self, who: str, name: object) -> tuple[OpenPage, bool]:
        """Return the page of this name, and whether it was open before. If the name isn't valid, return a new page.

        who: the owner of the page: a seat, the teacher or the wall
        """
        if not isinstance(name, str) or not _NAME.fullmatch(name):
            return OpenPage(), False
        pages = self._pages.setdefault(who, OrderedDict())
        is_known = name in pages
        page = pages.setdefault(name, OpenPage())
        pages.move_to_end(name)
        while len(pages) > MAX_PAGES:
            pages.popitem(last=False)
        return page, is_known


def _number_of(text: str) -> int | None:
    """Return the number of a request; None for another message."""
    try:
        message = json.loads(text)
    except (ValueError, RecursionError):
        return None
    number = message.get("id") if isinstance(message, dict) else None
    return number if type(number) is int else None


def _without_changes(response: Response) -> Response:
    """Return a response without its changes of the view. The greeting of a new connection has them."""
    return cast(Response, {key: value for key, value in response.items() if key not in ("patch", "logs")})
