"""Two listings of a C source side by side. Compilers run in the sandbox, and a separate process makes the page."""

import json
import pathlib

from ... import LabError
from ...compilers.compiler import C_SOURCE, CHOICES
from .worker_pool import WorkerPool
from .builds import Builds
from ..core.codes import new_code
from ..core.languages import SourceText
from ..core.bad_request import BadRequest

MOST = 20  # requests that are remembered


class Comparisons:
    """The last requests for listings. A page is made when it is fetched.

    names: the compilers, each with its options, whose listings can be compared with a source's own; none in a class
    """

    def __init__(self, builds: Builds, program: pathlib.Path) -> None:
        self._builds, self._program, self._workers = builds, program, WorkerPool(1)
        choices = [choice for choice, it in enumerate(CHOICES) if it.source == C_SOURCE]
        self._others = [(compiler, choice) for compiler in builds.others for choice in choices]
        self.names = [compiler.title(choice) for compiler, choice in self._others]
        self._asked: dict[str, tuple[str, SourceText, int]] = {}

    def ask(self, seat: str, source: SourceText, other: int) -> str:
        """Return the ticket of a page with two listings of a source: with its own options, and with others.

        other: the place of the other options in `names`. Raises BadRequest if the source isn't in C, or there are no such options.
        """
        if not source.suffix.endswith(".c") or not 0 <= other < len(self._others):
            raise BadRequest("side-by-side listings need a source in C, and options from the page's list")
        ticket = new_code()
        self._asked = dict([*self._asked.items(), (ticket, (seat, source, other))][-MOST:])
        return ticket

    async def page(self, ticket: str) -> bytes:
        """Return a ticket's page in HTML. Raises LabError if the ticket is unknown, or the source has mistakes."""
        if ticket not in self._asked:
            raise LabError("there is no such page, or not any more: ask once more")
        (seat, source, other), listings = self._asked[ticket], list[tuple[str, str]]()
        for compiler, choice in ((self._builds.compiler, source.choice), self._others[other]):
            assert compiler and choice is not None
            program = await self._builds.compile(seat, source.text, choice, compiler)
            program.check(compiler.title(choice))
            listings.append((compiler.title(choice), program.reply.decode("utf-8", "replace")))
        script = json.dumps([source.text, listings]).encode("ascii")
        return await self._workers.run("lessons.listings", str(self._program), script=script)
