"""The state that the requests of a session share: the program, and the values of it that the client is shown."""

from collections.abc import Callable, Mapping, Sequence
from typing import Any

from .. import LabError
from . import evaluation
from .instants import Instant
from .program import Line, Program
from .reports import Reports
from .requests import Initialize, Launch
from .shown import Shown
from .unwinding import CallFrame

Body = dict[str, Any]
Handlers = Mapping[str, tuple[type[Any], Callable[[Any], Body]]]
"""Requests by name: the class of their arguments, and the function that returns the body of the response.

If the body has the key `start`, its value is a function. This function isn't sent to the client, but called after the response was sent.
"""

ADDRESSES, MAX_LETTERS = 1 << 64, 80  # the number of addresses, and the most letters of a client's text in a message
NO_PROGRAM = "no program was launched"
RUNNING = "the program is running: pause it first"


class Debuggee:
    """The program, the client's settings, and the values that the client is shown.

    client: the client's abilities, and how it counts lines and columns
    launch, program: the arguments of the launch, and the program; None before a launch
    is_running: whether a movement of the program is under way
    shown: the values at the present stop; None if the client hasn't been shown any
    reports: sends events to the client
    wants_stop: returns whether the client wants long work to end
    """

    def __init__(self, reports: Reports, wants_stop: Callable[[], bool]) -> None:
        self.client = Initialize()
        self.launch: Launch | None = None
        self.program: Program | None = None
        self.is_running = False
        self.shown: Shown | None = None
        self.reports, self.wants_stop = reports, wants_stop

    def close(self) -> None:
        """Close the program's machine, if a program was launched."""
        if self.program:
            self.program.close()

    def current(self) -> Program:
        """Return the program. Raises LabError if none was launched."""
        if self.program is None:
            raise LabError(NO_PROGRAM)
        return self.program

    def stopped(self) -> Program:
        """Return the stopped program. Raises LabError if no program was launched, or if it is running."""
        program = self.current()
        if self.is_running:
            raise LabError(RUNNING)
        return program

    def instant(self) -> Shown:
        """Return the values that the client is shown at the present stop. Raises LabError if the program isn't stopped."""
        program = self.stopped()
        self.shown = self.shown or Shown(Instant(program, None, self.wants_stop))
        return self.shown

    def now(self) -> Shown:
        """Return the values at the program counter during a movement, to evaluate the conditions of breakpoints and their messages.

        Raises LabError if no program was launched.
        """
        return Shown(Instant(self.current(), None, self.wants_stop))

    def frames_now(self) -> Sequence[CallFrame]:
        """Return the call stack at the program counter during a movement, the innermost function first."""
        return Instant(self.current(), None, self.wants_stop).calls

    def changed(self) -> None:
        """Read the shown values again after the client has changed the program, and ask the client to request them again."""
        program = self.current()
        if self.shown:
            self.shown = self.shown.renewed(Instant(program, None, self.wants_stop))
        if self.client.supports_invalidated_event:
            self.reports.event("invalidated", areas=["variables"])

    def address(self, text: str, offset: int = 0) -> int:
        """Return the address that a text names, plus `offset` bytes.

        Raises LabError if the text doesn't name an address, or if the sum is below 0 or needs more than 64 bits.
        """
        address = evaluation.address_of(self.current(), text) + offset
        if not 0 <= address < ADDRESSES:
            shown = f"{text.strip()[:MAX_LETTERS]} with the offset {offset}"
            raise LabError(f"{shown} is no address: addresses are 0 to {ADDRESSES - 1:#x}")
        return address

    def line_fields(self, line: Line, name: str) -> Body:
        """Return the two fields of a response that describe a source line.

        The field `line` is the line's number, as the client counts. The other field has the key `name`, and is the line's source file in the
        protocol's form.
        """
        return {"line": line.number - (not self.client.lines_start_at_1), name: self.source(line.file)}

    def source(self, file: str) -> Body:
        """Return a source file in the protocol's form, with its path if the file is found. file: the file's name without its folder"""
        path = self.program.path_of(file) if self.program else None
        return {"name": file, "path": f"{path}"} if path else {"name": file, "presentationHint": "deemphasize"}
