"""The halts of a moving program: at stops, at breakpoints whose condition holds, and after accesses to watched data.

The machine reports a stop, such as a breakpoint, a fault or an exit. A halt ends a movement of the program, and is reported to the client. A
stop at a breakpoint whose condition is false isn't a halt: the program goes on.
"""

import contextlib
from collections.abc import Callable, Iterator, Sequence
from dataclasses import dataclass
from typing import Protocol

from ..machine.answers import Stop
from ..replay.watches import Watch
from .breakpoints import Breakpoint, Breakpoints
from .program import Line, Program
from .unwinding import SP

START = "This is the start: nothing was executed before."


class Paused(Exception):
    """The client wants the program to stop."""


class Client(Protocol):
    """The client, as a movement of the program asks it."""

    def has_requests(self) -> bool:
        """Return whether the client has sent a request that is answered during the movement, or has gone."""

    def is_stopping(self) -> bool:
        """Answer the requests that are answered during the movement. Return whether the client wants the program to stop, or has gone."""

    def wants_stop(self) -> bool:
        """Return whether the client wants long work to end, or has gone. No request is answered."""


@dataclass(frozen=True)
class Halt:
    """The end of a movement of the program, as it is reported to the client.

    reason: the reason in the protocol's words, such as `step` or `breakpoint`
    stop: the stop if the program stopped by itself, otherwise None; text: a sentence about the halt, or ""
    numbers: the identifiers of the breakpoints that were met
    """

    reason: str
    stop: Stop | None = None
    text: str = ""
    numbers: Sequence[int] = ()


class Halts:
    """Decides where a moving program halts.

    program, breakpoints, client: the session's program, breakpoints and client; guest, timeline: the program's guest and timeline
    """

    def __init__(
        self,
        program: Program,
        breakpoints: Breakpoints,
        client: Client,
        holds: Callable[[Breakpoint], bool],
        holds_text: Callable[[str], bool],
    ) -> None:
        """holds: returns whether a breakpoint that was met stops the program; holds_text: returns whether a condition holds"""
        self.program, self.breakpoints, self.client = program, breakpoints, client
        self.guest, self.timeline = program.guest, program.timeline
        self._holds, self._holds_text = holds, holds_text

    def line(self) -> Line | None:
        """Return the source line at the program counter; None if it is unknown."""
        return self.program.line(self.guest.pc)

    def stack(self) -> int:
        """Return the value of the stack pointer."""
        return self.program.scalars()[SP]

    def attend(self) -> None:
        """Answer the client's requests that are answered during a movement.

        Raises Paused if the client wants the program to stop, or has gone.
        """
        if self.client.has_requests() and self.client.is_stopping():
            raise Paused

    def at_stop(self, stop: Stop) -> Halt | None:
        """Return the halt at a stop of the machine; None if the program should go on, since no breakpoint there has a condition that holds."""
        if stop.kind == "break":
            return self._pass_access(self.timeline.hit) if self.timeline.hit else self.here()
        if stop.kind == "exit":
            return Halt("exit", stop, f"The program exits with status {stop.number}.")
        if self.guest.has_ended(stop):
            return Halt("exit", stop, self.guest.explain(stop))
        return Halt("exception" if stop.kind == "fault" else "breakpoint", stop, self.guest.explain(stop))

    def here(self, is_back: bool = False) -> Halt | None:
        """Return the halt if a breakpoint at the program counter stops the program; None if no breakpoint there does.

        is_back: whether the program goes back; then log messages aren't printed
        """
        if self.guest.pc not in self.breakpoints.addresses:
            return None
        asked = [each for each in self.breakpoints.at(self.guest.pc) if not (is_back and each.log_message)]
        there = [each for each in asked if self._holds(each)]
        if not there:
            return None
        reasons = {"functions": "function breakpoint", "instructions": "instruction breakpoint"}
        return Halt(reasons.get(there[0].kind, "breakpoint"), numbers=[each.number for each in there])

    def _pass_access(self, hit: Watch) -> Halt | None:
        """Execute the instruction that accesses watched data, and return the halt after it; None if the program goes on.

        hit: the watched data that the instruction accesses. A watch for changes stops the program only if the data has changed.
        """
        before = self.guest.peek(hit.address, hit.length)
        with self.unwatched():
            stop = self.timeline.step()
        if stop:
            return self.at_stop(stop)
        if hit.kind == "watch" and self.guest.peek(hit.address, hit.length) == before:
            return self.here()
        return self.after_access(hit) or self.here()

    def after_access(self, hit: Watch) -> Halt | None:
        """Return the halt after an access to watched data; None if the data has no data breakpoint whose condition holds.

        hit: the watched data. A data breakpoint without a condition always stops the program.
        """
        there = [each for each in self.breakpoints.data if each.watch == hit and not each.problem]
        met = [each.number for each in there if not each.condition or self._holds_text(each.condition)]
        verb = {"watch": "changed", "rwatch": "was loaded"}.get(hit.kind, "was accessed")
        return Halt("data breakpoint", text=f"{self.program.place(hit.address)} {verb}.", numbers=met) if met else None

    @contextlib.contextmanager
    def unwatched(self) -> Iterator[None]:
        """Return a context in which no data is watched."""
        saved, self.timeline.watches = self.timeline.watches, []
        try:
            yield
        finally:
            self.timeline.watches, self.timeline.hit = saved, None
