"""Movements of a program back: by instructions or lines, or to a breakpoint."""

from collections.abc import Callable
from dataclasses import dataclass

from ..guest.jumps import is_call, is_return
from ..machine.answers import Addresses
from .halts import START, Halt, Halts, Paused
from .program import Line

TRACE_LENGTH = 16  # the number of addresses that the machine's `trace` shows


@dataclass(frozen=True)
class _Passed:
    """The instructions that were executed last, over which `by_line` goes back at once.

    count: the number of these instructions
    line: their source line; None if it is unknown
    is_complete: whether the first of them is at the start of the source line or of the program, so that the step back ends there
    is_behind_call: whether the first of them comes directly after a call, where the called function has returned
    """

    count: int
    line: Line | None
    is_complete: bool
    is_behind_call: bool = False


class Backwards:
    """Moves a program back. Each movement returns the halt that ended it early; None if the movement was completed."""

    def __init__(self, halts: Halts, last: Callable[[], Halt]) -> None:
        """last: returns the halt of the last movement, forwards or back"""
        self._halts, self._last = halts, last

    def by_instructions(self, number: int) -> Halt | None:
        """Go back over `number` instructions, and return None.

        If fewer instructions were executed, go back to the start of the program, and return a halt with the reason `entry`. Raises Paused if
        the client ends the movement, and LabError if there is no way back.
        """
        with self._halts.unwatched():
            is_there = self._halts.timeline.back(number, self._halts.client.wants_stop)
        if is_there is None:
            raise Paused
        return None if is_there else Halt("entry", text=START)

    def by_line(self) -> Halt | None:
        """Go back to the start of the source line that was executed last, over the calls in this line.

        If the program counter has no source line, go back over one instruction. Return the halt if the program halts on the way, or is at
        its start; otherwise return None. Raises Paused and LabError as `by_instructions` does.
        """
        if self._halts.line() is None:
            return self.by_instructions(1)
        target: Line | None = None
        while True:
            passed = self._count_back(target)
            if passed.count and (halt := self.by_instructions(passed.count)):
                return halt
            if passed.is_complete:
                return None if passed.line else Halt("entry", text=START)
            if passed.is_behind_call and (halt := self._back_over_call()):
                return halt
            target = passed.line or self._halts.line()

    def _count_back(self, target: Line | None) -> _Passed:
        """Return the instructions of one source line that were executed last, back to the line's start, or to a function's return.

        target: the source line, if the step has gone back over some of its instructions already; otherwise None
        """
        trace = self._halts.guest.query("trace", Addresses).addresses
        words = self._halts.program.words({*trace, *(address - 4 for address in (*trace, self._halts.guest.pc))})
        next_one = self._halts.guest.pc
        for count, address in enumerate(reversed(trace)):
            line = self._halts.program.line(address)
            before = words.get(next_one - 4)
            if before and is_call(before.word) and address in words and is_return(words[address].word):
                is_other = target is not None and self._halts.program.line(next_one - 4) not in (None, target)
                return _Passed(count, target, is_other, True)
            if target is not None and line not in (None, target):
                return _Passed(count, target, True)
            target, next_one = target or line, address
            if line and address in self._halts.program.stops.get(line.file, {}).get(line.number, ()):
                return _Passed(count + 1, target, True)
        return _Passed(len(trace), target, len(trace) < TRACE_LENGTH)

    def _back_over_call(self) -> Halt | None:
        """Go back from the instruction after a call to the call. Return the halt if the program halts on the way; otherwise None."""
        call, stack = self._halts.guest.pc - 4, self._halts.stack()
        while True:
            if halt := self.to_halt(frozenset({call})):
                return halt
            if self._halts.stack() == stack:
                return None

    def to_halt(self, addresses: frozenset[int]) -> Halt | None:
        """Go back to a breakpoint or an access to watched data, to one of `addresses`, or to the start of the program.

        The nearest of these places counts. Return None at one of `addresses`; otherwise return the halt, at the start with the reason
        `entry`. Raises Paused and LabError as `by_instructions` does.
        """
        if self._last().reason == "data breakpoint" and not addresses:
            if halt := self.by_instructions(
                1
            ):  # the last instruction executed is the one that accessed the watched data
                return halt
        while True:
            breaks = sorted(self._halts.breakpoints.stopping_addresses | addresses)
            is_there = self._halts.timeline.back_to_halt(breaks, self._halts.client.wants_stop)
            if is_there is None:
                raise Paused
            if not is_there:
                return Halt("entry", text=START)
            hit = self._halts.timeline.hit
            if halt := self._halts.after_access(hit) if hit else self._halts.here(is_back=True):
                return halt
            if not hit and self._halts.guest.pc in addresses:
                return None
            if hit and (halt := self.by_instructions(1)):
                return halt
