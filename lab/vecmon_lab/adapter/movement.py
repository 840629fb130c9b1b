"""Movements of a program: it runs, it is stepped by lines or instructions, or it goes back."""

from collections.abc import Callable, Sequence
from typing import Literal

from .backwards import Backwards
from .forwards import Forwards
from .halts import START, Halt, Halts, Paused
from .unwinding import CallFrame

StepKind = Literal["into", "over", "out"]


class Movement:
    """Moves a program forwards and back.

    halt: where the last movement ended; before the first movement, the entry
    """

    def __init__(self, halts: Halts, frames: Callable[[], Sequence[CallFrame]]) -> None:
        """frames: returns the call stack at the program counter, the innermost function first"""
        self.halt = Halt("entry")
        self._halts = halts
        self._forwards, self._backwards = Forwards(halts, frames), Backwards(halts, lambda: self.halt)

    def go(self) -> Halt:
        """Run the program until it stops by itself, meets a breakpoint whose condition holds, or accesses watched data. Return this halt."""
        return self._moved(self._forwards.go_on)

    def go_to(self, address: int) -> Halt:
        """Run the program as `go` does, but halt at `address` at the latest, with the reason `entry`."""
        return self._moved(lambda: self._forwards.run_to(address, 0) or Halt("entry"))

    def step(self, kind: StepKind, by_lines: bool) -> Halt:
        """Step the program into calls, over calls, or out of the present function. Return the halt.

        by_lines: whether a step ends at the next source line; otherwise it executes one instruction, or one call
        """
        if kind == "out":
            return self._moved(lambda: self._forwards.step_out() or (self._forwards.to_line() if by_lines else None))
        return self._moved(
            lambda: self._forwards.step_line(kind == "over") if by_lines else self._forwards.step_call(kind == "over")
        )

    def back(self, by_lines: bool) -> Halt:
        """Go back over one source line and the calls in it, or over one instruction. Return the halt. Raises LabError.

        by_lines: whether to go back over a source line; otherwise the program goes back over one instruction
        """
        return self._moved(self._backwards.by_line if by_lines else lambda: self._backwards.by_instructions(1))

    def back_to_halt(self) -> Halt:
        """Go back to a breakpoint whose condition holds, to an access to watched data, or to the start. Return this halt. Raises LabError."""
        return self._moved(lambda: self._backwards.to_halt(frozenset()) or Halt("entry", text=START))

    def _moved(self, move: Callable[[], Halt | None]) -> Halt:
        """Execute a movement, record its halt in the attribute `halt`, and return it.

        move: executes the movement, and returns the halt that ended it early, or None if the movement was completed. The reason of the halt
        is `step` if `move` returns None, and `pause` if it raises Paused.
        """
        try:
            self.halt = move() or Halt("step")
        except Paused:
            self.halt = Halt("pause")
        finally:
            self._halts.guest.empty_buffer()
        return self.halt
