"""The instructions of a run, one line for each: all of them, or those in a window."""

from collections.abc import Callable, Iterator
from contextlib import AbstractContextManager

from ..guest.changes import Retired, Stepper
from ..guest.guest import PACES, Guest
from ..guest.symbols import Symbols


def trace(start: Callable[[], AbstractContextManager[Guest]], symbols: Symbols, window: range) -> Iterator[str]:
    """Yield a line for each instruction of a run whose number is in the window. The first instruction has number 1.

    start: returns a guest at the start of the run. Instructions before the window execute in groups. If a call among them may have
    had too little room in the output buffer, they execute again from the start in smaller groups.
    """
    for pace in PACES:
        with start() as guest:
            if guest.pass_over(window.start - 1, *pace):
                stepper = Stepper(guest)
                yield from (_line(stepper.step(), symbols) for _ in window)
                return


def _line(retired: Retired, symbols: Symbols) -> str:
    """Return a line about an instruction: its address, its place relative to a symbol or `-`, its text, and its changes."""
    place = symbols.place(retired.pc) or "-"
    return f"{retired.pc:<8x}  {place:<18}  {retired.text:<32}  {'  '.join(map(str, retired.changes))}".rstrip()
