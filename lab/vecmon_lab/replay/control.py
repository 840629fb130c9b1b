"""Progress and interrupts of work that may take long."""

import time
from collections.abc import Callable
from dataclasses import dataclass

SECONDS = 2.0  # before the first report of progress, and between two reports


@dataclass(frozen=True)
class Advance:
    """The progress of long work.

    work: a description of the work, such as `going back`
    done, whole: the number of finished parts and of all parts, in any unit; `whole` is 0 if the number of all parts is unknown
    """

    work: str
    done: int
    whole: int

    @property
    def amount(self) -> str:
        """The finished part of the work, as `45 %` or `12 million ticks`."""
        return f"{100 * self.done // self.whole} %" if self.whole else f"{self.done / 1e6:,.0f} million ticks"

    @property
    def sentence(self) -> str:
        """The progress for a terminal."""
        return f"{self.work}: {self.amount}; Ctrl-C ends it"


class Interrupted(Exception):
    """The user has interrupted the work, for example with Ctrl-C."""


def never() -> bool:
    """Return False: the default `is_interrupted`, with which work is never interrupted."""
    return False


class Control:
    """Ends long work if the user asks for it, and reports its progress.

    is_interrupted: returns whether the user wants the work to end
    report: is called with the number of finished parts and of all parts when the work has taken two seconds, and every two seconds after
        that
    """

    def __init__(
        self,
        is_interrupted: Callable[[], bool] = never,
        report: Callable[[int, int], object] = lambda done, whole: None,
    ) -> None:
        self.is_interrupted, self._report = is_interrupted, report
        self._due = time.monotonic() + SECONDS
        self._done, self._whole = 0, 1

    @property
    def percent(self) -> int:
        """The finished part of the work in percent, at most 99; 0 before the first `advance`."""
        return min(99, 100 * self._done // self._whole)

    def advance(self, done: int, whole: int) -> None:
        """Set the number of finished parts and of all parts, in any unit. Raises Interrupted."""
        self._done, self._whole = done, max(done, whole, 1)
        self.check()

    def check(self) -> None:
        """Report progress if two seconds have passed since the last report. Raises Interrupted if the user wants the work to end."""
        if self.is_interrupted():
            raise Interrupted
        now = time.monotonic()
        if now >= self._due:
            self._due = now + SECONDS
            self._report(self._done, self._whole)
