"""The progress of a student at an exercise: a new line, a new place where the program stops, or more cases that pass.

A teacher can't know otherwise that a student who never presses *Check* is stuck.
"""

import time
from collections.abc import Callable

NO_HEADWAY_SECONDS = 600.0  # after which a student may need help
MAX_KNOWN = 20_000  # lines and stops; a student who has had more is at work


class Headway:
    """The progress of a student at the open exercise.

    since: the time of the last progress at this exercise, in seconds since 1970
    """

    def __init__(self, clock: Callable[[], float] = time.time) -> None:
        self._clock = clock
        self.since = clock()
        self._exercise = ""
        self._known = set[tuple[str, str | int]]()
        self._last: tuple[str, str, str, int] | None = None

    def follow(self, exercise: str, text: str, pc: str, best: int) -> None:
        """Record the present state of the student's work.

        exercise: the open exercise; text: the text of its source; pc: the program counter of the stopped program, or ""
        best: the most cases that passed in one try
        """
        now = exercise, text, pc, best
        if now == self._last:
            return
        self._last = now
        found: set[tuple[str, str | int]] = {("line", line.strip()) for line in text.split("\n")}
        found |= {("stop", pc), ("cases", best)}
        if exercise != self._exercise or len(self._known) > MAX_KNOWN:
            self.restart()
            self._exercise = exercise
        if not found <= self._known:
            self.since = self._clock()
            self._known |= found

    def restart(self) -> None:
        """Forget the progress, since another exercise is open, or since the student has been away."""
        self.since = self._clock()
        self._known.clear()

    def stuck_since(self) -> float | None:
        """Return since when the student is stuck, in seconds since 1970; None if the student isn't stuck.

        A student is stuck NO_HEADWAY_SECONDS after the last progress.
        """
        over = self.since + NO_HEADWAY_SECONDS
        return over if over <= self._clock() else None
