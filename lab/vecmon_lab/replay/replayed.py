"""Execute a part of a run again in a separate session, up to a given number of instructions."""

from dataclasses import replace

from ..checkpoints.machine_state import User
from ..guest.guest import MAX_STEPS, Guest, stepping
from ..guest.runner import OUTPUT_BYTES, SAFE_STEPS
from ..machine.answers import Answer, Output, Stop, read
from ..machine.session import Session
from .control import Control
from .intervals import Interval
from . import saved_states
from .saved_states import SavedState, SavedStates

# Number of parts of a stretch that is executed again because a system call had too little room for its output.
PARTS = 16


class Replayed:
    """Executes an interval again from its start.

    session: a session without breakpoints, at first at the start of the interval, then after the instructions that `execute` has executed
    saved: the saved states up to the place that the session has reached
    dropped: the saved states that `execute` has dropped to make room for new ones
    """

    def __init__(self, session: Session, digit: int, saved: SavedStates, position: int) -> None:
        """session: a session at the start of the interval, without breakpoints; digit: the user's digit
        saved: the saved states before the interval; position: the position of the interval's start (see `SavedState`)
        """
        self.session, self.saved, self.dropped = session, saved, list[SavedState]()
        self._digit, self._position = digit, position

    def execute(self, interval: Interval, count: int, user: User | None, control: Control) -> list[Interval]:
        """Execute the first `count` instructions of an interval, and save states on the way.

        user: the user's image and pages; None if states can't be saved

        Returns the intervals into which the saved states divide the executed instructions. Raises Interrupted.
        """
        ticks, whole, left = interval.ticks, max(interval.count or 0, 1), count
        made = [replace(interval, count=0, ticks=0, has_stopped=False)]
        near, spacing = saved_states.NEAR, saved_states.spacing(len(user.pages) if user else 0)
        while left > near and user:
            part = min(spacing, left - near)
            self._step(part, control)
            made[-1].count, made[-1].ticks = part, ticks * part // whole
            self._position += made[-1].work
            made.append(Interval(self.session.size, 0, continues=True, maps=interval.maps))
            self._save(user)
            left -= part
            control.advance(count - left, count)
        self._step(left, control)
        made[-1].count, made[-1].ticks = left, ticks * left // whole
        return made

    def _save(self, user: User) -> None:
        """Save the present state."""
        if dropped := self.saved.add(self._position, Guest(self.session, self._digit), user):
            self.dropped.append(dropped)

    def _step(self, number: int, control: Control) -> None:
        """Execute a number of instructions, and leave enough room in the output buffer for each system call. Raises Interrupted."""
        size = self.session.size
        if self._step_at_once(number, MAX_STEPS, control):
            return
        session = self.session.rewound(self.session.script[:size], control.check)
        self.session.close()
        self.session = session
        if number <= saved_states.NEAR:
            self._step_at_once(number, SAFE_STEPS, control)
            return
        for done in range(0, number, number // PARTS):
            self._step(min(number // PARTS, number - done), control)

    def _step_at_once(self, number: int, at_once: int, control: Control) -> bool:
        """Execute `number` instructions, at most `at_once` of them with one line.

        Returns whether the output buffer had room for the output of each system call. If it had no room, the session can't be used any more.
        """
        commands = [*stepping(number, at_once), "out"]
        lines = "".join(f"{self._digit} {command}\n" for command in commands).encode("ascii")
        for _, answers in self.session.do_blocks(lines):
            control.check()
            if any(_is_full(read(answer.split("\n"))) for answer in answers):
                return False
        return True


def _is_full(answer: Answer) -> bool:
    """Return whether an answer shows that the output buffer is full."""
    if isinstance(answer, Output):
        return len(answer.data) == OUTPUT_BYTES
    return isinstance(answer, Stop) and answer.kind == "outfull"
