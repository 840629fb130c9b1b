"""The run of a guest that is the only user of a machine, from the whole script of its session.

To reach a place, another session starts at the last saved state before it, or at the beginning, and executes the script from there,
including all lines typed by hand. The recorder counts instructions and searches.
"""

from collections.abc import Generator, Sequence
from dataclasses import dataclass

from ..checkpoints.snapshot import take_snapshot
from ..guest.guest import Guest
from ..machine.answers import Addresses, Position
from ..machine.session import Session
from ..runs.initial_state import InitialState, initial_state_of_snapshot
from .control import Control
from .history import Halts, Parts
from .intervals import MAX_TICKS, Interval, Intervals
from .recorded import Search
from .replayed import Replayed
from .saved_states import SavedStates, spacing
from .watches import Watch

MAX_BACK = 1_000_000_000  # largest number of instructions of a way back


@dataclass(frozen=True)
class Replay:
    """A guest's earlier state in a separate session, until it is taken over or closed.

    place: the index of the interval; intervals: the parts of this interval that were executed
    guest: the guest in this session; replayed: the replay that has the session
    """

    place: int
    intervals: Sequence[Interval]
    guest: Guest
    replayed: Replayed

    def close(self) -> None:
        """End the session."""
        self.replayed.session.close()


class WholeScript:
    """A guest's run, from the lines of its session: a `Run` of `Replay`s.

    guest: the guest at the present
    saved: the saved states from which a replay may start
    control: ends long work if it is interrupted
    """

    limit = MAX_BACK
    too_far = f"there is no way back over more than {MAX_BACK:,} instructions"
    needs_counts = False

    def __init__(self, guest: Guest) -> None:
        self.guest, self.control = guest, Control()
        self.saved = SavedStates(lambda: guest.session.rewound(b""))
        self._intervals = Intervals(guest.user, guest.session.quantum)
        # The lines that `_intervals` hasn't followed yet: for each, the size of the script before the line, the line, and its answer.
        self._new = list[tuple[int, str, str]]()
        guest.session.on_lines = self._note
        guest.on_pause = self.save_if_due

    @property
    def number(self) -> int:
        """The number of times that the run has started anew."""
        self._catch_up()
        return self._intervals.number

    @property
    def stretches(self) -> list[Interval]:
        """The intervals up to the present."""
        self._catch_up()
        return self._intervals.intervals

    @property
    def percent(self) -> int:
        """The finished part of the current work in percent."""
        return self.control.percent

    @property
    def is_at_start(self) -> bool:
        """Whether no instruction was executed."""
        return not any(interval.work for interval in self.stretches)

    def count(self, place: int, most: int) -> Parts:
        """Set the count of an interval, even if it is above `most`."""
        interval = self._intervals.intervals[place]
        self._advance(place)
        breaks = interval.breaks if interval.has_stopped else ()
        search = Search(self._beginning(interval), (), breaks, self.control)
        interval.count = search.length(interval.ticks, self.guest.session.quantum) if interval.ticks else 0
        yield

    def state(self, place: int, offset: int) -> Generator[None, None, Replay]:
        """Return the state after `offset` instructions of an interval."""
        guest, intervals = self.guest, self._intervals.intervals
        replayed = Replayed(
            self._open(intervals[place]),
            guest.user,
            self.saved.until(intervals[place].start),
            sum(interval.work for interval in intervals[:place]),
        )
        try:
            user = self._intervals.user(guest.session, intervals[place]) if self._intervals.is_alone else None
            made = replayed.execute(intervals[place], offset, user, self.control)
            yield
        except BaseException:
            replayed.session.close()
            raise
        return Replay(place, made, Guest(replayed.session, guest.user), replayed)

    def first_halt(self, place: int, offset: int, halts: Halts) -> Generator[None, None, int | None]:
        """Return the first offset of an interval above `offset` at which the program halts; None if there is none.

        The program halts before the instruction at this offset executes.
        """
        interval = self._intervals.intervals[place]
        start = yield from self.state(place, offset + 1)
        try:
            user = self._intervals.user(self.guest.session, interval)
            initial_state = initial_state_of_snapshot(take_snapshot(start.guest, user))
        finally:
            start.close()
        search = Search(initial_state, halts.watches, halts.breaks, self.control)
        found = search.first(max(interval.ticks, interval.count or 0) + MAX_TICKS)[1]
        number = min((halt.number for halt in found), default=None)
        return offset + number if number and offset + number <= (interval.count or 0) else None

    def last_halt(self, place: int, halts: Halts) -> Generator[None, None, tuple[int, Watch | None] | None]:
        """Return the last offset of an interval at which the program halts, and the watched memory; None if there is no halt.

        For a breakpoint, this is the offset of the instruction that has the breakpoint, with None for the watched memory. For an access to
        watched memory, it is the offset after the instruction that accesses or changes the memory.
        """
        interval = self._intervals.intervals[place]
        count = interval.count or 0
        self._advance(place)
        search = Search(self._beginning(interval), halts.watches, halts.breaks, self.control)
        for found in search.back(max(1, interval.ticks, count), count):
            yield
            if found:
                last = max(found, key=lambda halt: halt.number - (halt.watch is None))
                return last.number - (last.watch is None), last.watch
        return None

    def close(self) -> None:
        """Do nothing: the session belongs to the guest, and the saved states stay valid."""

    def take_over(self, replay: Replay) -> None:
        """Move the guest to an earlier state, and forget the later ones. The guest's present breakpoints are set there."""
        guest, breaks = self.guest, self.guest.query("breaks", Addresses).addresses
        guest.session.close()
        guest.session, self.saved = replay.replayed.session, replay.replayed.saved
        guest.ask(*(f"break {address:x}" for address in breaks))
        guest.pc = guest.query("state", Position).pc
        self._intervals.cut(replay.place, replay.intervals, guest.session.size, breaks)
        for state in replay.replayed.dropped:
            self._intervals.join(state.size)
        self._new.clear()
        guest.session.on_lines = self._note

    def save_if_due(self) -> None:
        """Save the guest's state if it is far enough after the last saved state. The program is stopped."""
        self._catch_up()
        intervals = self._intervals.intervals
        if (
            not self._intervals.is_alone
            or not intervals
            or intervals[-1].work < spacing(0)
            or intervals[-1].has_stopped
        ):
            return
        user = self._intervals.user(self.guest.session)
        if intervals[-1].work >= spacing(len(user.pages)):
            self._intervals.split()
            dropped = self.saved.add(self._intervals.work, self.guest, user)
            if dropped:
                self._intervals.join(dropped.size)

    def present(self) -> InitialState:
        """Return the guest's present state."""
        self._catch_up()
        return initial_state_of_snapshot(take_snapshot(self.guest, self._intervals.user(self.guest.session)))

    def _note(self, size: int, lines: Sequence[str], answers: Sequence[str]) -> None:
        """Note lines and their answers that were added to the guest's script. size: the number of bytes of the script before them"""
        while self._new and self._new[-1][0] >= size:  # the guest has gone back, and the script has lost these lines
            self._new.pop()
        for line, answer in zip(lines, answers):
            self._new.append((size, line, answer))
            size += len(line) + 1

    def _catch_up(self) -> None:
        """Follow the lines that were added to the script since the last call."""
        session, new = self.guest.session, [each for each in self._new if each[0] < self.guest.session.size]
        size, first = self._intervals.size, new[0][0] if new else session.size
        if size < first:  # lines from before this run followed the session
            with session.rewound(session.script[:size]) as other:
                for line, lines in other.do_script(session.script[size:first]):
                    self._intervals.follow(line, lines)
        for _, line, answer in new:
            self._intervals.follow(line, answer.split("\n"))
        self._new.clear()

    def _advance(self, place: int) -> None:
        """Report that the work, on its way back from the present, has reached an interval. Raises Interrupted."""
        intervals = self._intervals.intervals
        self.control.advance(sum(interval.work for interval in intervals[place + 1 :]), self._intervals.work)

    def _open(self, interval: Interval) -> Session:
        """Return a session at the start of an interval, with no breakpoints. Raises Interrupted."""
        guest, commands = self.guest, ["stop", *(f"unbreak {it:x}" for it in interval.breaks)]
        lines = "".join(f"{guest.user} {command}\n" for command in commands).encode("ascii")
        return guest.session.rewound(guest.session.script[: interval.start] + lines, self.control.check)

    def _beginning(self, interval: Interval) -> InitialState:
        """Return the state at the start of an interval. Raises Interrupted."""
        saved = self.saved.at(interval.start)
        if saved:
            return initial_state_of_snapshot(saved.snapshot)
        user = self._intervals.user(self.guest.session, interval)
        with self._open(interval) as session:
            return initial_state_of_snapshot(take_snapshot(Guest(session, self.guest.user), user))
