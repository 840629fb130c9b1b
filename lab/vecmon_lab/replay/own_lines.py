"""The run of one user among others on a machine, from this user's own lines.

A private machine executes these lines again, without the lines of other users, and prints the same answers.
"""

from collections.abc import Callable, Generator
from dataclasses import dataclass

from ..guest.guest import Guest
from ..guest.runner import OUTPUT_BYTES
from ..machine.answers import Position, Stop, read
from ..machine.lines import command_of
from ..machine.session import Session
from .counting import count_to_stop, count_to_ticks, first_stop
from .history import Halts, NoWayBack, Parts
from .legs import Leg, Legs
from .private_machine import PrivateMachine
from . import saved_states
from .saved_states import SavedStates
from .watches import Watch

MAX_BACK = 300_000_000  # instructions of a history: a script has no room for more steps
MAX_BYTES = 8 << 20  # memory of the saved states
WORTH = 1 << 18  # number of instructions that take as long as setting up a saved state
FIRST_WINDOW, GROWTH = (
    4096,
    16,
)  # instructions of the first window of a backward search, and the factor from each window to the one before it
UNCOUNTED = "the instructions before this pause can't be counted"
NO_RECORDER = "a watched place is found by the recorder, which a history of own lines doesn't have"


@dataclass(frozen=True)
class Instant:
    """A state of the program on a private machine. It is valid until the next replay.

    count: the number of instructions executed before
    guest: the user on the private machine
    output: the program's output since the user's machine started
    stop: the stop that the program has made there; None if there was none, or if a line has changed something since
    is_written: whether a line has set registers or memory since the last instruction
    """

    count: int
    guest: Guest
    output: bytes
    stop: Stop | None
    is_written: bool


class OwnLines:
    """A user's run, from the user's own lines: a `Run` of `Instant`s. It doesn't need the recorder.

    legs: follows the user's lines
    saved: states from which a replay may start
    """

    limit = MAX_BACK
    too_far = f"there is no way back into a run of more than {MAX_BACK:,} instructions"
    needs_counts = True

    def __init__(self, digit: str, quantum: int, opening: Callable[[], Session]) -> None:
        """opening: opens a session on a new machine with the same images and quantum"""
        self.legs, self._quantum, self._opening = Legs(digit, quantum), quantum, opening
        self.saved = SavedStates(opening, max_bytes=MAX_BYTES)
        self._machine: PrivateMachine | None = None
        self._machine_number = 0  # the run to which the private machine belongs
        self._executed = 0

    @property
    def executed(self) -> int:
        """The cost of all replays: their instructions, and for each line the number of instructions that take as long."""
        return self._executed + (self._machine.executed if self._machine else 0)

    @property
    def number(self) -> int:
        """The number of times that the run has started anew."""
        return self.legs.number

    @property
    def stretches(self) -> list[Leg]:
        """The legs up to the present."""
        return self.legs.legs

    @property
    def percent(self) -> int:
        """The part of the run that the private machine has executed, in percent."""
        legs, place = self.legs.legs, self._machine.place if self._machine else None
        whole = sum(leg.most if leg.count is None else leg.count for leg in legs)
        done = sum(leg.count or 0 for leg in legs[: place.leg]) + place.offset if place and place.leg >= 0 else 0
        return min(99, 100 * done // max(1, whole))

    def count(self, place: int, most: int) -> Parts:
        """Set the count of a leg. Raises NoWayBack if the leg's ticks are unknown."""
        legs = self.legs.legs
        leg = legs[place]
        if leg.stop:
            yield from count_to_stop(legs, place, most, self._quantum, self._reach)
        elif leg.ticks is None:
            raise NoWayBack(UNCOUNTED)
        else:
            yield from count_to_ticks(legs, place, most, self._quantum, self._reach, self._open)

    def state(self, place: int, offset: int) -> Generator[None, None, Instant]:
        """Return the state after `offset` instructions of a leg."""
        legs = self.legs.legs
        leg, count = legs[place], sum(leg.count or 0 for leg in legs[:place]) + offset
        machine = yield from self._reach(place, offset)
        yield from machine.go_to(place, offset, is_trying=offset == leg.count)
        machine.take_output()
        # A later call may find more room in the buffer than the program had.
        machine.is_used_up = self.legs.written >= OUTPUT_BYTES
        stop = leg.stop if offset == leg.count else None
        if offset == 0 and place and not _writes(leg):
            stop = legs[place - 1].stop
        return Instant(count, machine.guest, bytes(machine.output), stop, offset == 0 and _writes(leg))

    def first_halt(self, place: int, offset: int, halts: Halts) -> Generator[None, None, int | None]:
        """Return the first offset of a leg above `offset` at which the program is at a breakpoint; None if there is none.

        Raises NoWayBack if memory is watched.
        """
        return (yield from self._first_break(place, offset, self.legs.legs[place].count or 0, halts))

    def last_halt(self, place: int, halts: Halts) -> Generator[None, None, tuple[int, Watch | None] | None]:
        """Return the last offset of a leg at which the program is at a breakpoint, and None for watched memory; None if there is none.

        The leg is searched in windows of instructions, the last window first. Raises NoWayBack if memory is watched.
        """
        end, size = (self.legs.legs[place].count or 0) - 1, FIRST_WINDOW
        while end >= 0:
            start = max(0, end - size + 1)
            last = yield from self._last_break(place, start, end, halts)
            if last is not None:
                return last, None
            end, size = start - 1, size * GROWTH
        return None

    def close(self) -> None:
        """End the private machine, and drop the saved states."""
        self._drop_machine()
        self.saved.states.clear()

    def _first_break(self, place: int, least: int, most: int, halts: Halts) -> Generator[None, None, int | None]:
        """Return the first offset above `least`, and at most `most`, at which there is a breakpoint; None if there is none."""
        if halts.watches:
            raise NoWayBack(NO_RECORDER)
        found = yield from first_stop(place, least, most, halts.breaks, self._reach)
        return found[0] if found and found[1].pc in halts.breaks else None

    def _last_break(self, place: int, start: int, end: int, halts: Halts) -> Generator[None, None, int | None]:
        """Return the last offset from `start` to `end` at which there is a breakpoint, found by single steps; None if there is none."""
        if halts.watches:
            raise NoWayBack(NO_RECORDER)
        last = None
        for first in range(start, end + 1, FIRST_WINDOW):
            machine = yield from self._reach(place, first)
            here = machine.guest.query("state", Position)
            number = min(FIRST_WINDOW, end + 1 - first)
            after = [read([answer]) for answer in machine.do([f"{machine.digit} step 1"] * number)]
            machine.place.offset += number
            pcs = [answer.pc for answer in (here, *after[:-1]) if isinstance(answer, Position)]
            last = max((first + at for at, pc in enumerate(pcs) if pc in halts.breaks), default=last)
            yield
        return last

    def _leave_machine(self) -> None:
        """Close the private machine, which can't be used for the next place.

        Its state is saved first if that is worth the time, so that a later replay can start there.
        """
        if self._machine and self._machine_number == self.legs.number and not self._machine.is_used_up:
            self._machine.save_if_due(WORTH)
        self._drop_machine()

    def _drop_machine(self) -> None:
        if self._machine:
            self._executed += self._machine.executed
            self._machine.session.close()
        self._machine = None

    def _open(self, leg: int, offset: int = 0) -> PrivateMachine:
        """Return a new private machine in the last saved state at or before a place, or at the start if there is no such state."""
        machine = PrivateMachine(self._opening(), self.legs, self.saved)
        if state := self.saved.before(leg, offset):
            machine.begin(state)
        return machine

    def _reach(self, leg: int, offset: int) -> Generator[None, None, PrivateMachine]:
        """Move a private machine to a place, and return it.

        The present machine goes on if it can. Otherwise a new one starts from the last saved state at or before the place.
        """
        machine = self._machine
        if machine is None or not self._is_useful(machine, leg, offset):
            self._leave_machine()
            machine = self._open(leg, offset)
            self._machine, self._machine_number = machine, self.legs.number
        near = offset - saved_states.NEAR
        if near > 0 and machine.is_before(leg, near):
            yield from machine.go_to(leg, near)
            machine.save_if_due(WORTH)
        yield from machine.go_to(leg, offset)
        return machine

    def _is_useful(self, machine: PrivateMachine, leg: int, offset: int) -> bool:
        """Return whether a machine can go on to a place, and no saved state is much nearer to this place."""
        if self._machine_number != self.legs.number or machine.is_used_up or not machine.is_before(leg, offset):
            return False
        state = self.saved.before(leg, offset)
        return state is None or state.position <= machine.position + WORTH


def _writes(leg: Leg) -> bool:
    """Return whether lines of a leg set registers or memory."""
    return any(command_of(line) != "out" for line in leg.lines)
