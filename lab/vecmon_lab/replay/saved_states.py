"""A bounded number of states of a run, saved as it executes, so that a replay needn't start at the run's beginning."""

import bisect
from collections.abc import Callable, Mapping, Sequence
from dataclasses import dataclass, field

from ..checkpoints.machine_state import User, fresh_memory
from ..checkpoints.snapshot import Snapshot, take_snapshot
from ..guest.guest import Guest
from ..machine.script import ScriptStart
from ..machine.session import Session
from .legs import Place

MAX_STATES = 48  # of one run; each has at most 1 MiB of memory, and equal pages are shared
# Instructions or ticks between two saved states, and the increase for each page.
SPACING, PAGE_SPACING = 1 << 22, 1 << 18
NEAR = 4096  # instructions between a saved state and the wanted instruction; the next step back mostly starts there

Opening = Callable[[], Session]
"""Opens a session on a new machine with the same images."""


@dataclass
class SavedState:
    """A user's state at some point of a run.

    position: a number that rises as the run goes on, such as the number of instructions that have executed
    size: the size in bytes of the start of the session's script that brings a machine into this state
    snapshot: the registers, the memory and the rest of the state
    start: the start of the session's script that brings a machine into this state, as a `ScriptStart`
    place: if the run has legs, the state's place in the legs
    output: if the run has legs, the program's output up to the state
    """

    position: int
    size: int
    snapshot: Snapshot
    place: Place
    output: bytes
    _digit: str
    _opening: Opening
    _fresh: Callable[[], Mapping[int, bytes]]
    start: ScriptStart = field(init=False)
    _lines: bytes | None = None
    _is_checked: bool = False

    def lines(self) -> bytes | None:
        """Return the lines that bring a new machine into this state; None if lines can't restore it exactly."""
        if not self._is_checked:
            self._is_checked = True
            lines = "".join(f"{line}\n" for line in self.snapshot.lines(self._digit, self._fresh())).encode("ascii")
            with self._opening() as session:
                for _ in session.do_blocks(lines):
                    pass
                made = take_snapshot(Guest(session, int(self._digit)), self.snapshot.user)
            self._lines = lines if made.shown == self.snapshot.shown else None
        return self._lines


class SavedStates:
    """Saved states of one user's run: many near the last place, and fewer the further away they are.

    states: in the order of their positions, at most `max_states`
    """

    def __init__(self, opening: Opening, max_states: int | None = None, max_bytes: int | None = None) -> None:
        """opening: opens a session on a new machine with the run's images

        max_states: the largest number of states; None for MAX_STATES
        max_bytes: the largest number of bytes of all states' memory; None for no limit. One state is always saved
        """
        self.states = list[SavedState]()
        self._opening, self._max_states, self._max_bytes = opening, max_states or MAX_STATES, max_bytes
        self._fresh: tuple[User, Mapping[int, bytes]] | None = None

    def is_due(self, position: int, pages: int = 0) -> bool:
        """Return whether a position is so far after the last saved position before it that a state should be saved there.

        pages: the number of the user's pages; with more pages, saved states are further apart
        """
        return self.gap_before(position) >= spacing(pages)

    def gap_before(self, position: int) -> int:
        """Return the distance of a position from the last saved position at or before it, or from the start."""
        place = bisect.bisect_right(self.states, position, key=lambda state: state.position)
        return position - (self.states[place - 1].position if place else 0)

    def add(
        self, position: int, guest: Guest, user: User, place: Place = Place(), output: bytes = b""
    ) -> SavedState | None:
        """Save the state of a guest, whose program is stopped, and whose output was taken.

        position: the position of the state, at which no state is saved yet
        user: the user's image and pages
        place, output: the values of these fields of the saved state

        Returns the saved state that was dropped to make room, which may be the new state; None if no state was dropped.
        """
        number = bisect.bisect(self.states, position, key=lambda state: state.position)
        before = self.states[number - 1].snapshot if self.states else None
        snapshot, digit = take_snapshot(guest, user, before), str(guest.user)
        opening, fresh = self._opening, lambda: self._fresh_memory(user)
        state = SavedState(position, guest.session.size, snapshot, place, output, digit, opening, fresh)
        state.start = guest.session.recorded.start(state.lines)
        self.states.insert(number, state)
        dropped = None
        while len(self.states) > self._max_states or self._has_too_many_bytes():
            dropped = self.states.pop(sparsest([each.position for each in self.states], position))
        guest.session.starts = self.starts()
        return dropped

    def _has_too_many_bytes(self) -> bool:
        if self._max_bytes is None or len(self.states) == 1:
            return False
        pages = {id(page): len(page) for state in self.states for page in state.snapshot.shown.memory.values()}
        return sum(pages.values()) > self._max_bytes

    def until(self, size: int) -> "SavedStates":
        """Return a new collection with the states that are reached by at most the first `size` bytes of the script."""
        states = SavedStates(self._opening, self._max_states, self._max_bytes)
        states.states, states._fresh = [state for state in self.states if state.size <= size], self._fresh
        return states

    def at(self, size: int) -> SavedState | None:
        """Return the saved state that is reached by the first `size` bytes of the script; None if there is none."""
        return next((state for state in self.states if state.size == size), None)

    def before(self, leg: int, offset: int) -> SavedState | None:
        """Return the last saved state that is at or before a place in the legs and that lines can restore; None if there is none.

        leg: the index of the place's leg; offset: the number of the leg's instructions before the place
        """
        earlier = (state for state in reversed(self.states) if (state.place.leg, state.place.offset) <= (leg, offset))
        return next((state for state in earlier if state.lines() is not None), None)

    def starts(self) -> Sequence[ScriptStart]:
        """Return the start of the script for each saved state, the shortest one first."""
        return [state.start for state in self.states]

    def _fresh_memory(self, user: User) -> Mapping[int, bytes]:
        """Return the contents of a user's pages before the program starts, by their addresses."""
        if self._fresh is None or self._fresh[0] != user:
            self._fresh = user, fresh_memory(self._opening, user)
        return self._fresh[1]


def spacing(pages: int) -> int:
    """Return the number of instructions or ticks between two saved states with this number of pages."""
    return SPACING + pages * PAGE_SPACING


def sparsest(positions: Sequence[int], here: int | None = None) -> int:
    """Return the index of the position to drop.

    A position leaves a gap between its neighbours if it is dropped. The position is dropped whose gap is smallest in relation to the gap's
    distance from `here`. The last position is never dropped.

    positions: in rising order; here: the position near which most positions are preserved; None for the last position
    """
    last, before = positions[-1] if here is None else here, [0, *positions]
    ends = [(before[at], positions[at + 1]) for at in range(len(positions) - 1)]
    gaps = [(end - start) / max(last - start, end - last) for start, end in ends]
    return gaps.index(min(gaps))
