"""A private machine executes the legs of a user again, and stops after any of their instructions."""

from collections.abc import Sequence
from dataclasses import replace

from .. import LabError
from ..checkpoints.machine_state import User, follow_line, pages_of
from ..guest.guest import MAX_STEPS, VECTOR_LOOKS, Guest
from ..guest.runner import OUTPUT_BYTES
from ..instructions.accesses import LINE_BYTES, PAGE_BYTES
from ..machine.answers import Output, first_word, read
from ..machine.lines import command_of
from ..machine.session import Session
from .history import Parts
from .legs import TRIED, TRYING, Legs, Place
from .saved_states import SavedState, SavedStates

CHUNK = 1 << 17  # instructions of one part of a replay
_LINE_COST = 32  # number of instructions that take as long as a line

Signature = Sequence[Sequence[str]]
"""Registers in the machine's answers."""


_FOLLOWED = ("enter", "load", "map", "vset")  # commands that change the user's image or pages


class ReplayDiffers(LabError):
    """A private machine behaves differently from the user's machine.

    offset: the number of the leg's instructions that were executed before the difference; it may be too small
    """

    def __init__(self, message: str, offset: int = 0) -> None:
        super().__init__(message)
        self.offset = offset


class PrivateMachine:
    """A machine with only one user, which saves states as it executes legs.

    output: the program's output that `out` has taken
    """

    def __init__(self, session: Session, legs: Legs, saved: SavedStates) -> None:
        """session: a session on a new machine; legs: the user's legs; saved: receives the states that the machine saves"""
        self.session, self.place, self.output = session, Place(), bytearray()
        self.executed = 0  # the cost of the replays, in instructions; each line counts as `_LINE_COST` instructions
        self.is_used_up = False  # whether the machine may go on differently from the user's machine
        self._all, self._legs, self.digit = legs, legs.legs, legs.digit
        self._saved, self._users = saved, dict[str, User]()

    def begin(self, state: SavedState) -> None:
        """Bring the new machine into a saved state by the state's lines."""
        lines, user = state.lines() or b"", state.snapshot.user
        for _ in self.session.do_blocks(lines):
            pass
        self.executed += _LINE_COST * lines.count(b"\n")
        self.place, self.output = replace(state.place), bytearray(state.output)
        self._users = {self.digit: User(user.image, [*user.maps], user.has_area, user.pages)}

    @property
    def guest(self) -> Guest:
        """The user on this machine."""
        return Guest(self.session, int(self.digit))

    def is_before(self, leg: int, offset: int) -> bool:
        """Return whether the machine can go on to a place, because it hasn't passed this place. leg, offset: as for `go_to`"""
        here = self.place
        return (
            (here.leg, here.offset) < (leg, offset) or (here.leg, here.offset) == (leg, offset) and not here.has_tried
        )

    def go_to(self, leg: int, offset: int, is_trying: bool = False) -> Parts:
        """Go on to a place. Raises ReplayDiffers if the program stops before the place.

        leg: the index of the place's leg; offset: the number of the leg's instructions before the place
        is_trying: whether to execute the instruction at which the leg stops as well
        """
        while (self.place.leg, self.place.offset) != (leg, offset):
            before = self.place.offset if self.place.leg == leg else 0
            part = self._part(leg, offset)
            for line, answer in zip(part, self.do(part)):
                if first_word(answer) != "stepped" and is_step(line):
                    self.is_used_up = True
                    raise ReplayDiffers(f"a replay stops at a step of the program: {answer}", before)
            self.save_if_due()
            yield
        stop = self._legs[leg].stop
        if is_trying and not self.place.has_tried and stop and stop.kind in TRIED:
            self.do([f"{self.digit} step 1{TRYING}"])
            self.place.has_tried = True

    def do(self, lines: Sequence[str]) -> list[str]:
        """Execute lines, and return their answers, one string for each line."""
        script, answers = "".join(f"{line}\n" for line in lines).encode("ascii"), list[str]()
        for _, block in self.session.do_blocks(script):
            answers += block
        for line, answer in zip(lines, answers):
            if line == f"{self.digit} out" and isinstance(reply := read([answer]), Output):
                self.output += reply.data
            elif command_of(line) in _FOLLOWED:
                follow_line(self._users, line)
                self._users[self.digit].pages = {}
        self.executed += _LINE_COST * len(lines)
        return answers

    def take_output(self) -> None:
        """Append the program's new output to `output` by the command `out`, which empties the output buffer."""
        self.do([f"{self.digit} out"])

    @property
    def position(self) -> int:
        """The number of instructions that the program has executed."""
        return sum(leg.count or 0 for leg in self._legs[: max(0, self.place.leg)]) + self.place.offset

    def save_if_due(self, gap: int | None = None) -> None:
        """Save the present state if enough instructions have executed since the last saved state before it.

        gap: the number of instructions that is enough; None for the usual spacing of saved states
        """
        position = self.position
        is_due = self._saved.is_due(position) if gap is None else self._saved.gap_before(position) >= gap
        if not is_due or not self._can_save:
            return
        user = self._users[self.digit]
        user.pages = user.pages or dict(pages_of(user, self.session.images))
        if gap is None and not self._saved.is_due(position, len(user.pages)):
            return
        self.take_output()
        self._saved.add(position, self.guest, replace(user, maps=[*user.maps]), replace(self.place), bytes(self.output))
        self.executed += _LINE_COST * len(user.pages) * (PAGE_BYTES // LINE_BYTES)

    @property
    def _can_save(self) -> bool:
        """Whether the present state can be saved.

        It must belong to the place, without a tried instruction. The output buffer must be empty, or have room for all output.
        """
        leg, lines = self._legs[self.place.leg], self._legs[self.place.leg].lines
        if self.place.has_tried or leg.is_blank:
            return False
        has_room = self._all.written < OUTPUT_BYTES and self.place.offset > 0
        return has_room or self.place.offset == 0 and bool(lines) and command_of(lines[-1]) == "out"

    def signature(self) -> Signature:
        """Return the answers that show all registers of the stopped program."""
        looks = [f"{self.digit} {look}" for look in ("regs", "vcsr", *VECTOR_LOOKS)]
        return self.session.do_all(looks)

    def _part(self, leg: int, offset: int) -> list[str]:
        """Return the lines of the next part of the way to a place, and set `place` to the end of this part."""
        lines, left, here = list[str](), CHUNK, self.place
        while left > 0 and (here.leg, here.offset) != (leg, offset):
            end = offset if here.leg == leg else (self._legs[here.leg].count or 0) if here.leg >= 0 else 0
            if here.offset < end:
                number = min(left, end - here.offset)
                lines += steps(self.digit, number)
                here.offset, left = here.offset + number, left - number
                self.executed += number
                continue
            stop = self._legs[here.leg].stop if here.leg >= 0 else None
            lines += [f"{self.digit} step 1{TRYING}"] * (stop is not None and stop.kind in TRIED and not here.has_tried)
            here.leg, here.offset, here.has_tried = here.leg + 1, 0, False
            lines += self._legs[here.leg].lines
            left -= _LINE_COST * len(self._legs[here.leg].lines)
            if lines and command_of(lines[-1]) == "out" and self._saved.is_due(self.position):
                break  # a state can be saved here
        return lines


def is_step(line: str) -> bool:
    """Return whether a line steps instructions, and none of them may stop."""
    return line.startswith("step ", 2) and not line.endswith(TRYING)


def steps(digit: str, number: int) -> list[str]:
    """Return the lines that step a number of instructions."""
    whole, rest = divmod(number, MAX_STEPS)
    return [f"{digit} step {MAX_STEPS}"] * whole + [f"{digit} step {rest}"] * (rest > 0)
