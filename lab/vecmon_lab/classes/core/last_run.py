"""The registers before the last instruction of a run: a second machine executes the script up to there.

A run executes the instructions of a slice at once, so the state before the last instruction isn't seen. The second machine executes
the lines before the run and the slices before the user's last slice. Then it steps through this last slice.
"""

from collections.abc import Sequence
from dataclasses import dataclass

from ...guest.guest import VECTOR_LOOKS, Guest
from ...machine.answers import (
    Addresses,
    ControlRegisters,
    Position,
    ScalarRegisters,
    VectorRegister,
    is_refusal,
    is_stop,
)
from ...machine.lines import words_of
from ...machine.session import TOGETHER, Session
from ...page.state import State, set_registers, set_vectors
from .seats import may_change


@dataclass(frozen=True)
class Run:
    """A run, or several steps at once, of a user.

    session: the user's machine; line: the last line that executed the user's instructions; script: the lines before this line
    """

    session: Session
    script: bytes
    line: str


class LastRuns:
    """For each user, by digit, the last line that ended a run of the user's program or stepped it."""

    def __init__(self) -> None:
        self._lines: dict[str, tuple[Session, int]] = {}  # the session, and the line's number in its script

    def follow(self, session: Session, line: str, answer: Sequence[str], number: int) -> None:
        """Record an executed line and its answer. number: the number of the line in the session's script, from 1"""
        digit, words = line[0], words_of(line)
        if may_change(line, answer) and words != ["out"]:
            self._lines.pop(digit, None)
        if words[:1] in (["slices"], ["run"]):
            self._lines.update({part[0]: (session, number) for part in answer if is_stop(part)})
        elif words[:1] == ["step"] and not is_refusal(answer):
            self._lines[digit] = session, number

    def has(self, digit: str) -> bool:
        """Return whether a line is recorded for a user, so that `run` may be called."""
        return digit in self._lines

    def run(self, digit: str, present: Session) -> Run | None:
        """Return a user's last run; None if a checkpoint or another script has replaced its line.

        present: the session of the machine at present
        """
        session, number = self._lines[digit]
        return run_at(session, number) if session is present else None


def run_at(session: Session, number: int) -> Run | None:
    """Return the run that ended with a line of a session's script; None if a checkpoint has replaced the line.

    number: the number of the line, from 1 on
    """
    after = session.lines - number
    lines = session.short_script.splitlines(keepends=True)
    if number <= session.recorded.base[0].number or after < 0:
        return None
    place = len(lines) - after - 1
    return Run(session, b"".join(lines[:place]), lines[place].decode("ascii").rstrip("\n"))


def state_before(run: Run, digit: str, address: int) -> State | None:
    """Return the registers before the last instruction of a user's run; None if that instruction isn't at `address`.

    Raises LabError if the script can't be executed again.
    """
    words = words_of(run.line)
    slices = _slices_before(run, digit, int(words[1])) if words[0] == "slices" else 0
    with run.session.rewound(run.script) as copy:
        if slices:
            copy.do(f"* slices {slices}")
        if run.line[0] == "*":
            copy.do(f"{digit} stop")
        most = int(words[1]) if words[0] == "step" else copy.quantum
        return _walk(Guest(copy, int(digit)), address, most)


def _slices_before(run: Run, digit: str, number: int) -> int:
    """Return the number of slices of a run before the slice in which a user's program stops; 0 if the program doesn't stop.

    number: the number of slices that the run's line grants
    """
    granted = 0
    with run.session.rewound(run.script) as copy:
        while granted < number:
            lines = ["* slices 1"] * min(TOGETHER, number - granted)
            for answer in copy.do_all(lines):
                if any(part[0] == digit and is_stop(part) for part in answer):
                    return granted
                granted += 1
    return 0


def _walk(guest: Guest, address: int, most: int) -> State | None:
    """Step to a stop or a breakpoint, at most `most` times.

    Return the state before the last step that began at `address`; None if no step began there.
    """
    breaks = guest.query("breaks", Addresses).addresses
    found: State | None = None
    for _ in range(most):
        place, scalar, control, *vectors, step = guest.ask("state", "regs", "vcsr", *VECTOR_LOOKS, "step 1")
        if isinstance(place, Position) and place.pc == address:
            assert isinstance(scalar, ScalarRegisters) and isinstance(control, ControlRegisters)
            found = {"run": "stopped", "pc": f"{address:x}"}
            set_registers(found, scalar, control)
            set_vectors(found, [each for each in vectors if isinstance(each, VectorRegister)])
        if not isinstance(step, Position) or step.pc in breaks:
            break
    return found
