"""Make a checkpoint: lines that bring a new machine into the state in which a script leaves its machine.

The counts of the vector unit may differ.
"""

import os
import pathlib
import sys
from collections.abc import Mapping
from functools import partial

from .. import LabError
from ..machine.answers import Granted, read
from ..machine.program import images_of
from ..machine.session import Checkpoint, Session
from .machine_state import MachineState, Opening, replay_script, fresh_memory, machine_after
from .set_up import lines_of

MOMENTS = (
    0,
    1,
    2,
    4,
    8,
    16,
    32,
    64,
    128,
    256,
    512,
)  # distances from the end of a script, in lines, at which a checkpoint is tried


class NoCheckpoint(LabError):
    """No checkpoint of a machine's state can be made; the text says why."""


def checkpoint(opening: Opening, script: bytes, images: Mapping[str, pathlib.Path]) -> Checkpoint:
    """Make a checkpoint of the end of a script, or of an earlier place if the end has none.

    opening: opens a session on a new machine; images: the paths of the images that the machine can load, by name

    Raises NoCheckpoint, and errors of a session.
    """
    lines, why = script.splitlines(keepends=True), NoCheckpoint("the script has no line")
    for number in (len(lines) - back for back in MOMENTS if back < len(lines)):
        try:
            return Checkpoint(number, whole_checkpoint(opening, b"".join(lines[:number]), images))
        except NoCheckpoint as error:
            why = error
    raise why


def whole_checkpoint(opening: Opening, script: bytes, images: Mapping[str, pathlib.Path]) -> bytes:
    """Return lines that replace a whole script.

    Raises NoCheckpoint if there are no such lines, or if a comparison shows that the lines and the script leave machines in different states.
    """
    with opening() as session:
        machine = machine_after(session, script, images)
    waiting = [digit for digit, shown in machine.shown.items() if shown.is_at_breakpoint]
    if waiting:
        with opening() as session:
            replay_script(session, script)
            if any(_stops_at_once(session, machine, digit) for digit in waiting):
                raise NoCheckpoint("a running program is about to stop at its breakpoint")
    fresh = {digit: fresh_memory(opening, user) for digit, user in machine.users.items()}
    lines = "".join(f"{line}\n" for line in lines_of(machine, fresh)).encode("ascii")
    with opening() as session:
        if machine_after(session, lines, images) != machine:
            raise NoCheckpoint("the lines leave another machine")
    return lines


def _stops_at_once(session: Session, machine: MachineState, digit: str) -> bool:
    """Return whether the next slice would stop a running program at its present breakpoint.

    No lines could restore this state, since `go` skips a breakpoint at the program counter.
    """
    granted = read(session.do(f"* run {digit}"))
    pc = machine.shown[digit].registers.pc
    return isinstance(granted, Granted) and any((stop.kind, stop.pc) == ("break", pc) for _, stop in granted.stops)


def main(program: str, quantum: str, *images: str) -> None:
    """Read a script from standard input; print the number of lines that its checkpoint replaces, and the checkpoint."""
    paths = images_of(list(images))
    opening = partial(Session, pathlib.Path(program), paths, quantum=int(quantum))
    made = checkpoint(opening, sys.stdin.buffer.read(), paths)
    sys.stdout.buffer.write(b"%d\n" % made.number + made.lines)


if __name__ == "__main__":
    os.nice(10)
    main(*sys.argv[1:])
