"""Checkpoints of drawn scripts: the machine goes on with the same answers."""

import pathlib
import random
from collections.abc import Iterator, Sequence

import pytest

from support.drawn_classes import drawn_class, outcome
from support.places import SUM
from vecmon_lab.checkpoints.checkpoint import NoCheckpoint, checkpoint, whole_checkpoint
from vecmon_lab.checkpoints.machine_state import machine_after
from vecmon_lab.machine.answers import Switches, read
from vecmon_lab.machine.lines import DIGITS, is_look
from vecmon_lab.machine.session import Checkpoint, Session

IMAGES = {"sum": SUM}
TURNS = [f"{digit} {word}" for digit in DIGITS for word in ("stop", "leave", "enter", "go")] + ["* slices 1"] * 8


def answers(session: Session, script: bytes, tail: Sequence[str]) -> Iterator[object]:
    """The answers to lines after a script, with the counts of the vector unit from the first of them on."""
    list(session.do_script(script))
    first = dict[str, int]()
    for line in tail:
        match read(answer := session.do(line)):
            case Switches(counts):
                first = first or counts | {"owner": 0}
                yield {name: count - first[name] for name, count in counts.items()}
            case _:
                yield answer


def trial(program: pathlib.Path, seed: int) -> Checkpoint:
    """Draws a script, makes its checkpoint, and goes on from both."""
    draws = random.Random(seed)
    quantum = draws.choice((1, 2, 3, 5, 8, 20, 100))

    def opening() -> Session:
        return Session(program, IMAGES, quantum=quantum)

    lines = drawn_class(draws, draws.choice((8, 30, 60, 150, 300)))
    script = "".join(f"{line}\n" for line in lines if not is_look(line)).encode()
    made = checkpoint(opening, script, IMAGES)
    rest = b"".join(script.splitlines(keepends=True)[made.number :])
    with opening() as session:
        machine = machine_after(session, script, IMAGES)
    for tail in (list(outcome(machine)), TURNS):
        with opening() as old, opening() as new:
            pairs = zip(tail, answers(old, script, tail), answers(new, made.lines + rest, tail), strict=True)
            assert not [pair for pair in pairs if pair[1] != pair[2]][:5]
    return made


@pytest.mark.parametrize("seed", range(40))
def test_checkpoint_restores_random_scripts(program: pathlib.Path, seed: int) -> None:
    trial(program, seed)


def test_unreproducible_state_is_refused(program: pathlib.Path) -> None:
    """A slice whose last tick leaves a program at a breakpoint: the next one stops it there, and `go` passes that."""

    def opening() -> Session:
        return Session(program, quantum=1)

    loop = ["map 10000 1 rwx", "asm 10000 addi x5, x5, 1", "asm 10004 jal x0, -4", "break 10004", "setpc 10000"]
    start = b"".join(b"1 %s\n" % line.encode() for line in ["enter", *loop, "go"])
    for more, number in ((0, 7), (1, 7), (2, 9)):
        script = start + b"* slices 1\n" * more
        assert checkpoint(opening, script, {}).number == number
    with pytest.raises(NoCheckpoint, match="about to stop at its breakpoint"):
        whole_checkpoint(opening, start + b"* slices 1\n", {})
    with pytest.raises(NoCheckpoint, match="no line"):
        checkpoint(opening, b"", {})


def test_checkpoint_of_checkpoint_is_identical(program: pathlib.Path) -> None:
    def opening() -> Session:
        return Session(program, IMAGES)

    for seed in range(4):
        lines = drawn_class(random.Random(seed), 40)
        script = "".join(f"{line}\n" for line in lines if not is_look(line)).encode()
        first = checkpoint(opening, script, IMAGES).lines
        assert checkpoint(opening, first, IMAGES).lines == first
