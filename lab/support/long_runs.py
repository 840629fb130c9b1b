"""A program that runs for a chosen number of instructions, and its states by a fresh machine."""

import pathlib
from collections.abc import Iterable, Iterator

from support.images import make_image
from vecmon_lab.checkpoints.machine_state import Shown, User, pages_of
from vecmon_lab.checkpoints.snapshot import take_snapshot
from vecmon_lab.guest.guest import Guest, started

HEAD, ROUND, TAIL = 4, 10, 1  # instructions before the rounds, of each, and after them
LAST_PLACE = 0x11080  # four bytes that change only after the last round
SOURCE = """
_start: li s0, 0
        la s1, data
        lui s2, {rounds}
loop:   addi s0, s0, 1
        vsetivli x0, 8, e32, m1, ta, ma
        vle32.v v8, (s1)
        vadd.vi v8, v8, 1
        vse32.v v8, (s1)
        sw s0, 64(s1)
        xor t0, t0, s0
        addi t1, t1, 3
        bne s0, s2, inner
        j done
inner:  j loop
done:   sw s0, 128(s1)
        ebreak
        .data
data:   .zero 4096
"""


def make_long_run(program: pathlib.Path, path: pathlib.Path, instructions: int) -> int:
    """Write an image that executes this number of instructions, or up to 40,960 more; return how many."""
    rounds = -(-instructions // (ROUND << 12))
    make_image(program, path, SOURCE.format(rounds=rounds))
    return HEAD + ROUND * (rounds << 12) + TAIL


def shown(guest: Guest) -> Shown:
    """All that is seen of a guest whose script only loads an image: registers, memory, trace, breakpoints."""
    user = User("image")
    user.pages = dict(pages_of(user, guest.session.images))
    return take_snapshot(guest, user).shown


def fresh_states(path: pathlib.Path, counts: Iterable[int]) -> Iterator[Shown]:
    """The states of a new machine after these numbers of instructions of an image, the smallest number first."""
    done = 0
    with started(path, write=lambda data: None) as guest:
        for count in counts:
            guest.pass_over(count - done)
            done = count
            yield shown(guest)
